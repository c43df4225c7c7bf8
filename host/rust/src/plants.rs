use crate::{decode, error::Error, ffi, scalars, Cut, Cutter, Mode, Reason, MAX_NODES};

const NODE_CELLS: usize = 8;

/// Which of the two plants that share a pool a call is of.
#[derive(Clone, Copy, Debug, PartialEq, Eq, Hash)]
pub enum Plant {
    A,
    B,
}

impl Plant {
    fn is_b(self) -> bool {
        self == Plant::B
    }
}

/// Two plants in one pool. Each adds, removes and cuts by words and classes of its own, and is charged a node for each
/// distinct non-empty prefix of its own words, up to a limit of its own. Nothing that one does changes an answer of the
/// other. The pool never grows.
#[derive(Clone, Debug)]
pub struct Plants {
    pool: Vec<u32>,
}

impl Plants {
    /// Two plants without words in a pool of so many nodes, at least one and at most [`MAX_NODES`], each with a limit in
    /// nodes. Refused with 12 where the limits sum to more than the nodes less one.
    pub fn start(nodes: usize, limit_a: usize, limit_b: usize) -> Result<Plants, Error> {
        let mut pool = vec![0; NODE_CELLS * nodes.clamp(1, MAX_NODES)];
        ffi::plants_start(&mut pool, limit_a, limit_b)?;
        Ok(Plants { pool })
    }

    /// Takes over the cells of a pool, refused with 4 where two plants don't share it.
    pub fn from_pool(pool: Vec<u32>) -> Result<Plants, Error> {
        ffi::plant_word_count(&pool, false)?;
        Ok(Plants { pool })
    }

    /// The pool's cells. Equal words, classes and limits of both plants and an equal length give equal cells.
    pub fn pool(&self) -> &[u32] {
        &self.pool
    }

    /// Adds a word with class 0 to a plant's own, trimmed as `str::trim` does; true if its words or their classes changed.
    /// Refused with 2, 7, and 8 where the plant's charge would pass its limit.
    pub fn add(&mut self, plant: Plant, word: &str) -> Result<bool, Error> {
        self.add_class(plant, word, 0)
    }

    /// Adds a word with a class, which replaces the class of a held word; the rest is as in [`Plants::add`].
    pub fn add_class(&mut self, plant: Plant, word: &str, class: u16) -> Result<bool, Error> {
        Ok(ffi::plant_add(&mut self.pool, plant.is_b(), &scalars(word)?, class)? == 1)
    }

    /// Removes a word from a plant's own, trimmed as `str::trim` does; true if its words changed. Refused with 2 and 7.
    pub fn remove(&mut self, plant: Plant, word: &str) -> Result<bool, Error> {
        Ok(ffi::plant_remove(&mut self.pool, plant.is_b(), &scalars(word)?)? == 1)
    }

    /// True if the plant holds the word, as it is and not trimmed. Refused with 2.
    pub fn contains(&self, plant: Plant, word: &str) -> Result<bool, Error> {
        Ok(self.class_of(plant, word)?.is_some())
    }

    /// The class of the word, if the plant holds it, as it is and not trimmed. Refused with 2.
    pub fn class_of(&self, plant: Plant, word: &str) -> Result<Option<u16>, Error> {
        let (held, class) = ffi::plant_contains(&self.pool, plant.is_b(), &scalars(word)?)?;
        Ok((held == 1).then(|| class.try_into().expect("a class of sixteen bits")))
    }

    /// The lengths, in characters and rising, of the plant's words that the text starts with. Refused with 2.
    pub fn prefix_lengths(&self, plant: Plant, text: &str) -> Result<Vec<usize>, Error> {
        let mut lengths = [0; 255];
        let count = ffi::plant_prefix_lengths(&self.pool, plant.is_b(), &scalars(text)?, &mut lengths)?;
        Ok(lengths[..count].iter().map(|&n| n as usize).collect())
    }

    /// How many words the plant has.
    pub fn len(&self, plant: Plant) -> usize {
        ffi::plant_word_count(&self.pool, plant.is_b()).expect("two plants share the pool")
    }

    pub fn is_empty(&self, plant: Plant) -> bool {
        self.len(plant) == 0
    }

    /// Cuts a text by the words of a plant, as [`Cutter::cut`] does by those of a dictionary. Refused with 2.
    pub fn cut<'t>(&self, plant: Plant, cutter: &mut Cutter, text: &'t str, mode: Mode) -> Result<Cut<'t>, Error> {
        let pool = &self.pool;
        cutter.ended(text, |cells, out, scratch| ffi::plant_cut(mode, cells, pool, plant.is_b(), out, scratch))
    }

    /// The same, and why each token ends where it does, as [`Cutter::explain`] says it. Refused with 2.
    pub fn explain<'t>(
        &self,
        plant: Plant,
        cutter: &mut Cutter,
        text: &'t str,
        mode: Mode,
    ) -> Result<Cut<'t, Reason>, Error> {
        let (pool, decoded) = (&self.pool, decode(text.as_bytes())?);
        cutter.told(text, &decoded, |cells, pairs, scratch| {
            ffi::plant_reasons(mode, cells, pool, plant.is_b(), pairs, scratch)
        })
    }

    /// Cuts many texts by the words of a plant: for each what [`Plants::cut`] gives. The pool is checked once for many texts
    /// together, as in [`Cutter::cut_lines`].
    pub fn cut_lines<'t>(
        &self,
        plant: Plant,
        cutter: &mut Cutter,
        lines: impl IntoIterator<Item = &'t str>,
        mode: Mode,
    ) -> Vec<Result<Cut<'t>, Error>> {
        cutter.lines_ended(lines, |rows| ffi::many::plant_cut_many(mode, &self.pool, plant.is_b(), rows))
    }

    /// The same with the reason of each token: for each text what [`Plants::explain`] gives.
    pub fn explain_lines<'t>(
        &self,
        plant: Plant,
        cutter: &mut Cutter,
        lines: impl IntoIterator<Item = &'t str>,
        mode: Mode,
    ) -> Vec<Result<Cut<'t, Reason>, Error>> {
        cutter.lines_told(lines, |rows| ffi::many::plant_reasons_many(mode, &self.pool, plant.is_b(), rows))
    }

    /// Replaces the words of a plant and their classes by those of an image; how many they are. Refused with 9, and with 8
    /// where their charge passes the plant's limit.
    pub fn read_image(&mut self, plant: Plant, image: &[u8]) -> Result<usize, Error> {
        ffi::plant_read_image(&mut self.pool, plant.is_b(), image)
    }

    /// The words of a plant and their classes as an image: equal ones give equal images, those of a
    /// [`Dictionary`](crate::Dictionary) too.
    pub fn to_image(&self, plant: Plant) -> Vec<u8> {
        let mut image = match ffi::plant_write_image(&self.pool, plant.is_b(), &mut []) {
            Err(Error::OutputTooShort(needed)) => vec![0; needed],
            other => unreachable!("an image of no bytes: {other:?}"),
        };
        ffi::plant_write_image(&self.pool, plant.is_b(), &mut image).expect("the bytes needed");
        image
    }
}
