use crate::{
    error::{Error, LoadError},
    ffi,
    image::{image_of, lines_of},
    scalars,
};
use std::{fs, path::Path};

/// The most nodes of a dictionary: the root, and one for each distinct non-empty prefix of its words.
pub const MAX_NODES: usize = 1_048_576;

const NODE_CELLS: usize = 8;

/// Words, each with a class, in a pool of its own that grows as words need it. Every call checks the whole pool. Two
/// dictionaries are equal if they hold the same words with the same classes, whatever the sizes of their pools. Cutting
/// reads no class.
#[derive(Clone, Debug)]
pub struct Dictionary {
    pool: Vec<u32>,
}

impl Dictionary {
    /// A dictionary without words.
    pub fn new() -> Dictionary {
        Dictionary::with_nodes(64)
    }

    /// A dictionary without words, of at least one node and at most [`MAX_NODES`] to begin with.
    pub fn with_nodes(nodes: usize) -> Dictionary {
        let mut pool = vec![0; NODE_CELLS * nodes.clamp(1, MAX_NODES)];
        ffi::fresh(&mut pool).expect("a pool of a node or more");
        Dictionary { pool }
    }

    /// The words of an iterator, trimmed as `str::trim` does, each with class 0. Blank ones are left out. Refused with 2,
    /// 7, and 8 where the words need more than [`MAX_NODES`] nodes. All are read at once, as an image.
    pub fn from_words<'w>(words: impl IntoIterator<Item = &'w str>) -> Result<Dictionary, Error> {
        Dictionary::from_image(&image_of(words.into_iter().map(|word| (word, 0)))?)
    }

    /// The same with classes. Of a word that comes twice the last class is taken.
    pub fn from_classed_words<'w>(words: impl IntoIterator<Item = (&'w str, u16)>) -> Result<Dictionary, Error> {
        Dictionary::from_image(&image_of(words)?)
    }

    /// The words of a file, one to a line, with a tab and the class in decimal behind those that have one.
    pub fn from_file(path: impl AsRef<Path>) -> Result<Dictionary, LoadError> {
        Ok(Dictionary::from_classed_words(lines_of(&fs::read_to_string(path)?)?)?)
    }

    /// The words and classes of an image. Refused with 9, and with 8 where they need more than [`MAX_NODES`] nodes.
    pub fn from_image(image: &[u8]) -> Result<Dictionary, Error> {
        let mut dictionary = Dictionary::with_nodes(1);
        match ffi::read_image(&mut dictionary.pool, image) {
            Err(Error::TooFewNodes(missing)) if missing < MAX_NODES => {
                dictionary = Dictionary::with_nodes(1 + missing);
                ffi::read_image(&mut dictionary.pool, image)?;
            }
            Err(Error::TooFewNodes(missing)) => return Err(Error::TooFewNodes(missing - (MAX_NODES - 1))),
            answer => drop(answer?),
        }
        Ok(dictionary)
    }

    /// The words and classes as an image: bytes to keep and to send. Equal dictionaries give equal images.
    pub fn to_image(&self) -> Vec<u8> {
        let mut image = match ffi::write_image(&self.pool, &mut []) {
            Err(Error::OutputTooShort(needed)) => vec![0; needed],
            other => unreachable!("an image of no bytes: {other:?}"),
        };
        ffi::write_image(&self.pool, &mut image).expect("the bytes needed");
        image
    }

    /// Takes over the cells of a pool, refused with 4 where they aren't a dictionary.
    pub fn from_pool(pool: Vec<u32>) -> Result<Dictionary, Error> {
        ffi::word_count(&pool)?;
        Ok(Dictionary { pool })
    }

    /// The pool's cells. Equal words, equal classes and an equal length give equal cells.
    pub fn pool(&self) -> &[u32] {
        &self.pool
    }

    /// Adds a word with class 0, trimmed as `str::trim` does; true if the words or their classes changed. Refused with 2, 7,
    /// and 8 where the pool can't grow.
    pub fn add(&mut self, word: &str) -> Result<bool, Error> {
        let word = scalars(word)?;
        self.grow_for(|pool| ffi::add(pool, &word))
    }

    /// Adds a word with a class, which replaces the class of a held word; the rest is as in [`Dictionary::add`].
    pub fn add_class(&mut self, word: &str, class: u16) -> Result<bool, Error> {
        let word = scalars(word)?;
        self.grow_for(|pool| ffi::add_class(pool, &word, class))
    }

    /// Removes a word, trimmed as `str::trim` does; true if the set changed. Refused with 2 and 7.
    pub fn remove(&mut self, word: &str) -> Result<bool, Error> {
        Ok(ffi::remove(&mut self.pool, &scalars(word)?)? == 1)
    }

    /// True if the word is held, as it is and not trimmed. Refused with 2.
    pub fn contains(&self, word: &str) -> Result<bool, Error> {
        Ok(ffi::contains(&self.pool, &scalars(word)?)? == 1)
    }

    /// The class of the word, if it is held, as it is and not trimmed. Refused with 2.
    pub fn class_of(&self, word: &str) -> Result<Option<u16>, Error> {
        let (held, class) = ffi::contains_class(&self.pool, &scalars(word)?)?;
        Ok((held == 1).then(|| class.try_into().expect("a class of sixteen bits")))
    }

    /// The lengths, in characters and rising, of the words that the text starts with. Refused with 2.
    pub fn prefix_lengths(&self, text: &str) -> Result<Vec<usize>, Error> {
        let mut lengths = [0; 255];
        let count = ffi::prefix_lengths(&self.pool, &scalars(text)?, &mut lengths)?;
        Ok(lengths[..count].iter().map(|&n| n as usize).collect())
    }

    /// How many words there are.
    pub fn len(&self) -> usize {
        ffi::word_count(&self.pool).expect("the pool is a dictionary")
    }

    pub fn is_empty(&self) -> bool {
        self.len() == 0
    }

    /// The cells of the nodes in use, which the root tells the number of.
    fn in_use(&self) -> &[u32] {
        &self.pool[..NODE_CELLS * self.pool[0] as usize]
    }

    /// Makes an add, as often as the pool has to grow for it; true if it reported a change.
    fn grow_for(&mut self, add: impl Fn(&mut [u32]) -> Result<usize, Error>) -> Result<bool, Error> {
        loop {
            match add(&mut self.pool) {
                Err(Error::TooFewNodes(missing)) if self.grow(missing) => {}
                answer => return Ok(answer? == 1),
            }
        }
    }

    /// Gives the pool at least so many more nodes, where it may have them. New nodes are zero, as those not in use must be.
    fn grow(&mut self, missing: usize) -> bool {
        let nodes = self.pool.len() / NODE_CELLS;
        if nodes + missing > MAX_NODES {
            return false;
        }
        self.pool.truncate(NODE_CELLS * nodes);
        self.pool.resize(NODE_CELLS * (nodes + missing).max(2 * nodes).min(MAX_NODES), 0);
        true
    }
}

/// The nodes in use stand in an order that the words alone decide, with their classes as marks (docs/POOL.md), and behind
/// them no cell means anything.
impl PartialEq for Dictionary {
    fn eq(&self, other: &Dictionary) -> bool {
        self.in_use() == other.in_use()
    }
}

impl Eq for Dictionary {}

impl Default for Dictionary {
    fn default() -> Dictionary {
        Dictionary::new()
    }
}
