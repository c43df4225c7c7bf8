use crate::{decode, error::Error, ffi, Cut, Cutter, Dictionary, Mode, Reason};
use std::fmt;

/// The cells of release figures.
const FIGURES: usize = 16;

/// Where each figure stands: tokens by reason from the cell behind the tokens on, texts refused with 1 to 6 in the last six.
const TEXTS: usize = 0;
const CHARACTERS: usize = 1;
const TOKENS: usize = 2;
const EDGES: usize = 8;
const MOST_EDGES: usize = 9;

/// Release figures: over all texts that were fed so far.
#[derive(Clone, Copy, Debug, Default, PartialEq, Eq, Hash)]
pub struct Figures {
    cells: [u64; FIGURES],
}

impl Figures {
    /// The figures of no text.
    pub fn new() -> Figures {
        Figures::default()
    }

    /// Figures that were kept: any numbers.
    pub fn from_cells(cells: [u64; FIGURES]) -> Figures {
        Figures { cells }
    }

    /// The sixteen figures, in the order of the getters.
    pub fn cells(&self) -> &[u64; FIGURES] {
        &self.cells
    }

    /// Explains a text's cut as [`Cutter::explain`] does, and counts it. A text that is refused adds one to the texts and one
    /// to its refusal's count. Refused with 2; with 13, before that, where a figure would be too large, and the figures are
    /// then as they were.
    pub fn feed<'t>(
        &mut self,
        cutter: &mut Cutter,
        dictionary: &Dictionary,
        text: &'t str,
        mode: Mode,
    ) -> Result<Cut<'t, Reason>, Error> {
        let decoded = match decode(text.as_bytes()) {
            Ok(decoded) => decoded,
            Err(refused) => return self.feed_refused(refused).and(Err(refused)),
        };
        cutter.told(text, &decoded, |text, pairs, scratch| {
            ffi::feed(mode, &mut self.cells, ffi::Fed { text, pool: dictionary.pool(), pairs, scratch })
        })
    }

    /// Counts a text that was refused elsewhere with 1 to 6, bytes that [`decode`] refuses for one. An error with another
    /// number is no text's, and changes nothing. Refused with 13.
    pub fn feed_refused(&mut self, refused: Error) -> Result<(), Error> {
        ffi::feed_refused(&mut self.cells, refused.number())
    }

    /// Joins the figures of another batch. They are then those of both batches run as one. Refused with 13.
    pub fn join(&mut self, more: &Figures) -> Result<(), Error> {
        ffi::join_figures(&mut self.cells, &more.cells)
    }

    /// Texts, the refused ones too.
    pub fn texts(&self) -> u64 {
        self.cells[TEXTS]
    }

    /// Characters of the texts that were cut.
    pub fn characters(&self) -> u64 {
        self.cells[CHARACTERS]
    }

    pub fn tokens(&self) -> u64 {
        self.cells[TOKENS]
    }

    pub fn tokens_by(&self, reason: Reason) -> u64 {
        self.cells[TOKENS + reason.number() as usize]
    }

    /// Edges recorded in all texts.
    pub fn edges(&self) -> u64 {
        self.cells[EDGES]
    }

    /// The most edges in one text.
    pub fn most_edges(&self) -> u64 {
        self.cells[MOST_EDGES]
    }

    /// Texts refused with a number; only those from 1 to 6 are counted.
    pub fn refused(&self, number: u32) -> u64 {
        match number {
            1..=6 => self.cells[MOST_EDGES + number as usize],
            _ => 0,
        }
    }
}

/// A table with a line for each figure.
impl fmt::Display for Figures {
    fn fmt(&self, f: &mut fmt::Formatter) -> fmt::Result {
        let mut line = |name: &str, figure: u64| writeln!(f, "{name:<40}{figure:>20}");
        line("texts", self.texts())?;
        line("characters", self.characters())?;
        line("tokens", self.tokens())?;
        for reason in Reason::ALL {
            line(&format!("  {reason}"), self.tokens_by(reason))?;
        }
        line("edges", self.edges())?;
        line("most edges in one text", self.most_edges())?;
        for number in 1..=6 {
            line(&format!("texts refused with {number}"), self.refused(number))?;
        }
        Ok(())
    }
}
