use crate::{error::Error, ffi, Cut};

/// The bits of a cell.
const BITS: usize = 64;

/// Where a text may be broken: a bit for each position 0 to n of a text of n characters, set exactly at the token ends.
#[derive(Clone, Debug, PartialEq, Eq)]
pub struct BreakMap {
    end: usize,
    cells: Vec<u64>,
}

impl<R> Cut<'_, R> {
    /// The map of the token ends.
    ///
    /// # Panics
    ///
    /// If the tokens were changed so that their ends don't rise, or pass 65,535.
    pub fn break_map(&self) -> BreakMap {
        let end = self.tokens.last().map_or(0, |token| token.end);
        let ends: Vec<u32> =
            self.tokens.iter().map(|token| u32::try_from(token.end).expect("an end of a cut")).collect();
        let mut cells = vec![0; end / BITS + 1];
        ffi::break_map(end, &ends, &mut cells).expect("the ends of a cut");
        BreakMap { end, cells }
    }
}

impl BreakMap {
    /// The last position, which is the length of the text.
    pub fn end(&self) -> usize {
        self.end
    }

    /// The cells: bit p is bit p % 64, lowest first, of cell p / 64; bits above the last position are zero.
    pub fn cells(&self) -> &[u64] {
        &self.cells
    }

    /// Whether a token ends at a position. None ends above the last one.
    pub fn is_break(&self, position: usize) -> bool {
        self.cells.get(position / BITS).map_or(false, |cell| cell >> (position % BITS) & 1 == 1)
    }

    /// The number of breaks up to and including a position. Refused with 10 above the last one.
    pub fn up_to(&self, position: usize) -> Result<usize, Error> {
        ffi::breaks_up_to(self.end, &self.cells, position)
    }

    /// The first break above a position, if there is one. Refused with 10 above the last one.
    pub fn next(&self, position: usize) -> Result<Option<usize>, Error> {
        ffi::next_break(self.end, &self.cells, position)
    }

    /// All breaks, rising.
    pub fn iter(&self) -> Breaks<'_> {
        Breaks { map: self, position: 0 }
    }
}

/// The breaks of a map, rising.
#[derive(Clone, Debug)]
pub struct Breaks<'m> {
    map: &'m BreakMap,
    position: usize,
}

impl Iterator for Breaks<'_> {
    type Item = usize;

    fn next(&mut self) -> Option<usize> {
        let found = self.map.next(self.position).expect("a position of the map")?;
        self.position = found;
        Some(found)
    }

    fn size_hint(&self) -> (usize, Option<usize>) {
        let before = self.map.up_to(self.position).expect("a position of the map");
        let left = self.map.up_to(self.map.end).expect("a position of the map") - before;
        (left, Some(left))
    }
}

impl ExactSizeIterator for Breaks<'_> {}

impl std::iter::FusedIterator for Breaks<'_> {}

impl<'m> IntoIterator for &'m BreakMap {
    type Item = usize;
    type IntoIter = Breaks<'m>;

    fn into_iter(self) -> Breaks<'m> {
        self.iter()
    }
}
