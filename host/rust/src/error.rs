use std::{fmt, io};

/// Why a call was refused, with its detail.
#[derive(Clone, Copy, Debug, PartialEq, Eq, Hash)]
#[non_exhaustive]
pub enum Error {
    /// 1: the bytes aren't well-formed UTF-8. The length of the longest well-formed prefix.
    IllFormed(usize),
    /// 2: more than 65,535 scalars. That number.
    TooManyScalars(usize),
    /// 3: a cell isn't a Unicode scalar value. The index of the first. No call on a `str` has it.
    NotAScalar(usize),
    /// 4: the pool isn't a dictionary, or none that two plants share.
    NotADictionary,
    /// 5: scratch has fewer than 9n+128 cells. 9n+128. A `Cutter`'s own scratch always suffices.
    ScratchTooShort(usize),
    /// 6: the output has fewer cells than the answer. The cells needed. The outputs of this crate always suffice.
    OutputTooShort(usize),
    /// 7: the word is over 255 scalars after trimming. Its trimmed length.
    WordTooLong(usize),
    /// 8: the dictionary would pass 1,048,576 nodes, or a plant its limit. The nodes missing.
    TooFewNodes(usize),
    /// 9: an image isn't as it must be. The offset of its first record that isn't.
    BadImage(usize),
    /// 10: a position is wrong. It, or its index where it is one of a list.
    WrongPosition(usize),
    /// 11: a map has a bit set above n in its last used cell. The lowest such position. The maps of this crate have none.
    BitAboveEnd(usize),
    /// 12: the limits of two plants sum to more than the pool's nodes less one.
    LimitsTooLarge,
    /// 13: a release figure would be too large.
    FiguresFull,
}

impl Error {
    /// The refusal's number.
    pub fn number(self) -> u32 {
        match self {
            Error::IllFormed(_) => 1,
            Error::TooManyScalars(_) => 2,
            Error::NotAScalar(_) => 3,
            Error::NotADictionary => 4,
            Error::ScratchTooShort(_) => 5,
            Error::OutputTooShort(_) => 6,
            Error::WordTooLong(_) => 7,
            Error::TooFewNodes(_) => 8,
            Error::BadImage(_) => 9,
            Error::WrongPosition(_) => 10,
            Error::BitAboveEnd(_) => 11,
            Error::LimitsTooLarge => 12,
            Error::FiguresFull => 13,
        }
    }
}

impl fmt::Display for Error {
    fn fmt(&self, f: &mut fmt::Formatter<'_>) -> fmt::Result {
        match self {
            Error::IllFormed(n) => write!(f, "the bytes aren't well-formed UTF-8 after the first {n}"),
            Error::TooManyScalars(n) => write!(f, "{n} characters are more than 65535"),
            Error::NotAScalar(n) => write!(f, "the cell at {n} isn't a Unicode scalar value"),
            Error::NotADictionary => write!(f, "the pool isn't a dictionary"),
            Error::ScratchTooShort(n) => write!(f, "scratch needs {n} cells"),
            Error::OutputTooShort(n) => write!(f, "the output needs {n} cells"),
            Error::WordTooLong(n) => write!(f, "a word of {n} characters is longer than 255"),
            Error::TooFewNodes(n) => write!(f, "the dictionary has {n} nodes too few"),
            Error::BadImage(n) => write!(f, "the image's record at byte {n} isn't as it must be"),
            Error::WrongPosition(n) => write!(f, "the position {n}, or the one with that index, is wrong"),
            Error::BitAboveEnd(n) => write!(f, "the map has a bit above its end, at {n}"),
            Error::LimitsTooLarge => write!(f, "the limits sum to more than the nodes less one"),
            Error::FiguresFull => write!(f, "a release figure would be too large"),
        }
    }
}

impl std::error::Error for Error {}

/// Why a file of words wasn't loaded.
#[derive(Debug)]
pub enum LoadError {
    /// It can't be read, or isn't UTF-8.
    File(io::Error),
    /// The line with this number, counted from 1, has something else than a class behind its tab.
    Class(usize),
    /// Its words are refused.
    Refused(Error),
}

impl From<io::Error> for LoadError {
    fn from(error: io::Error) -> LoadError {
        LoadError::File(error)
    }
}

impl From<Error> for LoadError {
    fn from(error: Error) -> LoadError {
        LoadError::Refused(error)
    }
}

impl fmt::Display for LoadError {
    fn fmt(&self, f: &mut fmt::Formatter<'_>) -> fmt::Result {
        match self {
            LoadError::File(error) => write!(f, "{error}"),
            LoadError::Class(line) => write!(f, "line {line} has no class from 0 to 65535 behind its tab"),
            LoadError::Refused(error) => write!(f, "{error}"),
        }
    }
}

impl std::error::Error for LoadError {}

/// The answer, where the number is that of an accepted call.
pub(crate) fn accepted<T>(number: u32, detail: usize, answer: T) -> Result<T, Error> {
    Err(match number {
        0 => return Ok(answer),
        1 => Error::IllFormed(detail),
        2 => Error::TooManyScalars(detail),
        3 => Error::NotAScalar(detail),
        4 => Error::NotADictionary,
        5 => Error::ScratchTooShort(detail),
        6 => Error::OutputTooShort(detail),
        7 => Error::WordTooLong(detail),
        8 => Error::TooFewNodes(detail),
        9 => Error::BadImage(detail),
        10 => Error::WrongPosition(detail),
        11 => Error::BitAboveEnd(detail),
        12 => Error::LimitsTooLarge,
        13 => Error::FiguresFull,
        other => unreachable!("the library has no refusal {other}"),
    })
}
