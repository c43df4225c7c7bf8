//! Thai word cutting whose every answer is proved: a safe interface over the library of the repository's crates.
//!
//! ```
//! use fetlockice::{Cutter, Dictionary, Figures, Mode, Plant, Plants, Reason};
//!
//! let words = Dictionary::from_words(["กข", "กขค", "คง", "ง"])?;
//! let cut = Cutter::new().cut(&words, "กขคง", Mode::Safe)?;
//! let tokens: Vec<&str> = cut.tokens.iter().map(|token| token.text).collect();
//! assert_eq!(tokens, ["กข", "คง"]);
//!
//! // the words as bytes, to keep and to send: equal words and classes give equal images
//! let image = words.to_image();
//! assert_eq!(Dictionary::from_image(&image)?, words);
//!
//! // where lines may be broken, one bit for each position
//! let map = cut.break_map();
//! assert!(map.is_break(2) && !map.is_break(3));
//! assert_eq!((map.up_to(3)?, map.next(2)?, map.next(4)?), (1, Some(4), None));
//! assert_eq!(map.iter().collect::<Vec<_>>(), [2, 4]);
//!
//! // why each token ends where it does
//! let why = Cutter::new().explain(&words, "กขคง12.", Mode::Plain)?;
//! let reasons: Vec<Reason> = why.tokens.iter().map(|token| token.reason).collect();
//! assert_eq!(reasons, [Reason::Word, Reason::Word, Reason::NonThai, Reason::ToEnd]);
//!
//! // many short texts: the dictionary is checked once for all of them
//! let cuts = Cutter::new().cut_lines(&words, ["กขคง", "", "งกข"], Mode::Safe);
//! let counts: Vec<usize> = cuts.iter().map(|cut| cut.as_ref().map_or(0, |cut| cut.tokens.len())).collect();
//! assert_eq!(counts, [2, 0, 2]);
//! let whys = Cutter::new().explain_lines(&words, ["กขคง", "12."], Mode::Plain);
//! assert_eq!(whys[1].as_ref().map(|why| why.tokens[0].reason), Ok(Reason::NonThai));
//!
//! // figures over all texts of a release
//! let (mut cutter, mut figures) = (Cutter::new(), Figures::new());
//! for text in ["กขคง", "12.", ""] {
//!     figures.feed(&mut cutter, &words, text, Mode::Plain)?;
//! }
//! assert_eq!((figures.texts(), figures.characters(), figures.tokens()), (3, 7, 4));
//! assert_eq!(figures.tokens_by(Reason::Word), 2);
//!
//! // two plants that share a pool: each adds, removes and cuts by its own words, up to its own limit
//! let mut plants = Plants::start(64, 40, 23)?;
//! plants.add(Plant::A, "กข")?;
//! plants.add_class(Plant::B, "กขคง", 7)?;
//! assert_eq!((plants.len(Plant::A), plants.class_of(Plant::B, "กขคง")?), (1, Some(7)));
//! assert_eq!(plants.cut(Plant::B, &mut cutter, "กขคง", Mode::Plain)?.tokens.len(), 1);
//! assert_eq!(plants.cut_lines(Plant::B, &mut cutter, ["กขคง", "กข"], Mode::Plain).len(), 2);
//! # Ok::<(), fetlockice::Error>(())
//! ```
mod cutter;
mod decoded;
mod dictionary;
mod error;
mod ffi;
mod figures;
mod image;
mod map;
mod plants;

pub use cutter::{Cut, Cutter, Mode, Reason, Token, Verdict};
pub use decoded::{decode, Decoded};
pub use dictionary::{Dictionary, MAX_NODES};
pub use error::{Error, LoadError};
pub use figures::Figures;
pub use map::{BreakMap, Breaks};
pub use plants::{Plant, Plants};

/// The most scalars of a text.
pub const MAX_SCALARS: usize = 65_535;

/// Where the clusters of a text end, in characters. Refused with 2.
pub fn clusters(text: &str) -> Result<Vec<usize>, Error> {
    let text = scalars(text)?;
    let mut out = vec![0; text.len()];
    let count = ffi::clusters(&text, &mut out)?;
    Ok(out[..count].iter().map(|&end| end as usize).collect())
}

/// A cluster, as the second matcher tells it.
#[derive(Clone, Copy, Debug, PartialEq, Eq)]
pub struct Cluster {
    /// Its end in characters.
    pub end: usize,
    /// The number of the alternative that won it, 1 to 24; 0 for a character that none takes.
    pub winner: u32,
}

/// The clusters of a text by the second matcher, which is slow, with the alternative that won each. Refused with 2.
pub fn clusters_with_winners(text: &str) -> Result<Vec<Cluster>, Error> {
    let text = scalars(text)?;
    let (mut ends, mut winners) = (vec![0; text.len()], vec![0; text.len()]);
    let count = ffi::winners(&text, &mut ends, &mut winners)?;
    let told = ends[..count].iter().zip(&winners);
    Ok(told.map(|(&end, &winner)| Cluster { end: end as usize, winner }).collect())
}

fn scalars(text: &str) -> Result<Vec<u32>, Error> {
    Ok(decode(text.as_bytes())?.into_scalars())
}
