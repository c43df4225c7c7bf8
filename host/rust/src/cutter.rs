use crate::{
    decode,
    error::{accepted, Error},
    ffi,
    ffi::many::Texts,
    scalars, Decoded, Dictionary,
};
use std::{fmt, mem};

/// How a text is cut.
#[derive(Clone, Copy, Debug, PartialEq, Eq, Hash)]
pub enum Mode {
    /// As a whole.
    Plain,
    /// In parts, where it has 140 characters or more.
    Safe,
    /// In parts as [`Mode::Safe`], but where a space ends a part it is cut right behind that space: no part but the last has
    /// under 100 characters.
    Sheet,
}

/// Why a token ends where it does, by the rule at its start. In a cut in parts it is about the part.
#[derive(Clone, Copy, Debug, PartialEq, Eq, Hash)]
pub enum Reason {
    /// It is a word of the dictionary.
    Word,
    /// No word starts there: it is a run of letters, digits or blanks, or a line's end.
    NonThai,
    /// Neither starts there: it is skipped to a word.
    ToWord,
    /// The same, skipped to such a run, where no word starts that is a place to stop at.
    ToNonThai,
    /// The same, skipped to the end of the text, or of its part.
    ToEnd,
}

impl Reason {
    /// All reasons, by their numbers 1 to 5.
    pub const ALL: [Reason; 5] = [Reason::Word, Reason::NonThai, Reason::ToWord, Reason::ToNonThai, Reason::ToEnd];

    /// The reason's number, 1 to 5.
    pub fn number(self) -> u32 {
        self as u32 + 1
    }

    fn told(number: u32) -> Reason {
        match number {
            1 => Reason::Word,
            2 => Reason::NonThai,
            3 => Reason::ToWord,
            4 => Reason::ToNonThai,
            5 => Reason::ToEnd,
            _ => unreachable!("a reason is 1 to 5"),
        }
    }
}

impl fmt::Display for Reason {
    fn fmt(&self, f: &mut fmt::Formatter) -> fmt::Result {
        f.write_str(match self {
            Reason::Word => "word",
            Reason::NonThai => "run of letters, digits or blanks",
            Reason::ToWord => "no word here: skipped to the next word",
            Reason::ToNonThai => "no word here: skipped to the next run",
            Reason::ToEnd => "no word here: skipped to the end",
        })
    }
}

/// A token: a part of the caller's text, and where it ends there. [`Cutter::explain`] gives its reason, too.
#[derive(Clone, Copy, Debug, PartialEq, Eq)]
pub struct Token<'t, R = ()> {
    pub text: &'t str,
    /// Its end in characters.
    pub end: usize,
    /// Its end in bytes.
    pub byte_end: usize,
    /// Why it ends there, where that was asked for.
    pub reason: R,
}

/// The tokens of a text, and the number of edges recorded in the whole cut.
#[derive(Clone, Debug, PartialEq, Eq)]
pub struct Cut<'t, R = ()> {
    pub tokens: Vec<Token<'t, R>>,
    pub edges: usize,
}

/// What the check of a claim finds.
#[derive(Clone, Copy, Debug, PartialEq, Eq, Hash)]
pub enum Verdict {
    /// Each token is a word that ends at a cluster end, or the span of the non-dictionary rule where no such word
    /// starts.
    Right,
    /// The first token that is not so, counted from 0.
    Wrong(usize),
}

/// What a call writes for a token: so many cells, which tell its end and its reason.
struct Written<R> {
    cells: usize,
    token: fn(&[u32]) -> (u32, R),
}

const ENDS: Written<()> = Written { cells: 1, token: |end| (end[0], ()) };
const PAIRS: Written<Reason> = Written { cells: 2, token: |pair| (pair[0], Reason::told(pair[1])) };

impl<R> Written<R> {
    /// The tokens of a text, by the cells that were written for them.
    fn tokens<'t>(&self, text: &'t str, decoded: &Decoded, cells: &[u32]) -> Vec<Token<'t, R>> {
        tokens(text, decoded, cells.chunks_exact(self.cells).map(self.token))
    }
}

/// The characters of texts that are joined for one call, unless a single text has more.
const JOINED: usize = 1 << 22;

/// The cells of a text's answer: number, count, edges, detail.
const ANSWER_CELLS: usize = 4;

/// Texts that wait to be cut in one call.
#[derive(Default)]
struct Joined<'t> {
    lines: Vec<(&'t str, Decoded)>,
    cells: Vec<u32>,
    ends: Vec<u32>,
    longest: usize,
}

impl<'t> Joined<'t> {
    fn push(&mut self, line: &'t str, decoded: Decoded) {
        self.cells.extend(decoded.scalars());
        self.ends.push(self.cells.len() as u32);
        self.longest = self.longest.max(decoded.scalars().len());
        self.lines.push((line, decoded));
    }
}

/// Cuts texts, with scratch of its own that serves again.
#[derive(Clone, Debug, Default)]
pub struct Cutter {
    ends: Vec<u32>,
    scratch: Vec<u32>,
}

impl Cutter {
    pub fn new() -> Cutter {
        Cutter::default()
    }

    /// Cuts a text by the words of a dictionary. Joined, the tokens are the text. Refused with 2.
    pub fn cut<'t>(&mut self, dictionary: &Dictionary, text: &'t str, mode: Mode) -> Result<Cut<'t>, Error> {
        self.ended(text, |cells, out, scratch| ffi::cut(mode, cells, dictionary.pool(), out, scratch))
    }

    /// What a call writes and tells of where a text's tokens end, which is lent its cells, a row of ends and scratch.
    pub(crate) fn ended<'t>(
        &mut self,
        text: &'t str,
        call: impl FnOnce(&[u32], &mut [u32], &mut [u32]) -> Result<(usize, usize), Error>,
    ) -> Result<Cut<'t>, Error> {
        let decoded = decode(text.as_bytes())?;
        let cells = decoded.scalars();
        self.ends.resize(self.ends.len().max(cells.len()), 0);
        let (count, edges) = call(cells, &mut self.ends, scratch_for(&mut self.scratch, cells.len()))?;
        Ok(Cut { tokens: ENDS.tokens(text, &decoded, &self.ends[..count]), edges })
    }

    /// Cuts a text as [`Cutter::cut`] does, and says why each token ends where it does. Refused with 2.
    pub fn explain<'t>(
        &mut self,
        dictionary: &Dictionary,
        text: &'t str,
        mode: Mode,
    ) -> Result<Cut<'t, Reason>, Error> {
        let decoded = decode(text.as_bytes())?;
        self.told(text, &decoded, |cells, pairs, scratch| ffi::reasons(mode, cells, dictionary.pool(), pairs, scratch))
    }

    /// What a call writes and tells of a text's tokens, which is lent its cells, a row of pairs and scratch.
    pub(crate) fn told<'t>(
        &mut self,
        text: &'t str,
        decoded: &Decoded,
        call: impl FnOnce(&[u32], &mut [u32], &mut [u32]) -> Result<(usize, usize), Error>,
    ) -> Result<Cut<'t, Reason>, Error> {
        let cells = decoded.scalars();
        self.ends.resize(self.ends.len().max(2 * cells.len()), 0);
        let (count, edges) = call(cells, &mut self.ends, scratch_for(&mut self.scratch, cells.len()))?;
        Ok(Cut { tokens: PAIRS.tokens(text, decoded, &self.ends[..2 * count]), edges })
    }

    /// Cuts many texts by the words of a dictionary: for each what [`Cutter::cut`] gives. The dictionary is checked once for
    /// many texts together, and not for each, so this is the call for short texts.
    pub fn cut_lines<'t>(
        &mut self,
        dictionary: &Dictionary,
        lines: impl IntoIterator<Item = &'t str>,
        mode: Mode,
    ) -> Vec<Result<Cut<'t>, Error>> {
        self.lines_ended(lines, |rows| ffi::many::cut_many(mode, dictionary.pool(), rows))
    }

    /// The same with the reason of each token: for each text what [`Cutter::explain`] gives.
    pub fn explain_lines<'t>(
        &mut self,
        dictionary: &Dictionary,
        lines: impl IntoIterator<Item = &'t str>,
        mode: Mode,
    ) -> Vec<Result<Cut<'t, Reason>, Error>> {
        self.lines_told(lines, |rows| ffi::many::reasons_many(mode, dictionary.pool(), rows))
    }

    /// What a call with many texts writes and tells of where their tokens end.
    pub(crate) fn lines_ended<'t>(
        &mut self,
        lines: impl IntoIterator<Item = &'t str>,
        call: impl Fn(Texts) -> Result<usize, Error>,
    ) -> Vec<Result<Cut<'t>, Error>> {
        self.by_lines(lines, &ENDS, &call)
    }

    /// What a call with many texts writes and tells of their tokens, in pairs.
    pub(crate) fn lines_told<'t>(
        &mut self,
        lines: impl IntoIterator<Item = &'t str>,
        call: impl Fn(Texts) -> Result<usize, Error>,
    ) -> Vec<Result<Cut<'t, Reason>, Error>> {
        self.by_lines(lines, &PAIRS, &call)
    }

    fn by_lines<'t, R>(
        &mut self,
        lines: impl IntoIterator<Item = &'t str>,
        written: &Written<R>,
        call: &impl Fn(Texts) -> Result<usize, Error>,
    ) -> Vec<Result<Cut<'t, R>, Error>> {
        let (mut cuts, mut joined) = (Vec::new(), Joined::default());
        for line in lines {
            match decode(line.as_bytes()) {
                Ok(decoded) => {
                    if joined.cells.len() + decoded.scalars().len() > JOINED {
                        self.by_joined(mem::take(&mut joined), written, call, &mut cuts);
                    }
                    joined.push(line, decoded);
                }
                Err(refused) => {
                    self.by_joined(mem::take(&mut joined), written, call, &mut cuts);
                    cuts.push(Err(refused));
                }
            }
        }
        self.by_joined(joined, written, call, &mut cuts);
        cuts
    }

    fn by_joined<'t, R>(
        &mut self,
        joined: Joined<'t>,
        written: &Written<R>,
        call: &impl Fn(Texts) -> Result<usize, Error>,
        cuts: &mut Vec<Result<Cut<'t, R>, Error>>,
    ) {
        if joined.lines.is_empty() {
            return;
        }
        self.ends.resize(self.ends.len().max(written.cells * joined.cells.len()), 0);
        let mut answers = vec![0; ANSWER_CELLS * joined.lines.len()];
        let rows = Texts {
            texts: &joined.cells,
            text_ends: &joined.ends,
            answers: &mut answers,
            out: &mut self.ends,
            scratch: scratch_for(&mut self.scratch, joined.longest),
        };
        call(rows).expect("rows that suffice");
        let mut used = 0;
        for ((line, decoded), told) in joined.lines.iter().zip(answers.chunks_exact(ANSWER_CELLS)) {
            let (cells, edges) = (written.cells * told[1] as usize, told[2] as usize);
            let tokens = written.tokens(line, decoded, &self.ends[used..used + cells]);
            cuts.push(accepted(told[0], told[3] as usize, ()).map(|()| Cut { tokens, edges }));
            used += cells;
        }
    }

    /// Checks ends, in characters, that another program gives for the plain cut of a text. Ours are right; others may
    /// be, too. Refused with 2.
    pub fn check_claim(&mut self, dictionary: &Dictionary, text: &str, ends: &[usize]) -> Result<Verdict, Error> {
        // an end that no cell holds is over the text's length, as is the largest that one holds
        let claim: Vec<u32> = ends.iter().map(|&end| u32::try_from(end).unwrap_or(u32::MAX)).collect();
        self.check(dictionary, &scalars(text)?, &claim)
    }

    fn check(&mut self, dictionary: &Dictionary, cells: &[u32], claim: &[u32]) -> Result<Verdict, Error> {
        let scratch = scratch_for(&mut self.scratch, cells.len());
        let (right, token) = ffi::check_claim(cells, dictionary.pool(), claim, scratch)?;
        Ok(if right { Verdict::Right } else { Verdict::Wrong(token) })
    }

    /// The same with the tokens themselves. A token that is not the part of the text at its place is wrong, as one at a
    /// wrong end is. Refused with 2.
    pub fn check_tokens(&mut self, dictionary: &Dictionary, text: &str, tokens: &[&str]) -> Result<Verdict, Error> {
        let decoded = decode(text.as_bytes())?;
        let mut rest = text;
        let mut ends = Vec::with_capacity(tokens.len());
        for token in tokens {
            match rest.strip_prefix(*token) {
                Some(behind) => rest = behind,
                None => break,
            }
            let end = decoded.positions().binary_search(&((text.len() - rest.len()) as u32));
            ends.push(end.expect("a token ends with a character") as u32);
        }
        let found = self.check(dictionary, decoded.scalars(), &ends)?;
        // tokens that are no part of the text are left out, so that the first of them is the token after the last end
        Ok(if ends.len() < tokens.len() && found == Verdict::Right { Verdict::Wrong(ends.len()) } else { found })
    }
}

/// The scratch cells for a text of so many characters.
fn scratch_for(scratch: &mut Vec<u32>, characters: usize) -> &mut [u32] {
    let needed = 9 * characters + 128;
    scratch.resize(scratch.len().max(needed), 0);
    &mut scratch[..needed]
}

/// The parts of a text between ends in characters, which rise to its length, each with its reason.
fn tokens<'t, R>(text: &'t str, decoded: &Decoded, told: impl Iterator<Item = (u32, R)>) -> Vec<Token<'t, R>> {
    let mut start = 0;
    told.map(|(end, reason)| {
        let end = end as usize;
        let byte_end = decoded.positions()[end] as usize;
        let token = Token { text: &text[start..byte_end], end, byte_end, reason };
        start = byte_end;
        token
    })
    .collect()
}
