//! Images of word lists, made of any words. Nothing here has to be right: the library checks every record.
use crate::error::{Error, LoadError};
use crate::MAX_SCALARS;

const LAST: u16 = 0;
const WORD: u16 = 1;

/// The image of words with their classes, trimmed, in order and each once; of a word that comes twice the last class is
/// taken. `str` is ordered as scalars are. Refused as an add is, with 2 and 7.
pub fn image_of<'w>(words: impl IntoIterator<Item = (&'w str, u16)>) -> Result<Vec<u8>, Error> {
    let mut terms = words.into_iter().map(trimmed).collect::<Result<Vec<_>, Error>>()?;
    terms.sort_by_key(|term| term.0);
    let (mut image, mut count) = (Vec::new(), 0u32);
    for (at, (word, class)) in terms.iter().enumerate() {
        let comes_again = terms.get(at + 1).map_or(false, |next| next.0 == *word);
        if !word.is_empty() && !comes_again {
            put(&mut image, WORD, &[&class.to_le_bytes(), word.as_bytes()]);
            count += 1;
        }
    }
    put(&mut image, LAST, &[&count.to_le_bytes()]);
    Ok(image)
}

fn trimmed((word, class): (&str, u16)) -> Result<(&str, u16), Error> {
    let (scalars, kept) = (word.chars().count(), word.trim());
    if scalars > MAX_SCALARS {
        return Err(Error::TooManyScalars(scalars));
    }
    match kept.chars().count() {
        0..=255 => Ok((kept, class)),
        over => Err(Error::WordTooLong(over)),
    }
}

/// Puts a record behind the others: its length, its kind and its body.
fn put(image: &mut Vec<u8>, kind: u16, body: &[&[u8]]) {
    let size = 2 + body.iter().map(|part| part.len()).sum::<usize>();
    image.extend((size as u32).to_le_bytes());
    image.extend(kind.to_le_bytes());
    body.iter().for_each(|part| image.extend(*part));
}

/// The words of a file's lines, with their classes: 0, or what stands behind the first tab.
pub fn lines_of(text: &str) -> Result<Vec<(&str, u16)>, LoadError> {
    text.lines()
        .enumerate()
        .map(|(at, line)| match line.split_once('\t') {
            None => Ok((line, 0)),
            Some((word, class)) => Ok((word, class.trim().parse().map_err(|_| LoadError::Class(at + 1))?)),
        })
        .collect()
}
