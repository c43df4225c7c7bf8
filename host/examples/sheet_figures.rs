//! sheet_figures WORDS SHEET..: writes the release figures of all lines of the sheets, cut in safe mode by the words of the
//! file WORDS, one to a line. Each sheet is a batch, and the batches are joined.
use fetlockice::{decode, Cutter, Dictionary, Error, Figures, Mode};
use std::{env, fs, str};

/// The figures of a sheet's lines. A line that is refused is counted as such and stops no other.
fn sheet_figures(dictionary: &Dictionary, sheet: &[u8]) -> Result<Figures, Error> {
    let (mut cutter, mut figures) = (Cutter::new(), Figures::new());
    for line in sheet.split_inclusive(|&byte| byte == b'\n') {
        let line = line.strip_suffix(b"\n").unwrap_or(line);
        let fed = match str::from_utf8(line) {
            Ok(text) => figures.feed(&mut cutter, dictionary, text, Mode::Safe).map(|_| ()),
            Err(_) => decode(line).map_or_else(|refused| figures.feed_refused(refused), |_| Ok(())),
        };
        if fed == Err(Error::FiguresFull) {
            return fed.map(|()| figures);
        }
    }
    Ok(figures)
}

fn main() -> Result<(), Box<dyn std::error::Error>> {
    let mut paths = env::args().skip(1);
    let words = fs::read_to_string(paths.next().ok_or("usage: sheet_figures WORDS SHEET..")?)?;
    let dictionary = Dictionary::from_words(words.split_terminator('\n'))?;
    let mut release = Figures::new();
    for path in paths {
        release.join(&sheet_figures(&dictionary, &fs::read(path)?)?)?;
    }
    print!("{release}");
    Ok(())
}
