//! cut_sheet WORDS SHEET: writes the lines of the file SHEET with | between tokens, cut in safe mode by the words of the file
//! WORDS, one to a line.
use fetlockice::{Cutter, Dictionary, Mode};
use std::{env, error::Error, fs};

fn main() -> Result<(), Box<dyn Error>> {
    let paths: Vec<String> = env::args().skip(1).collect();
    if paths.len() != 2 {
        return Err("usage: cut_sheet WORDS SHEET".into());
    }
    let dictionary = Dictionary::from_file(&paths[0])?;
    let sheet = fs::read_to_string(&paths[1])?;
    for cut in Cutter::new().cut_lines(&dictionary, sheet.split_terminator('\n'), Mode::Safe) {
        let tokens: Vec<&str> = cut?.tokens.iter().map(|token| token.text).collect();
        println!("{}", tokens.join("|"));
    }
    Ok(())
}
