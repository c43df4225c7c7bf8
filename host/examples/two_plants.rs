//! two_plants WORDS_A WORDS_B SHEET: puts the words of two files, one to a line, into one pool, each file as the words of a
//! plant of its own. It writes the lines of the file SHEET with | between tokens, cut in safe mode: all lines by plant A's
//! words, then all by plant B's.
use fetlockice::{Cutter, Mode, Plant, Plants};
use std::{env, error::Error, fs};

/// A limit that is never passed: a word takes at most a node for each of its characters.
fn limit(words: &str) -> usize {
    words.split_terminator('\n').map(|word| word.chars().count()).sum()
}

fn main() -> Result<(), Box<dyn Error>> {
    let paths: Vec<String> = env::args().skip(1).collect();
    if paths.len() != 3 {
        return Err("usage: two_plants WORDS_A WORDS_B SHEET".into());
    }
    let (a, b) = (fs::read_to_string(&paths[0])?, fs::read_to_string(&paths[1])?);
    let sheet = fs::read_to_string(&paths[2])?;
    let mut plants = Plants::start(1 + limit(&a) + limit(&b), limit(&a), limit(&b))?;
    for (plant, words) in [(Plant::A, &a), (Plant::B, &b)] {
        for word in words.split_terminator('\n') {
            plants.add(plant, word)?;
        }
    }
    for plant in [Plant::A, Plant::B] {
        for cut in plants.cut_lines(plant, &mut Cutter::new(), sheet.split_terminator('\n'), Mode::Safe) {
            let tokens: Vec<&str> = cut?.tokens.iter().map(|token| token.text).collect();
            println!("{}", tokens.join("|"));
        }
    }
    Ok(())
}
