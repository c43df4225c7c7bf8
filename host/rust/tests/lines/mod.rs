//! The lines of the test programs of crates/, and what they are held to.
use fetlockice::{Cut, Dictionary, Error, Mode, Reason, Token};
use std::fs;

/// The lines of a test program with that operation, in fields, each with its answer.
pub fn lines(program: &str, operation: &str) -> Vec<(Vec<String>, String)> {
    let folder = format!("{}/../../crates/{program}", env!("CARGO_MANIFEST_DIR"));
    let read = |name| fs::read_to_string(format!("{folder}/{name}")).expect("the test program's files");
    let (asked, told) = (read("stdin"), read("stdout"));
    let fields = asked.lines().map(|line| line.split('\t').map(String::from).collect::<Vec<_>>());
    fields.zip(told.lines().map(String::from)).filter(|(line, _)| line[0] == operation).collect()
}

/// Holds the answer to each line, where there is one, to what is expected. At least so many lines have one.
pub fn hold(lines: Vec<(Vec<String>, String)>, least: usize, mut answer: impl FnMut(&[String]) -> Option<String>) {
    let mut held = 0;
    for (line, expected) in lines {
        if let Some(answer) = answer(&line) {
            assert_eq!(answer, expected, "{line:?}");
            held += 1;
        }
    }
    assert!(held >= least, "{held} lines");
}

/// The row is as long as needed, as those of this crate are.
pub fn roomy(field: &str) -> Option<()> {
    (field == "*").then_some(())
}

/// `E01.20*3` as four scalars; `-` as none.
pub fn cells(field: &str) -> Vec<u32> {
    let run = |part: &str| {
        let (cell, times) = part.split_once('*').unwrap_or((part, "1"));
        vec![u32::from_str_radix(cell, 16).expect("a cell"); times.parse().expect("a number")]
    };
    if field == "-" {
        Vec::new()
    } else {
        field.split('.').flat_map(run).collect()
    }
}

/// A text of scalars, where they are.
pub fn text(field: &str) -> Option<String> {
    cells(field).into_iter().map(char::from_u32).collect()
}

pub fn words(field: &str) -> Option<Dictionary> {
    let mut words = Dictionary::new();
    for part in field.split(',').filter(|_| field != "-") {
        let (word, class) = part.split_once(':').expect("a word and its class");
        words.add_class(&text(word)?, class.parse().expect("a class")).expect("a word that can be held");
    }
    Some(words)
}

pub fn detail(error: Error) -> usize {
    match error {
        Error::IllFormed(n) | Error::TooManyScalars(n) | Error::WordTooLong(n) => n,
        other => panic!("{other}: this can't arise here"),
    }
}

/// A line's answer.
pub fn told<T>(answer: Result<T, Error>, accepted: impl FnOnce(T) -> String) -> String {
    answer.map_or_else(|e| format!("! {} {}", e.number(), detail(e)), |all| format!("ok {}", accepted(all)))
}

pub fn mode(field: &str) -> Mode {
    match field {
        "plain" => Mode::Plain,
        "safe" => Mode::Safe,
        "sheet" => Mode::Sheet,
        other => panic!("no mode {other}"),
    }
}

/// The tokens are the text, each where it says.
pub fn hold_tokens<R>(text: &str, cut: &Cut<R>) {
    assert_eq!(cut.tokens.iter().map(|token| token.text).collect::<String>(), text);
    for token in &cut.tokens {
        let front = &text[..token.byte_end];
        assert!(front.ends_with(token.text) && front.chars().count() == token.end);
    }
}

/// The ends and the reasons of a text's tokens, and the edges.
pub fn told_reasons(text: &str, cut: &Cut<Reason>, between: &str) -> String {
    hold_tokens(text, cut);
    let pair = |token: &Token<Reason>| format!("{}{between}{}", token.end, token.reason.number());
    let pairs: Vec<_> = cut.tokens.iter().map(pair).collect();
    format!("{} {}", if pairs.is_empty() { "-".into() } else { pairs.join(",") }, cut.edges)
}
