//! Answers vector lines with nlpo3: the input side of a line on standard input, the expected side on standard output.
//! The lengths of lent rows are not looked at, and a cell that is no `char` is answered with `?`.
#![allow(dead_code)]

mod char_string;
mod tokenizer;

use char_string::CharString;
use std::io::{self, BufRead, Write};
use tokenizer::{edges, newmm::NewmmTokenizer, newmm_counted, tcc::tcc_tokenizer::tcc_pos, trie_char::TrieChar};

fn main() -> io::Result<()> {
    let mut out = io::BufWriter::new(io::stdout().lock());
    for line in io::stdin().lock().lines() {
        let line = line?;
        let fields: Vec<&str> = line.split('\t').collect();
        writeln!(out, "{}", answer(&fields).unwrap_or("?".to_string()))?;
    }
    out.flush()
}

fn answer(fields: &[&str]) -> Option<String> {
    let field = |k: usize| fields.get(k).copied();
    match field(0)? {
        "clusters" => Some(format!("ok {}", numbers(&tcc_pos(&text(field(1)?)?), ","))),
        "prefix" => {
            let dict = TrieChar::new(&words(field(1)?)?.iter().map(|w| CharString::new(w)).collect::<Vec<_>>());
            Some(format!("ok {}", numbers(&prefix_lengths(&dict, field(2)?)?, ",")))
        }
        "dict" => Some(format!("ok {}", script(field(2)?)?)),
        "cut" => {
            let told = told(field(1)? == "safe", &words(field(2)?)?, &text(field(3)?)?)?;
            Some(format!("ok {} {}", numbers(&told.ends, ","), told.edges))
        }
        "reasons" => {
            let told = told(field(1)? == "safe", &words(field(2)?)?, &text(field(3)?)?)?;
            Some(format!("ok {} {}", pairs(&told), told.edges))
        }
        _ => None,
    }
}

struct Told {
    ends: Vec<usize>,
    reasons: Vec<usize>,
    edges: usize,
}

/// The ends that the unchanged file gives, and the edges and reasons of the copy that tells them and gives the same tokens.
/// Samples are cut before the parts, so the tokens' own reasons are the last.
fn told(safe: bool, words: &[String], text: &str) -> Option<Told> {
    let tokens = NewmmTokenizer::from_word_list(words.to_vec()).segment_with_options(text, safe, None).ok()?;
    edges::take();
    edges::take_reasons();
    let counted = newmm_counted::NewmmTokenizer::from_word_list(words.to_vec()).segment_with_options(text, safe, None).ok()?;
    if tokens != counted || tokens.concat() != text {
        return None;
    }
    let mut end = 0;
    let ends: Vec<usize> = tokens
        .iter()
        .map(|token| {
            end += token.chars().count();
            end
        })
        .collect();
    let mut reasons = edges::take_reasons();
    let reasons = reasons.split_off(reasons.len().checked_sub(ends.len())?);
    Some(Told { ends, reasons, edges: edges::take() })
}

/// `end:reason` for each token, joined by `,`, `-` for none.
fn pairs(told: &Told) -> String {
    if told.ends.is_empty() {
        return "-".to_string();
    }
    told.ends.iter().zip(&told.reasons).map(|(end, reason)| format!("{end}:{reason}")).collect::<Vec<_>>().join(",")
}

/// The answers of a dictionary script, joined by `;`.
fn script(steps: &str) -> Option<String> {
    let mut dict = TrieChar::new(&[]);
    let mut answers = Vec::new();
    for step in steps.split(';') {
        let rest = step.get(1..)?;
        answers.push(match step.as_bytes()[0] {
            b'f' => {
                dict = TrieChar::new(&[]);
                "0".to_string()
            }
            b'+' | b'-' => {
                let before = dict.amount_of_words();
                let word = CharString::new(&text(rest.split(':').next()?)?);
                if step.starts_with('+') {
                    dict.add(&word);
                } else {
                    dict.remove(&word);
                }
                dict.amount_of_words().abs_diff(before).to_string()
            }
            b'?' => format!("{}.0", dict.contain(&CharString::new(&text(rest)?)) as usize),
            b'#' => dict.amount_of_words().to_string(),
            b'n' => nodes(&dict).to_string(),
            b'p' => numbers(&prefix_lengths(&dict, rest)?, "."),
            _ => return None,
        });
    }
    Some(answers.join(";"))
}

fn prefix_lengths(dict: &TrieChar, cells: &str) -> Option<Vec<usize>> {
    Some(TrieChar::prefix_ref(&CharString::new(&text(cells)?), dict))
}

/// The nodes of the trie. They are private, so they are counted in its debug output, where a word's own text is
/// quoted: no word here holds these letters.
fn nodes(dict: &TrieChar) -> usize {
    format!("{dict:?}").matches("TrieNode {").count()
}

/// Cells such as `E01.20*3`, `-` for none.
fn text(cells: &str) -> Option<String> {
    let mut made = String::new();
    if cells == "-" {
        return Some(made);
    }
    for run in cells.split('.') {
        let (cell, times) = run.split_once('*').unwrap_or((run, "1"));
        let c = char::from_u32(u32::from_str_radix(cell, 16).ok()?)?;
        for _ in 0..times.parse::<usize>().ok()? {
            made.push(c);
        }
    }
    Some(made)
}

/// Words such as `E01.E02:0`, joined by `,`, `-` for none. The Rust has no classes.
fn words(field: &str) -> Option<Vec<String>> {
    if field == "-" {
        return Some(Vec::new());
    }
    field.split(',').map(|word| text(word.split(':').next()?)).collect()
}

fn numbers(row: &[usize], mark: &str) -> String {
    if row.is_empty() {
        return "-".to_string();
    }
    row.iter().map(usize::to_string).collect::<Vec<_>>().join(mark)
}
