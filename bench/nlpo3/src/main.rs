//! The Rust's side: nlpo3's own functions under the command line and the timing loop of drivers/driver.h.
//!
//!     nlpo3-bench memory WORDS
//!
//! writes the nanoseconds that loading the words took, and the bytes that are resident since.
#![allow(dead_code)]

mod char_string;
mod tokenizer;

use char_string::CharString;
use std::hint::black_box;
use std::io::{BufWriter, Write};
use std::{env, fs};
use tokenizer::{newmm::NewmmTokenizer, tcc::tcc_tokenizer::tcc_pos, trie_char::TrieChar};

pub struct Bench {
    op: String,
    texts: Vec<String>,
    /// The views that lookups start from: each text, or each of its places. Making them is not timed.
    views: Vec<CharString>,
    trie: TrieChar,
    cutter: NewmmTokenizer,
}

fn lines(path: &str) -> Vec<String> {
    fs::read_to_string(path).expect(path).split_terminator('\n').map(str::to_string).collect()
}

fn texts(path: &str) -> Vec<String> {
    if path.ends_with(".lines") {
        return lines(path);
    }
    vec![fs::read_to_string(path).expect(path)]
}

fn views(op: &str, texts: &[String]) -> Vec<CharString> {
    let whole = texts.iter().map(|text| CharString::new(text));
    match op {
        "prefix" => whole.collect(),
        "places" => whole.flat_map(|t| (0..t.chars_len()).map(move |b| t.substring(b, t.chars_len()))).collect(),
        _ => Vec::new(),
    }
}

impl Bench {
    fn cut(&self, text: &str) -> Vec<String> {
        self.cutter.segment_with_options(text, self.op == "safe", None).expect("a cut")
    }
}

/// Makes one pass over all texts.
#[unsafe(no_mangle)]
#[inline(never)]
pub extern "C" fn bench_pass(bench: &Bench) {
    match bench.op.as_str() {
        "decode" => bench.texts.iter().for_each(|text| drop(black_box(CharString::new(black_box(text))))),
        "clusters" => bench.texts.iter().for_each(|text| drop(black_box(tcc_pos(black_box(text))))),
        "prefix" | "places" => {
            bench.views.iter().for_each(|view| drop(black_box(TrieChar::prefix_ref(black_box(view), &bench.trie))));
        }
        "plain" | "safe" => bench.texts.iter().for_each(|text| drop(black_box(bench.cut(black_box(text))))),
        other => panic!("no operation {other}"),
    }
}

fn show(out: &mut impl Write, row: impl IntoIterator<Item = usize>) {
    for number in row {
        write!(out, "{number} ").expect("a write");
    }
    writeln!(out).expect("a write");
}

fn ends(tokens: Vec<String>) -> Vec<usize> {
    let counts = tokens.iter().map(|token| token.chars().count());
    counts.scan(0, |end, count| { *end += count; Some(*end) }).collect()
}

fn answers(bench: &Bench) {
    let mut out = BufWriter::new(std::io::stdout().lock());
    match bench.op.as_str() {
        "decode" => bench.texts.iter().for_each(|t| show(&mut out, CharString::new(t).chars().map(|c| c as usize))),
        "clusters" => bench.texts.iter().for_each(|t| show(&mut out, tcc_pos(t))),
        "prefix" => bench.views.iter().for_each(|v| show(&mut out, TrieChar::prefix_ref(v, &bench.trie))),
        "places" => {
            let words: usize = bench.views.iter().map(|v| TrieChar::prefix_ref(v, &bench.trie).len()).sum();
            writeln!(out, "{words}").expect("a write");
        }
        _ => bench.texts.iter().for_each(|t| show(&mut out, ends(bench.cut(t)))),
    }
}

fn now_ns() -> f64 {
    let mut t = libc::timespec { tv_sec: 0, tv_nsec: 0 };
    unsafe { libc::clock_gettime(libc::CLOCK_PROCESS_CPUTIME_ID, &mut t) };
    1e9 * t.tv_sec as f64 + t.tv_nsec as f64
}

fn best_ns(bench: &Bench) -> f64 {
    let (mut best, all, mut passes) = (f64::INFINITY, now_ns(), 1);
    for i in 0..3 {
        if i > 0 && now_ns() - all >= 2e9 {
            break;
        }
        let (start, mut made) = (now_ns(), 0);
        let took = loop {
            (0..passes).for_each(|_| bench_pass(bench));
            made += passes;
            let took = now_ns() - start;
            if took < 2e7 {
                passes *= 2;
            }
            if took >= 1e8 {
                break took;
            }
        };
        best = best.min(took / made as f64);
    }
    best
}

fn resident() -> usize {
    let statm = fs::read_to_string("/proc/self/statm").expect("statm");
    4096 * statm.split(' ').nth(1).expect("two numbers").parse::<usize>().expect("a number")
}

fn memory(path: &str) {
    let words = lines(path);
    let (before, start) = (resident(), now_ns());
    let cutter = NewmmTokenizer::from_word_list(words);
    println!("{:.0} {}", now_ns() - start, resident() - before);
    drop(black_box(cutter));
}

fn main() {
    let args: Vec<String> = env::args().collect();
    if args[1] == "memory" {
        return memory(&args[2]);
    }
    let words = args.get(4).map(|path| lines(path)).unwrap_or_default();
    let texts = texts(&args[3]);
    let cuts = args[2] == "plain" || args[2] == "safe";
    let (for_trie, for_cutter) = if cuts { (Vec::new(), words) } else { (words, Vec::new()) };
    let bench = Bench {
        op: args[2].clone(),
        views: views(&args[2], &texts),
        texts,
        trie: TrieChar::new(&for_trie.iter().map(|w| CharString::new(w)).collect::<Vec<_>>()),
        cutter: NewmmTokenizer::from_word_list(for_cutter),
    };
    match args[1].as_str() {
        "answers" => answers(&bench),
        "time" => println!("{:.1}", best_ns(&bench)),
        _ => bench_pass(&bench),
    }
}
