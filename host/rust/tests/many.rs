//! Many texts in one call: each is answered as the lines of crates/test_cut and crates/test_reasons say of it by itself, by
//! the words of a dictionary and by those of a plant.
use fetlockice::{Cut, Cutter, Dictionary, Error, Mode, Plant, Plants, Reason};
use lines::{hold_tokens, lines, mode, roomy, text, told, told_reasons, words};
use std::collections::BTreeMap;

// some of it only other tests use
#[allow(dead_code)]
mod lines;

/// The texts of all lines with the same mode and words, each with its answer.
struct Group {
    mode: Mode,
    words: Dictionary,
    texts: Vec<(String, String)>,
}

/// The groups of a program's lines, a text that is too long and an empty one among those of each.
fn groups(program: &str, operation: &str) -> Vec<Group> {
    let mut all: BTreeMap<(String, String), Vec<(String, String)>> = BTreeMap::new();
    for (line, expected) in lines(program, operation) {
        if let (Some(()), Some(()), Some(text)) = (roomy(&line[4]), roomy(&line[5]), text(&line[3])) {
            all.entry((line[1].clone(), line[2].clone())).or_default().push((text, expected));
        }
    }
    let long = "ก".repeat(65_536);
    let whole = |((how, field), mut texts): ((String, String), Vec<(String, String)>)| {
        texts.insert(texts.len() / 2, (long.clone(), "! 2 65536".into()));
        texts.push((String::new(), "ok - 0".into()));
        Some(Group { mode: mode(&how), words: words(&field)?, texts })
    };
    all.into_iter().filter_map(whole).collect()
}

impl Group {
    fn lines(&self) -> impl Iterator<Item = &str> {
        self.texts.iter().map(|(text, _)| text.as_str())
    }

    /// A pool whose plant B has the words of the group, and plant A another.
    fn planted(&self) -> Plants {
        let nodes = self.words.pool()[0] as usize;
        let mut plants = Plants::start(nodes + 4, 4, nodes - 1).unwrap();
        plants.add(Plant::A, "กขคง").unwrap();
        plants.read_image(Plant::B, &self.words.to_image()).unwrap();
        plants
    }

    /// Holds the answers of one call to those of the lines; how many.
    fn hold<'t, R>(&'t self, cuts: Vec<Result<Cut<'t, R>, Error>>, spelled: impl Fn(&str, &Cut<R>) -> String) -> usize {
        assert_eq!(cuts.len(), self.texts.len());
        for ((text, expected), cut) in self.texts.iter().zip(cuts) {
            assert_eq!(&told(cut, |cut| spelled(text, &cut)), expected, "{text} {:?}", self.mode);
        }
        self.texts.len()
    }
}

/// The ends of a text's tokens, and the edges.
fn told_ends(text: &str, cut: &Cut) -> String {
    hold_tokens(text, cut);
    let ends: Vec<_> = cut.tokens.iter().map(|token| token.end.to_string()).collect();
    format!("{} {}", if ends.is_empty() { "-".into() } else { ends.join(",") }, cut.edges)
}

fn told_pairs(text: &str, cut: &Cut<Reason>) -> String {
    told_reasons(text, cut, ":")
}

#[test]
fn cuts_of_many_lines() {
    let (mut cutter, mut held) = (Cutter::new(), 0);
    for group in groups("test_cut", "cut") {
        held += group.hold(cutter.cut_lines(&group.words, group.lines(), group.mode), told_ends);
        let by_plant = group.planted().cut_lines(Plant::B, &mut cutter, group.lines(), group.mode);
        held += group.hold(by_plant, told_ends);
    }
    assert!(held >= 6000, "{held} texts");
}

#[test]
fn reasons_of_many_lines() {
    let (mut cutter, mut held) = (Cutter::new(), 0);
    for group in groups("test_reasons", "reasons") {
        held += group.hold(cutter.explain_lines(&group.words, group.lines(), group.mode), told_pairs);
        let by_plant = group.planted().explain_lines(Plant::B, &mut cutter, group.lines(), group.mode);
        held += group.hold(by_plant, told_pairs);
    }
    assert!(held >= 1600, "{held} texts");
}

/// The texts of every line and the words of every group, in each mode: as the calls with one text answer.
#[test]
fn as_by_themselves() {
    let groups = groups("test_reasons", "reasons");
    let texts: Vec<&str> =
        groups.iter().flat_map(|group| group.lines().take(2)).filter(|text| text.len() < 2000).collect();
    let (mut one, mut many) = (Cutter::new(), Cutter::new());
    for group in groups.iter().step_by(40) {
        let plants = group.planted();
        for mode in [Mode::Plain, Mode::Safe, Mode::Sheet] {
            let lines = || texts.iter().copied();
            let cuts: Vec<_> = lines().map(|text| one.cut(&group.words, text, mode)).collect();
            assert_eq!(many.cut_lines(&group.words, lines(), mode), cuts);
            assert_eq!(plants.cut_lines(Plant::B, &mut many, lines(), mode), cuts);
            let whys: Vec<_> = lines().map(|text| one.explain(&group.words, text, mode)).collect();
            assert_eq!(many.explain_lines(&group.words, lines(), mode), whys);
            assert_eq!(plants.explain_lines(Plant::B, &mut many, lines(), mode), whys);
            let by_a: Vec<_> = lines().map(|text| plants.explain(Plant::A, &mut one, text, mode)).collect();
            assert_eq!(plants.explain_lines(Plant::A, &mut many, lines(), mode), by_a);
        }
    }
}

#[test]
fn no_lines() {
    let (mut cutter, words) = (Cutter::new(), Dictionary::new());
    assert!(cutter.cut_lines(&words, [], Mode::Plain).is_empty());
    assert!(cutter.explain_lines(&words, [], Mode::Safe).is_empty());
    let plants = Plants::start(1, 0, 0).unwrap();
    assert!(plants.cut_lines(Plant::A, &mut cutter, [], Mode::Sheet).is_empty());
    assert!(plants.explain_lines(Plant::B, &mut cutter, [], Mode::Plain).is_empty());
}
