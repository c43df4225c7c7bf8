//! A dictionary's pool: growing, taken over, and at its limit. docs/POOL.md has its rules.
use fetlockice::{Cutter, Dictionary, Error, Mode, MAX_NODES};

/// The number in the letters of Thai, so that few words share a prefix.
fn word(number: usize) -> String {
    (0..6).map(|place| char::from_u32(0xE01 + (number >> (5 * place) & 31) as u32).unwrap()).collect()
}

#[test]
fn a_pool_grows_with_its_words() {
    let mut small = Dictionary::with_nodes(1);
    let mut large = Dictionary::with_nodes(4096);
    for number in 0..300 {
        let word = word(number * 7919);
        assert_eq!(small.contains(&word), Ok(false));
        assert_eq!((small.add(&word), large.add(&word)), (Ok(true), Ok(true)));
        assert_eq!(small.add(&word), Ok(false));
        assert_eq!(small.contains(&word), Ok(true));
    }
    assert_eq!((small.len(), large.len()), (300, 300));
    let used = 8 * small.pool()[0] as usize;
    assert_eq!(small.pool()[..used], large.pool()[..used]);
    for number in 0..300 {
        assert_eq!(small.remove(&word(number * 7919)), Ok(true));
    }
    assert!(small.is_empty());
    assert_eq!(small.pool(), Dictionary::with_nodes(small.pool().len() / 8).pool());
}

#[test]
fn dictionaries_are_equal_by_their_words_and_classes_alone() {
    let mut small = Dictionary::with_nodes(1);
    let mut large = Dictionary::with_nodes(4096);
    assert_eq!(small, large);
    for word in ["กข", "ก", "กขค", "ง"] {
        small.add(word).unwrap();
        assert_ne!(small, large);
        large.add(word).unwrap();
        assert_eq!(small, large);
    }
    assert_ne!(small.pool().len(), large.pool().len());
    // the same nodes, and one word fewer; the same words again, added in another order; a part node behind
    assert_eq!(large.remove("กข"), Ok(true));
    assert_ne!(small, large);
    assert_eq!(Dictionary::from_words(["ง", "กขค", "กข", "ก"]), Ok(small.clone()));
    let cells = [small.pool(), &[0; 16], &[7; 3]].concat();
    assert_eq!(Dictionary::from_pool(cells), Ok(small.clone()));
    // the same words, and another class
    let mut other = small.clone();
    assert_eq!((other.add_class("กขค", 9), other != small), (Ok(true), true));
    assert_eq!((other.add("กขค"), other == small), (Ok(true), true));
}

#[test]
fn a_class_is_kept_while_the_pool_grows() {
    let mut words = Dictionary::with_nodes(1);
    let class = |number: usize| (number * 0x9E37 % 0x10000) as u16;
    for number in 0..300 {
        assert_eq!(words.class_of(&word(number * 7919)), Ok(None));
        assert_eq!(words.add_class(&word(number * 7919), class(number)), Ok(true));
        assert_eq!(words.add_class(&word(number * 7919), class(number)), Ok(false));
    }
    for number in (0..300).step_by(3) {
        assert_eq!(words.remove(&word(number * 7919)), Ok(true));
    }
    for number in 0..300 {
        let held = (number % 3 != 0).then(|| class(number));
        assert_eq!(words.class_of(&word(number * 7919)), Ok(held));
    }
}

#[test]
fn a_class_is_replaced_and_told() {
    let mut words = Dictionary::new();
    for class in [0, 1, 65_534, 65_535] {
        assert_eq!((words.add_class(" กข\n", class), words.add_class("กข", class)), (Ok(true), Ok(false)));
        assert_eq!(
            (words.class_of("กข"), words.class_of(" กข"), words.class_of("ก")),
            (Ok(Some(class)), Ok(None), Ok(None))
        );
    }
    assert_eq!((words.add("กข"), words.class_of("กข"), words.add("กข")), (Ok(true), Ok(Some(0)), Ok(false)));
    assert_eq!((words.add_class(" \t", 5), words.class_of(""), words.len()), (Ok(false), Ok(None), 1));
    assert_eq!(words.class_of(&"ก".repeat(65_536)), Err(Error::TooManyScalars(65_536)));
}

#[test]
fn classes_change_no_cut() {
    let plain = Dictionary::from_words(["กข", "กขค", "คง", "ง"]).unwrap();
    let mut classed = plain.clone();
    for (word, class) in [("กข", 1), ("กขค", 65_535), ("ง", 7)] {
        assert_eq!(classed.add_class(word, class), Ok(true));
    }
    for text in ["กขคง", "กขคกขคง ง12,5", &"กขคงa".repeat(60)] {
        for mode in [Mode::Plain, Mode::Safe, Mode::Sheet] {
            assert_eq!(Cutter::new().cut(&plain, text, mode), Cutter::new().cut(&classed, text, mode));
        }
        assert_eq!(plain.prefix_lengths(text), classed.prefix_lengths(text));
    }
    assert_eq!(plain.len(), classed.len());
}

#[test]
fn a_pool_that_is_no_dictionary_is_refused() {
    let words = Dictionary::from_words(["กข", "กขค"]).unwrap();
    assert_eq!(Dictionary::from_pool(words.pool().to_vec()), Ok(words.clone()));
    // a cell that is no scalar, a mark over 65,536, the root's fourth cell, a second half
    for (cell, value) in [(8, 0xD800), (11, 65_537), (3, 1), (4, 1), (15, 1)] {
        let mut damaged = words.pool().to_vec();
        damaged[cell] = value;
        assert_eq!(Dictionary::from_pool(damaged), Err(Error::NotADictionary));
    }
    assert_eq!(Dictionary::from_pool(vec![0; 800]), Err(Error::NotADictionary));
    assert_eq!(Dictionary::from_pool(Vec::new()), Err(Error::NotADictionary));
}

#[test]
fn a_taken_over_pool_with_a_part_node_grows() {
    let mut cells = Dictionary::with_nodes(2).pool().to_vec();
    cells.extend([7, 7, 7]);
    let mut words = Dictionary::from_pool(cells).unwrap();
    assert_eq!(words.add("กขคง"), Ok(true));
    assert_eq!(words.contains("กขคง"), Ok(true));
}

#[test]
fn a_word_is_trimmed_and_at_most_255_long() {
    let mut words = Dictionary::new();
    assert_eq!(words.add(&format!(" {}\u{a0}\n", "ก".repeat(255))), Ok(true));
    assert_eq!(words.add(&"ก".repeat(256)), Err(Error::WordTooLong(256)));
    assert_eq!(words.add(&"ก".repeat(65_536)), Err(Error::TooManyScalars(65_536)));
    assert_eq!(words.add("\t \u{3000}"), Ok(false));
    assert_eq!(words.len(), 1);
}

#[test]
fn each_character_is_trimmed_as_by_the_standard_library() {
    let mut words = Dictionary::with_nodes(3);
    for c in '\0'..=char::MAX {
        let kept = Ok(!c.is_whitespace());
        assert_eq!((words.add(&c.to_string()), words.remove(&c.to_string())), (kept, kept), "{c:?}");
    }
    for c in ('\0'..=char::MAX).filter(|c| c.is_whitespace()) {
        let word = format!("{c}a{c}");
        assert_eq!((words.add(&word), words.contains(&word), words.remove("a")), (Ok(true), Ok(false), Ok(true)), "{c:?}");
    }
    assert!(words.is_empty());
}

#[test]
fn a_pool_with_a_no_break_space_at_a_word_s_edge_is_refused() {
    let mut words = Dictionary::with_nodes(3);
    assert_eq!(words.add("กa"), Ok(true));
    let mut pool = words.pool().to_vec();
    assert_eq!(pool[16], 'a' as u32);
    pool[16] = 0xA0;
    assert_eq!(Dictionary::from_pool(pool), Err(Error::NotADictionary));
}

/// A pool of a node for each of the first characters that a word may start with, as many as there may be, and later cells.
fn full_pool() -> Vec<u32> {
    let mut pool = vec![MAX_NODES as u32, 1, MAX_NODES as u32 - 1, 0, 0, 0, 0, 0];
    let letters = (0..=0x10FFFF).filter(|&cell| char::from_u32(cell).is_some_and(|c| !c.is_whitespace()));
    for letter in letters.take(MAX_NODES - 1) {
        pool.extend([letter, MAX_NODES as u32, 0, 1, 0, 0, 0, 0]);
    }
    pool.extend([7; 21]);
    pool
}

#[test]
fn a_full_pool_is_refused() {
    let mut words = Dictionary::from_pool(full_pool()).unwrap();
    assert_eq!(words.len(), MAX_NODES - 1);
    assert_eq!(words.add("ก"), Ok(false));
    assert_eq!(words.add("กขค"), Err(Error::TooFewNodes(2)));
    assert_eq!(words.pool(), full_pool());
    assert_eq!(
        (words.add_class("ก", 65_535), words.class_of("ก"), words.add("ก")),
        (Ok(true), Ok(Some(65_535)), Ok(true))
    );
    assert_eq!(words.pool(), full_pool());
    assert_eq!((words.remove("ข"), words.remove("ค"), words.add("กขค")), (Ok(true), Ok(true), Ok(true)));
    assert_eq!(words.pool()[8 * MAX_NODES..], [7; 21]);
}
