//! Word lists loaded at once, as images and from files.
use fetlockice::{Dictionary, Error, LoadError, MAX_NODES};
use std::{env, fs};

/// {ก} with class 0.
const EXAMPLE: [u8; 21] = [7, 0, 0, 0, 1, 0, 0, 0, 0xE0, 0xB8, 0x81, 6, 0, 0, 0, 0, 0, 1, 0, 0, 0];

#[test]
fn an_image_is_read_and_written_back() {
    let words = Dictionary::from_image(&EXAMPLE).unwrap();
    assert_eq!((words.len(), words.class_of("ก")), (1, Ok(Some(0))));
    assert_eq!(words.to_image(), EXAMPLE);
    assert_eq!(Dictionary::new().to_image(), [6, 0, 0, 0, 0, 0, 0, 0, 0, 0]);
    assert_eq!(Dictionary::from_image(&Dictionary::new().to_image()), Ok(Dictionary::new()));
}

#[test]
fn each_prefix_of_an_image_is_refused() {
    for n in 0..EXAMPLE.len() {
        let at = if n < 11 { 0 } else { 11 };
        assert_eq!(Dictionary::from_image(&EXAMPLE[..n]), Err(Error::BadImage(at)));
    }
    assert_eq!(Dictionary::from_image(&[&EXAMPLE[..], &[0]].concat()), Err(Error::BadImage(21)));
}

#[test]
fn words_loaded_at_once_are_those_that_are_added() {
    let words = ["กขค", "ง", " ก\u{a0}", "กข", "ก", "\t", "", "😀 a", "\u{ffff}", "กข\n", "\u{10000}"];
    let mut added = Dictionary::with_nodes(1);
    for word in words {
        added.add(word).unwrap();
    }
    let loaded = Dictionary::from_words(words).unwrap();
    assert_eq!((loaded.len(), &loaded), (7, &added));
    assert_eq!(loaded.pool().len(), 8 * loaded.pool()[0] as usize);
    assert_eq!(Dictionary::from_image(&added.to_image()), Ok(added));
}

#[test]
fn the_last_class_of_a_word_is_taken() {
    let terms = [("กข", 7), ("ก", 65_535), (" กข", 9), ("ข", 0)];
    let (mut added, loaded) = (Dictionary::new(), Dictionary::from_classed_words(terms).unwrap());
    for (word, class) in terms {
        added.add_class(word, class).unwrap();
    }
    assert_eq!((loaded.class_of("กข"), &loaded), (Ok(Some(9)), &added));
}

#[test]
fn a_list_that_can_t_be_loaded_is_refused() {
    assert_eq!(Dictionary::from_words(["ก", &"ข".repeat(256)]), Err(Error::WordTooLong(256)));
    assert_eq!(Dictionary::from_words(["ก", &" ".repeat(65_536)]), Err(Error::TooManyScalars(65_536)));
    // words of 255 characters that share none of them
    let words: Vec<String> =
        (0..4113).map(|k| char::from_u32(0x4E00 + k).unwrap().to_string() + &"ก".repeat(254)).collect();
    let needed = 1 + 255 * words.len();
    let refused = Dictionary::from_words(words.iter().map(String::as_str));
    assert_eq!(refused, Err(Error::TooFewNodes(needed - MAX_NODES)));
    assert_eq!(Dictionary::from_words(words[1..].iter().map(String::as_str)).unwrap().len(), 4112);
}

#[test]
fn a_file_has_a_word_and_its_class_on_a_line() {
    let path = env::temp_dir().join(format!("fetlockice-words-{}", std::process::id()));
    let load = |text: &[u8]| {
        fs::write(&path, text).unwrap();
        Dictionary::from_file(&path)
    };
    let words = load("ข\r\nกข\t7\n\n ก \t65535\nกข".as_bytes()).unwrap();
    let classes = ["ก", "ข", "กข"].map(|word| words.class_of(word));
    assert_eq!((words.len(), classes), (3, [Ok(Some(65_535)), Ok(Some(0)), Ok(Some(0))]));
    assert!(matches!(load("ก\nข\t65536\n".as_bytes()), Err(LoadError::Class(2))));
    assert!(matches!(load("ก\t".as_bytes()), Err(LoadError::Class(1))));
    assert!(matches!(load(&[0xE0, 0xB8]), Err(LoadError::File(_))));
    assert!(matches!(load("ข".repeat(256).as_bytes()), Err(LoadError::Refused(Error::WordTooLong(256)))));
    fs::remove_file(&path).unwrap();
    assert!(matches!(Dictionary::from_file(&path), Err(LoadError::File(_))));
}
