//! The answers of this crate against those that the test programs of crates/ are held to: an independent model's and the
//! Rust's. Lines that a `str`, a growing pool or rows of one's own can't bring about are left out.
use fetlockice::{clusters, clusters_with_winners, decode, Cut, Cutter, Dictionary, Error, Verdict};
use lines::{cells, detail, hold, hold_tokens, lines, mode, roomy, text, told, told_reasons, words};

mod lines;

/// Scalars as a field has them: four or more equal ones as `cell*count`.
fn spelled(cells: &[u32]) -> String {
    let (mut parts, mut rest) = (Vec::new(), cells);
    while let Some(&cell) = rest.first() {
        let run = rest.iter().take_while(|&&next| next == cell).count();
        let taken = if run < 4 { 1 } else { run };
        parts.push(if run < 4 { format!("{cell:X}") } else { format!("{cell:X}*{run}") });
        rest = &rest[taken..];
    }
    if parts.is_empty() {
        "-".into()
    } else {
        parts.join(".")
    }
}

/// `c3a9.61*3` as five bytes; `-` as none.
fn bytes(field: &str) -> Vec<u8> {
    let byte = |digits: &str, at| u8::from_str_radix(&digits[at..at + 2], 16).expect("a byte");
    let run = |part: &str| {
        let (digits, times) = part.split_once('*').unwrap_or((part, "1"));
        let once: Vec<u8> = (0..digits.len()).step_by(2).map(|at| byte(digits, at)).collect();
        once.repeat(times.parse().expect("a number"))
    };
    if field == "-" {
        Vec::new()
    } else {
        field.split('.').flat_map(run).collect()
    }
}

fn row(numbers: &[usize], between: &str) -> String {
    let all: Vec<String> = numbers.iter().map(usize::to_string).collect();
    if all.is_empty() {
        "-".into()
    } else {
        all.join(between)
    }
}

#[test]
fn decoding() {
    hold(lines("test_char_string", "decode"), 5000, |line| {
        roomy(&line[2]).and(roomy(&line[3]))?;
        Some(told(decode(&bytes(&line[1])), |decoded| {
            let (scalars, positions) = (decoded.scalars(), decoded.positions());
            let before = [0].iter().chain(positions);
            let steps: Vec<u32> = positions.iter().zip(before).map(|(at, before)| at - before).collect();
            format!("{} {} {}", scalars.len(), spelled(scalars), spelled(&steps))
        }))
    });
}

#[test]
fn ends_in_bytes() {
    hold(lines("test_char_string", "endbytes"), 30, |line| {
        let ends = cells(&line[2]);
        Some(told(decode(&bytes(&line[1])), |decoded| {
            let place = |&end: &u32| decoded.end_in_bytes(end as usize).map_or("x".into(), |at| at.to_string());
            let all: Vec<String> = ends.iter().map(place).collect();
            if all.is_empty() {
                "-".into()
            } else {
                all.join(",")
            }
        }))
    });
}

#[test]
fn cluster_ends() {
    hold(lines("test_tcc", "clusters"), 1000, |line| {
        roomy(&line[2])?;
        Some(told(clusters(&text(&line[1])?), |ends| row(&ends, ",")))
    });
}

#[test]
fn winners() {
    hold(lines("test_winners", "alts"), 1000, |line| {
        roomy(&line[2])?;
        roomy(&line[3])?;
        Some(told(clusters_with_winners(&text(&line[1])?), |clusters| {
            let ends: Vec<usize> = clusters.iter().map(|cluster| cluster.end).collect();
            let winners: Vec<usize> = clusters.iter().map(|cluster| cluster.winner as usize).collect();
            format!("{} {}", row(&ends, ","), row(&winners, ","))
        }))
    });
}

#[test]
fn prefixes() {
    hold(lines("test_trie_char", "prefix"), 100, |line| {
        roomy(&line[3])?;
        Some(told(words(&line[1])?.prefix_lengths(&text(&line[2])?), |lengths| row(&lengths, ",")))
    });
}

/// The answer to a step of a dictionary's script.
fn step(dictionary: &mut Dictionary, step: &str) -> Option<String> {
    let (operation, field) = step.split_at(1);
    let answer = match operation {
        "f" => {
            *dictionary = Dictionary::with_nodes(1);
            Ok("0".into())
        }
        "+" => match field.split_once(':') {
            Some((word, class)) => dictionary.add_class(&text(word)?, class.parse().expect("a class")),
            None => dictionary.add(&text(field)?),
        }
        .map(|yes| u8::from(yes).to_string()),
        "-" => dictionary.remove(&text(field)?).map(|yes| u8::from(yes).to_string()),
        "?" => {
            let (word, told) =
                (text(field)?, |class: Option<u16>| format!("{}.{}", class.iter().len(), class.unwrap_or(0)));
            assert_eq!(dictionary.contains(&word), dictionary.class_of(&word).map(|class| class.is_some()));
            dictionary.class_of(&word).map(told)
        }
        "#" => Ok(dictionary.len().to_string()),
        "n" => Ok(dictionary.pool()[0].to_string()),
        "p" => dictionary.prefix_lengths(&text(field)?).map(|all| row(&all, ".")),
        _ => return None,
    };
    Some(answer.unwrap_or_else(|error| format!("!{}.{}", error.number(), detail(error))))
}

#[test]
fn dictionaries() {
    // a pool of a fixed size meets refusals 4 and 8, and this crate's doesn't
    let grown = |expected: &str| !expected.contains("!4") && !expected.contains("!8");
    let lines = lines("test_trie_char", "dict").into_iter().filter(|(_, expected)| grown(expected)).collect();
    hold(lines, 300, |line| {
        let mut dictionary = Dictionary::new();
        let answers: Option<Vec<_>> = line[2].split(';').map(|part| step(&mut dictionary, part)).collect();
        Some(format!("ok {}", answers?.join(";")))
    });
}

/// The map of a cut says what its ends say, at each position and above the last one.
fn check_map(cut: &Cut, ends: &[usize]) {
    let (map, last) = (cut.break_map(), ends.last().copied().unwrap_or(0));
    assert_eq!((map.end(), map.cells().len()), (last, last / 64 + 1));
    assert_eq!(map.iter().collect::<Vec<_>>(), ends);
    assert_eq!(map.iter().len(), ends.len());
    let mut seen = 0;
    for position in 0..=last {
        let here = ends.get(seen) == Some(&position);
        seen += usize::from(here);
        assert_eq!(map.is_break(position), here, "{position}");
        assert_eq!(map.up_to(position), Ok(seen), "{position}");
        assert_eq!(map.next(position), Ok(ends.get(seen).copied()), "{position}");
    }
    for position in [last + 1, last + 64, usize::MAX] {
        assert!(!map.is_break(position));
        assert_eq!(map.up_to(position), Err(Error::WrongPosition(position)));
        assert_eq!(map.next(position), Err(Error::WrongPosition(position)));
    }
}

/// The ends and the edges of a text's cut, whose tokens are the text.
fn told_cut(text: &str, cut: Result<Cut, Error>) -> String {
    told(cut, |cut| {
        hold_tokens(text, &cut);
        let ends: Vec<usize> = cut.tokens.iter().map(|token| token.end).collect();
        check_map(&cut, &ends);
        format!("{} {}", row(&ends, ","), cut.edges)
    })
}

#[test]
fn cuts() {
    let mut cutter = Cutter::new();
    hold(lines("test_cut", "cut"), 3000, |line| {
        roomy(&line[4]).and(roomy(&line[5]))?;
        let (words, text) = (words(&line[2])?, text(&line[3])?);
        Some(told_cut(&text, cutter.cut(&words, &text, mode(&line[1]))))
    });
}

#[test]
fn reasons() {
    let mut cutter = Cutter::new();
    hold(lines("test_reasons", "reasons"), 800, |line| {
        roomy(&line[4]).and(roomy(&line[5]))?;
        let (words, text) = (words(&line[2])?, text(&line[3])?);
        Some(told(cutter.explain(&words, &text, mode(&line[1])), |cut| told_reasons(&text, &cut, ":")))
    });
}

fn verdict(found: Verdict) -> String {
    match found {
        Verdict::Right => "yes".into(),
        Verdict::Wrong(token) => token.to_string(),
    }
}

/// The parts of a text between ends in characters, where they rise within it.
fn parts<'t>(text: &'t str, ends: &[usize]) -> Option<Vec<&'t str>> {
    let places: Vec<usize> = text.char_indices().map(|(at, _)| at).chain([text.len()]).collect();
    let starts = [0].into_iter().chain(ends.iter().copied());
    starts.zip(ends).map(|(start, &end)| text.get(*places.get(start)?..*places.get(end)?)).collect()
}

#[test]
fn claims() {
    let mut cutter = Cutter::new();
    hold(lines("test_claim", "claim"), 2500, |line| {
        roomy(&line[4])?;
        let (words, text) = (words(&line[1])?, text(&line[2])?);
        let ends: Vec<usize> = cells(&line[3]).into_iter().map(|end| end as usize).collect();
        let found = cutter.check_claim(&words, &text, &ends);
        if let Some(tokens) = parts(&text, &ends) {
            assert_eq!(cutter.check_tokens(&words, &text, &tokens), found, "{line:?}");
        }
        Some(told(found, verdict))
    });
}

#[test]
fn tokens_of_another_text() {
    let words = Dictionary::from_words(["กข", "กขค", "คง", "ง"]).unwrap();
    let mut cutter = Cutter::new();
    let mut check = |tokens: &[&str]| cutter.check_tokens(&words, "กขคง", tokens).unwrap();
    assert_eq!(check(&["กขค", "ง"]), Verdict::Right);
    assert_eq!(check(&["กข", "ขง"]), Verdict::Wrong(1));
    assert_eq!(check(&["กข", "คง", "ก"]), Verdict::Wrong(2));
    assert_eq!(check(&["ก", "ขคง"]), Verdict::Wrong(0));
    assert_eq!(check(&["", "กข", "คง"]), Verdict::Wrong(0));
    assert_eq!(cutter.check_claim(&words, "กขคง", &[2, usize::MAX]), Ok(Verdict::Wrong(1)));
    assert_eq!(cutter.check_claim(&words, &"ก".repeat(65_536), &[]), Err(Error::TooManyScalars(65_536)));
}

/// `ok` and the image in hexadecimal.
fn spelled_image(image: &[u8]) -> String {
    "ok ".to_string() + &image.iter().map(|byte| format!("{byte:02x}")).collect::<String>()
}

#[test]
fn images_are_read_as_the_vectors_say() {
    let mut held = [0, 0];
    for (line, expected) in lines("test_word_list", "imgread") {
        let (image, told) = (bytes(&line[2]), expected.split(' ').collect::<Vec<_>>());
        match (told[0], told[1]) {
            ("!", "9") => assert_eq!(Dictionary::from_image(&image), Err(Error::BadImage(told[2].parse().unwrap()))),
            ("ok", count) => {
                let words = Dictionary::from_image(&image).expect("an accepted image");
                assert_eq!((words.len().to_string().as_str(), words.to_image()), (count, image));
                assert_eq!(Dictionary::from_pool(cells(told[2])), Ok(words));
            }
            _ => continue,
        }
        held[(told[0] == "ok") as usize] += 1;
    }
    assert!(held[0] >= 400 && held[1] >= 80, "{held:?} lines");
}

#[test]
fn images_are_written_as_the_vectors_say() {
    hold(lines("test_word_list", "imgwrite"), 60, |line| {
        roomy(&line[2])?;
        Dictionary::from_pool(cells(&line[1])).ok().map(|words| spelled_image(&words.to_image()))
    });
}
