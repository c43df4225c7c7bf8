//! Two plants in one pool: the lines of crates/test_plants, and two separate dictionaries beside them, answer by answer.
use fetlockice::{Cutter, Dictionary, Error, Mode, Plant, Plants};
use lines::{cells, lines, mode, text};

// some of it only other tests use
#[allow(dead_code)]
mod lines;

/// A step's answer as a script tells it.
fn told<T>(answer: Result<T, Error>, accepted: impl FnOnce(T) -> String) -> String {
    answer.map_or_else(
        |refused| match refused {
            Error::TooManyScalars(n) | Error::WordTooLong(n) | Error::TooFewNodes(n) | Error::BadImage(n) => {
                format!("!{}.{n}", refused.number())
            }
            Error::NotADictionary | Error::LimitsTooLarge => format!("!{}.0", refused.number()),
            other => panic!("{other}: this can't arise here"),
        },
        accepted,
    )
}

fn flag(answer: Result<bool, Error>) -> String {
    told(answer, |changed| usize::from(changed).to_string())
}

fn joined(numbers: &[usize]) -> String {
    let numbers: Vec<_> = numbers.iter().map(usize::to_string).collect();
    if numbers.is_empty() {
        "-".into()
    } else {
        numbers.join(".")
    }
}

fn bytes(field: &str) -> Vec<u8> {
    let unit = |digits: &str| -> Vec<u8> {
        digits
            .as_bytes()
            .chunks(2)
            .map(|pair| u8::from_str_radix(std::str::from_utf8(pair).unwrap(), 16).unwrap())
            .collect()
    };
    let run = |part: &str| {
        let (digits, times) = part.split_once('*').unwrap_or((part, "1"));
        unit(digits).repeat(times.parse().expect("a number"))
    };
    if field == "-" {
        Vec::new()
    } else {
        field.split('.').flat_map(run).collect()
    }
}

fn hex(image: &[u8]) -> String {
    image.iter().map(|byte| format!("{byte:02x}")).collect()
}

/// The ends of a cut, and behind a `/` the edges.
fn cut_step(plants: &Plants, plant: Plant, why: bool, given: &str) -> Option<String> {
    let fields: Vec<&str> = given.split('/').collect();
    let (text, cutter) = (text(fields[1])?, &mut Cutter::new());
    if fields[2..] != ["*", "*"] {
        return None;
    }
    Some(if why {
        told(plants.explain(plant, cutter, &text, mode(fields[0])), |cut| {
            let pairs: Vec<_> =
                cut.tokens.iter().map(|token| format!("{}:{}", token.end, token.reason.number())).collect();
            format!("{}/{}", if pairs.is_empty() { "-".into() } else { pairs.join(".") }, cut.edges)
        })
    } else {
        told(plants.cut(plant, cutter, &text, mode(fields[0])), |cut| {
            lines::hold_tokens(&text, &cut);
            format!("{}/{}", joined(&cut.tokens.iter().map(|token| token.end).collect::<Vec<_>>()), cut.edges)
        })
    })
}

/// The answer to a step of a plant, where this crate can be asked: its texts are of scalars, and its rows long enough.
fn plant_step(plants: &mut Plants, plant: Plant, op: &str, given: &str) -> Option<String> {
    let (word, class) = given.split_once(':').map_or((given, None), |(word, class)| (word, class.parse::<u16>().ok()));
    Some(match op {
        "#" => plants.len(plant).to_string(),
        "i" => hex(&plants.to_image(plant)),
        "r" => told(plants.read_image(plant, &bytes(given)), |words| words.to_string()),
        "+" => flag(match class {
            Some(class) => plants.add_class(plant, &text(word)?, class),
            None => plants.add(plant, &text(word)?),
        }),
        "-" => flag(plants.remove(plant, &text(word)?)),
        "?" => told(plants.class_of(plant, &text(word)?), |class| {
            format!("{}.{}", usize::from(class.is_some()), class.unwrap_or(0))
        }),
        "p" => told(plants.prefix_lengths(plant, &text(word)?), |lengths| joined(&lengths)),
        "=" => told(plants.cut(plant, &mut Cutter::new(), &text(word)?, Mode::Plain), |cut| {
            joined(&cut.tokens.iter().map(|token| token.end).collect::<Vec<_>>())
        }),
        "x" | "y" => cut_step(plants, plant, op == "y", given)?,
        other => panic!("no step {other}"),
    })
}

/// Holds the steps of a script up to its first freshening or other lending; how many.
fn hold_script(nodes: usize, steps: &str, expected: &str) -> usize {
    let (mut shared, mut held) = (None, 0);
    for (step, expected) in steps.split(';').zip(expected.strip_prefix("ok ").expect("a script's answer").split(';')) {
        let ours = match (&step[..1], &mut shared) {
            ("f" | "l", _) => break,
            ("s", _) => {
                let (limit_a, limit_b) = step[1..].split_once('.').expect("two limits");
                let started = Plants::start(nodes, limit_a.parse().unwrap(), limit_b.parse().unwrap());
                let answer = told(started.clone(), |_| "0".into());
                shared = started.ok().or(shared);
                Some(answer)
            }
            ("A", Some(plants)) => plant_step(plants, Plant::A, &step[1..2], &step[2..]),
            ("B", Some(plants)) => plant_step(plants, Plant::B, &step[1..2], &step[2..]),
            ("c", Some(plants)) if 8 * nodes == cells(expected).len() => {
                assert_eq!(plants.pool(), cells(expected), "{steps}");
                None
            }
            ("P", Some(plants)) if matches!(&step[1..2], "#" | "i" | "r") => {
                Some(told(Dictionary::from_pool(plants.pool().to_vec()), |_| "a dictionary".into()))
            }
            _ => None,
        };
        if let Some(ours) = ours {
            assert_eq!(ours, expected, "{step} of {steps}");
            held += 1;
        }
    }
    held
}

#[test]
fn scripts_are_answered_as_expected() {
    let all = lines("test_plants", "plants").into_iter().filter(|(line, _)| line[1].parse::<usize>().unwrap() >= 8);
    let held: usize =
        all.map(|(line, expected)| hold_script(line[1].parse::<usize>().unwrap() / 8, &line[2], &expected)).sum();
    assert!(held >= 5000, "{held} steps");
}

#[test]
fn pools_of_two_plants_are_told_from_others() {
    let all = lines("test_plants", "halves");
    assert!(all.len() > 300);
    for (line, expected) in all {
        let told = expected.strip_prefix("ok ").unwrap().split(';').collect::<Vec<_>>();
        let taken = Plants::from_pool(cells(&line[1]));
        match told[1] {
            "!4.0" => assert_eq!(taken.err(), Some(Error::NotADictionary), "{line:?}"),
            words => {
                let plants = taken.unwrap();
                let counts = [Plant::A, Plant::B].map(|plant| plants.len(plant).to_string());
                assert_eq!(counts, [words, told[2]], "{line:?}");
            }
        }
    }
}

/// The next of a run's random numbers, below n.
fn draw(seed: &mut u64, n: usize) -> usize {
    *seed = seed.wrapping_mul(6_364_136_223_846_793_005).wrapping_add(1_442_695_040_888_963_407);
    (*seed >> 33) as usize % n
}

/// A dictionary by itself, which holds what one plant should: of its limit and a root.
struct Alone {
    words: Dictionary,
    limit: usize,
}

impl Alone {
    /// Takes the words over, or is refused with 8 by the nodes that they have over the limit.
    fn within<T>(&mut self, words: Dictionary, answer: T) -> Result<T, Error> {
        match (words.pool()[0] as usize).checked_sub(2 + self.limit) {
            Some(over) => Err(Error::TooFewNodes(1 + over)),
            None => {
                self.words = words;
                Ok(answer)
            }
        }
    }

    fn add_class(&mut self, word: &str, class: u16) -> Result<bool, Error> {
        let mut words = self.words.clone();
        let changed = words.add_class(word, class)?;
        self.within(words, changed)
    }

    fn read_image(&mut self, image: &[u8]) -> Result<usize, Error> {
        let words = Dictionary::from_image(image)?;
        let count = words.len();
        self.within(words, count)
    }
}

fn word(seed: &mut u64) -> String {
    let letters = ['ก', 'ข', 'ค', 'ง', ' ', 'a'];
    (0..draw(seed, 6)).map(|_| letters[draw(seed, letters.len())]).collect()
}

/// One call on a plant and on the dictionary that is alone: the same answer.
fn same_call(seed: &mut u64, plants: &mut Plants, plant: Plant, alone: &mut Alone) {
    let (word, class) = (word(seed), [0, 1, 65_535][draw(seed, 3)]);
    match draw(seed, 12) {
        0..=4 => assert_eq!(plants.add_class(plant, &word, class), alone.add_class(&word, class)),
        5 => assert_eq!(plants.add(plant, &word), alone.add_class(&word, 0)),
        6 | 7 => assert_eq!(plants.remove(plant, &word), alone.words.remove(&word)),
        8 => assert_eq!(plants.prefix_lengths(plant, &word), alone.words.prefix_lengths(&word)),
        9 => {
            let mode = [Mode::Plain, Mode::Safe, Mode::Sheet][draw(seed, 3)];
            let text = word.repeat(1 + draw(seed, 40));
            let cutter = &mut Cutter::new();
            assert_eq!(plants.cut(plant, cutter, &text, mode), Cutter::new().cut(&alone.words, &text, mode));
            assert_eq!(plants.explain(plant, cutter, &text, mode), Cutter::new().explain(&alone.words, &text, mode));
        }
        10 => {
            let words: Vec<String> = (0..draw(seed, 5)).map(|_| self::word(seed)).collect();
            let mut image = Dictionary::from_words(words.iter().map(String::as_str)).unwrap().to_image();
            if draw(seed, 4) == 0 {
                let at = draw(seed, image.len());
                image[at] ^= 1 << draw(seed, 8);
            }
            assert_eq!(plants.read_image(plant, &image), alone.read_image(&image));
        }
        _ => {}
    }
    assert_eq!((plants.class_of(plant, &word), plants.len(plant)), (alone.words.class_of(&word), alone.words.len()));
}

#[test]
fn each_plant_answers_as_if_it_were_alone() {
    let seed = &mut 11;
    for _ in 0..200 {
        let nodes = 1 + draw(seed, 40);
        let limit_a = draw(seed, nodes);
        let limit_b = nodes - 1 - limit_a - draw(seed, nodes - limit_a).min(draw(seed, 2));
        let mut plants = Plants::start(nodes, limit_a, limit_b).unwrap();
        let alone = |limit| Alone { words: Dictionary::with_nodes(1), limit };
        let (mut a, mut b) = (alone(limit_a), alone(limit_b));
        for _ in 0..120 {
            match draw(seed, 2) {
                0 => same_call(seed, &mut plants, Plant::A, &mut a),
                _ => same_call(seed, &mut plants, Plant::B, &mut b),
            }
            assert_eq!(plants.to_image(Plant::A), a.words.to_image());
            assert_eq!(plants.to_image(Plant::B), b.words.to_image());
        }
    }
}

#[test]
fn limits_that_do_not_fit_are_refused() {
    for (nodes, a, b) in
        [(0, 0, 0), (1, 0, 0), (2, 1, 0), (2, 0, 1), (100, 99, 0), (100, 50, 49), (1_048_576, 1_048_575, 0)]
    {
        let plants = Plants::start(nodes, a, b).unwrap();
        assert!(plants.is_empty(Plant::A) && plants.is_empty(Plant::B));
    }
    let all = usize::MAX;
    for (nodes, a, b) in
        [(1, 1, 0), (1, 0, 1), (100, 50, 50), (100, all, all), (100, all, 1), (100, 1, all), (100, all - 50, 51)]
    {
        assert_eq!(Plants::start(nodes, a, b).err(), Some(Error::LimitsTooLarge));
    }
    let mut none = Plants::start(100, 0, 99).unwrap();
    assert_eq!((none.add(Plant::A, "กขค"), none.add(Plant::A, " ")), (Err(Error::TooFewNodes(3)), Ok(false)));
    assert_eq!((none.add(Plant::B, &"ก".repeat(99)), none.add(Plant::B, "ข")), (Ok(true), Err(Error::TooFewNodes(1))));
}

#[test]
fn a_pool_of_another_kind_is_refused() {
    let mut plants = Plants::start(20, 10, 9).unwrap();
    assert_eq!((plants.add(Plant::A, "กข"), plants.add_class(Plant::B, "ก", 5)), (Ok(true), Ok(true)));
    assert_eq!(Dictionary::from_pool(plants.pool().to_vec()), Err(Error::NotADictionary));
    let words = Dictionary::from_words(["กข"]).unwrap();
    assert_eq!(Plants::from_pool(words.pool().to_vec()).err(), Some(Error::NotADictionary));
    // lent with fewer nodes than the limits and one, and with more
    let shorter = plants.pool()[..8 * 19].to_vec();
    assert_eq!(Plants::from_pool(shorter).err(), Some(Error::NotADictionary));
    let longer = Plants::from_pool([plants.pool(), &[0; 80]].concat()).unwrap();
    assert_eq!((longer.class_of(Plant::B, "ก"), longer.contains(Plant::A, "ก")), (Ok(Some(5)), Ok(false)));
    assert_eq!(words.to_image(), plants.to_image(Plant::A));
}
