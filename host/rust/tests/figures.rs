//! Release figures against those that crates/test_figures is held to. Lines that a `str`, a growing pool or rows of one's own
//! can't bring about are left out.
use fetlockice::{decode, Cutter, Dictionary, Error, Figures, Mode, Reason};
use lines::{hold, lines, mode, roomy, text, told, told_reasons, words};

mod lines;

fn figures(field: &str) -> Figures {
    let cells: Vec<u64> = field.split(',').map(|figure| figure.parse().expect("a figure")).collect();
    Figures::from_cells(cells.try_into().expect("sixteen figures"))
}

fn told_figures(figures: &Figures) -> String {
    figures.cells().map(|figure| figure.to_string()).join(",")
}

/// The texts of a line from zeros, where their rows are as long as needed.
#[test]
fn figures_of_texts() {
    let mut cutter = Cutter::new();
    hold(lines("test_figures", "figures"), 4, |line| {
        let (words, mut all) = (words(&line[1])?, Figures::new());
        for fields in line[3..].chunks_exact(4) {
            roomy(&fields[2]).and(roomy(&fields[3]))?;
            all.feed(&mut cutter, &words, &text(&fields[1])?, mode(&fields[0])).expect("a text that is cut");
        }
        assert_eq!(Reason::ALL.map(|reason| all.tokens_by(reason)).iter().sum::<u64>(), all.tokens());
        Some(format!("ok {}", told_figures(&all)))
    });
}

#[test]
fn fed_texts() {
    let mut cutter = Cutter::new();
    hold(lines("test_figures", "feed"), 200, |line| {
        roomy(&line[5]).and(roomy(&line[6]))?;
        let (words, mut all, text) = (words(&line[1])?, figures(&line[2]), text(&line[4])?);
        let answer = match all.feed(&mut cutter, &words, &text, mode(&line[3])) {
            Err(Error::FiguresFull) => "! 13 0 zero".into(),
            other => told(other, |cut| told_reasons(&text, &cut, ",")),
        };
        Some(format!("{answer} {}", told_figures(&all)))
    });
}

/// What a call on figures answers, and the figures behind it.
fn told_call(answer: Result<(), Error>, figures: &Figures) -> String {
    let told = answer.map_or_else(|error| format!("! {} 0", error.number()), |()| "ok".into());
    format!("{told} {}", told_figures(figures))
}

fn refusal(number: &str) -> Option<Error> {
    Some(match number {
        "1" => Error::IllFormed(5),
        "2" => Error::TooManyScalars(65_536),
        "3" => Error::NotAScalar(5),
        "4" => Error::NotADictionary,
        "5" => Error::ScratchTooShort(128),
        "6" => Error::OutputTooShort(5),
        "7" => Error::WordTooLong(256),
        "8" => Error::TooFewNodes(1),
        "10" => Error::WrongPosition(5),
        "11" => Error::BitAboveEnd(5),
        "13" => Error::FiguresFull,
        _ => return None,
    })
}

#[test]
fn refused_texts() {
    hold(lines("test_figures", "refused"), 150, |line| {
        let mut all = figures(&line[1]);
        let answer = all.feed_refused(refusal(&line[2])?);
        Some(told_call(answer, &all))
    });
}

#[test]
fn joined_figures() {
    hold(lines("test_figures", "join"), 300, |line| {
        let mut all = figures(&line[1]);
        let answer = all.join(&figures(&line[2]));
        Some(told_call(answer, &all))
    });
}

/// A text that no call can take is counted by its refusal's number.
#[test]
fn a_table_of_figures() {
    let words = Dictionary::from_words(["กข", "กขค", "คง", "ง"]).unwrap();
    let (mut cutter, mut all) = (Cutter::new(), Figures::new());
    for text in ["กขคง", "12,5.a", ""] {
        all.feed(&mut cutter, &words, text, Mode::Plain).unwrap();
    }
    let long = "ก".repeat(65_536);
    assert_eq!(all.feed(&mut cutter, &words, &long, Mode::Safe), Err(Error::TooManyScalars(65_536)));
    all.feed_refused(decode(b"\xff").unwrap_err()).unwrap();
    assert_eq!((all.texts(), all.characters(), all.tokens(), all.edges(), all.most_edges()), (5, 10, 5, 4, 4));
    assert_eq!(Reason::ALL.map(|reason| all.tokens_by(reason)), [2, 2, 0, 1, 0]);
    assert_eq!((0..8).map(|number| all.refused(number)).collect::<Vec<_>>(), [0, 1, 1, 0, 0, 0, 0, 0]);
    let table = all.to_string();
    assert_eq!(table.lines().count(), 16);
    let shown: Vec<u64> = table.lines().map(|line| line.rsplit(' ').next().unwrap().parse().unwrap()).collect();
    assert_eq!(shown, all.cells());
}
