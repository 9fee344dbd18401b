//! Whatever is given: no call panics, the place of an error lies in what was given, and what is read is written and read again as the same book.

use booktext::{decode, Rule, Run, Text, TextError};
use gen::damage::damaged;
use gen::{books, inputs, Chance};

/// Whole lines, good and bad.
const LINES: [&str; 8] = [
    "letters 4\n",
    "compare a b 7\n",
    "compare - 1.2 0\n",
    "abdc = cadb\n",
    "ab = ba\n",
    "letters 256\n",
    "# a comment\n",
    "compare a b 4294967296\n",
];

/// Pieces of lines, good and bad.
const PIECES: [&str; 30] = [
    "letters", "letters ", "compare", "compare ", "=", " = ", "a", "b", "abdc", "z", "A", "-", "- ", "0", "7", "27 ", "255", "256", ".", "1.2",
    "1..2", "007.1 ", "#", "\n", "\n", "\r\n", " ", "\t", "\u{3000}", "\u{feff}",
];

/// A text of lines and pieces of lines. Most have a head, without which all would end at once.
fn pieced(chance: &mut Chance) -> String {
    let front = *chance.pick(&["letters 4\n", "letters 4\nabdc = cadb\n", "\u{feff}letters 4\n", ""]);
    let piece = |chance: &mut Chance| *if chance.once_in(3) { chance.pick(&LINES) } else { chance.pick(&PIECES) };
    let pieces: String = (0..chance.below(12)).map(|_| piece(chance)).collect();
    front.to_string() + &pieces
}

/// The line is one of the text's, and the column a character's or the one behind the last.
fn check_place(text: &str, error: &TextError) {
    let line = error.line.checked_sub(1).and_then(|index| text.split('\n').nth(index));
    let line = line.unwrap_or_else(|| panic!("{text:?}: no such line: {error}"));
    assert!((1..=line.chars().count() + 1).contains(&error.column), "{text:?}: no such column: {error}");
    assert!(!error.message.is_empty() && error.message.chars().count() < 250, "{text:?}: {error}");
}

/// The steps of two sides or two runs.
type Steps = [Vec<u8>; 2];

/// What a text says, without the places: its letters, its rules, and its comparisons with their allowances.
fn said(text: &Text) -> (u8, Vec<Steps>, Vec<(Steps, u32)>) {
    let steps = |runs: &[Run; 2]| runs.each_ref().map(|run| run.steps.clone());
    let rules = text.rules.iter().map(|rule| steps(&rule.sides)).collect();
    let comparisons = text.comparisons.iter().map(|comparison| (steps(&comparison.runs), comparison.allowance)).collect();
    (text.head.letters, rules, comparisons)
}

/// All that reads a text is tried on it. Says whether it is one of a book.
fn check_text(text: &str) -> bool {
    if let Err(error) = Rule::parse(text) {
        check_place(text, &error);
    }
    match Run::parse_lines(text) {
        Ok(runs) => assert!(runs.iter().all(|run| Run::parse(&run.to_string(), 1, 1).is_ok_and(|again| again.steps == run.steps)), "{text:?}"),
        Err(error) => check_place(text, &error),
    }
    for item in text.split('\n') {
        match Run::parse(item, 1, 1) {
            Ok(run) => assert_eq!(run.column_of(run.steps.len()), item.chars().count() + 1, "{item:?}"),
            Err(error) => check_place(item, &error),
        }
    }
    match Text::parse(text) {
        Ok(parsed) => {
            let bytes = parsed.bytes();
            assert!(bytes.starts_with(&parsed.book()), "{text:?}");
            let again = decode(&bytes).unwrap_or_else(|error| panic!("{text:?}: {error}"));
            let parsed_again = Text::parse(&again).unwrap_or_else(|error| panic!("{text:?}, {again:?}: {error}"));
            assert_eq!(said(&parsed_again), said(&parsed), "{text:?}");
            assert_eq!(parsed_again.bytes(), bytes, "{text:?}");
            true
        }
        Err(error) => {
            check_place(text, &error);
            false
        }
    }
}

/// Bytes to text, and back where there is one. Says whether there is.
fn check_bytes(bytes: &[u8]) -> bool {
    match decode(bytes) {
        Ok(text) => {
            assert_eq!(Text::parse(&text).unwrap_or_else(|error| panic!("{text:?}: {error}")).bytes(), bytes);
            true
        }
        Err(error) => {
            assert!(error.place <= bytes.len() && !error.message.is_empty(), "{bytes:?}: {error}");
            // what stands before the record that is wrong is whole
            assert!(error.place == 0 || decode(&bytes[..error.place]).is_ok(), "{bytes:?}: {error}");
            false
        }
    }
}

/// How many of so many trials say yes; each has a seed of its own.
fn count(trials: u64, mut trial: impl FnMut(&mut Chance) -> bool) -> u64 {
    (0..trials).filter(|&seed| trial(&mut Chance::new(seed))).count() as u64
}

fn any_input(chance: &mut Chance) -> Vec<u8> {
    let book = books::any(chance);
    let comparisons = chance.below(4);
    inputs::input(chance, &book, comparisons, 20)
}

#[test]
fn random_bytes_as_a_text() {
    let good = count(10_000, |chance| {
        let bytes: Vec<u8> = (0..chance.below(60)).map(|_| chance.number() as u8).collect();
        check_text(&String::from_utf8_lossy(&bytes))
    });
    assert_eq!(good, 0, "no 60 random bytes begin with a head");
}

#[test]
fn random_bytes_behind_a_head() {
    let good = count(10_000, |chance| {
        let bytes: Vec<u8> = (0..chance.below(12)).map(|_| *chance.pick(b" \t\n\r#=-.0129abzAZ\0\xff\xc3\xa9")).collect();
        check_text(&format!("letters 4\n{}", String::from_utf8_lossy(&bytes)))
    });
    assert!((500..9_500).contains(&good), "{good} of 10,000 are texts");
}

#[test]
fn pieces_of_the_grammar() {
    let good = count(20_000, |chance| check_text(&pieced(chance)));
    assert!((1_000..19_000).contains(&good), "{good} of 20,000 are texts");
}

#[test]
fn damaged_texts() {
    let good = count(5_000, |chance| {
        let text = decode(&any_input(chance)).expect("a whole input");
        check_text(&String::from_utf8_lossy(&damaged(chance, text.as_bytes())))
    });
    assert!((500..4_500).contains(&good), "{good} of 5,000 are texts");
}

#[test]
fn random_bytes_as_an_input() {
    let good = count(20_000, |chance| {
        let front = [&[][..], &[1, 0, 1, 0, 4], &[1, 0, 1, 0, 4, 4, 0, 2, 0, 1, 1, 0, 1]];
        let codes = *chance.pick(&[3, 5, 256]);
        let mut bytes = chance.pick(&front).to_vec();
        bytes.extend((0..chance.below(24)).map(|_| chance.below(codes) as u8));
        check_bytes(&bytes)
    });
    assert!((100..19_000).contains(&good), "{good} of 20,000 are inputs");
}

#[test]
fn damaged_inputs() {
    let good = count(5_000, |chance| {
        let bytes = any_input(chance);
        check_bytes(&damaged(chance, &bytes))
    });
    assert!((500..4_500).contains(&good), "{good} of 5,000 are inputs");
}

#[test]
fn every_text_cut_off_and_every_character_changed() {
    let whole = "letters 4\nabdc = 2.0.3.1 # \u{e9}\ncompare - cadb 100\n";
    let characters: Vec<char> = whole.chars().collect();
    let mut tried = [0, 0];
    for at in 0..characters.len() {
        let cut: String = characters[..at].iter().collect();
        tried[usize::from(check_text(&cut))] += 1;
        for other in "\n\r\t \u{a0}#=-.0a9zA\0\u{feff}\u{1f41d}".chars() {
            let mut changed = characters.clone();
            changed[at] = other;
            tried[usize::from(check_text(&changed.iter().collect::<String>()))] += 1;
            changed.insert(at, characters[at]);
            tried[usize::from(check_text(&changed.iter().collect::<String>()))] += 1;
        }
    }
    assert!(tried.iter().all(|&times| times > 200), "{tried:?} times no text, and a text");
}
