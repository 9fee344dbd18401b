//! Round trips: bytes to text and back, and text to bytes and back, on generated books and inputs, random texts and the recorded inputs.

use std::path::Path;

use booktext::{decode, Text};
use gen::books::{self, AT_THE_LIMITS};
use gen::{inputs, Book, Chance};

/// A run as `decode` should write it, by the documentation: letters where all codes have one, else numbers.
fn canonical(steps: &[u8]) -> String {
    match steps.iter().max() {
        None => "-".to_string(),
        Some(26..) => steps.iter().map(|code| format!(".{code}")).collect::<String>()[1..].to_string(),
        Some(_) => steps.iter().map(|&code| b"abcdefghijklmnopqrstuvwxyz"[usize::from(code)] as char).collect(),
    }
}

/// What a text says, as a test makes it up: letters, rules and comparisons with their allowances.
struct Said {
    letters: u8,
    rules: Vec<[Vec<u8>; 2]>,
    comparisons: Vec<([Vec<u8>; 2], u32)>,
}

impl Said {
    /// Anything that can be written, far beyond what is accepted.
    fn any(chance: &mut Chance) -> Said {
        let letters = chance.number() as u8;
        let rules = (0..chance.below(5)).map(|_| [any_run(chance, 20), any_run(chance, 20)]).collect();
        let comparisons = (0..chance.below(5)).map(|_| ([any_run(chance, 30), any_run(chance, 30)], inputs::allowance(chance))).collect();
        Said { letters, rules, comparisons }
    }

    /// Its bytes, by the writers of the generator.
    fn bytes(&self) -> Vec<u8> {
        let mut bytes = books::head(self.letters);
        bytes.extend(self.rules.iter().flat_map(|[left, right]| books::rule(left, right)));
        bytes.extend(self.comparisons.iter().flat_map(|([u, v], allowance)| inputs::question(*allowance, u, v)));
        bytes
    }

    /// Its text, where the runs, the numbers, what is between two items and the ends of the lines are spelled as told.
    fn text(
        &self,
        mut run: impl FnMut(&[u8]) -> String,
        mut number: impl FnMut(u32) -> String,
        mut blank: impl FnMut() -> String,
        mut end: impl FnMut() -> String,
    ) -> String {
        let mut text = format!("letters{}{}{}", blank(), number(self.letters.into()), end());
        for [left, right] in &self.rules {
            text += &[run(left), blank(), "=".into(), blank(), run(right), end()].concat();
        }
        for ([u, v], allowance) in &self.comparisons {
            text += &["compare".into(), blank(), run(u), blank(), run(v), blank(), number(*allowance), end()].concat();
        }
        text
    }

    /// Its text as `decode` should write it.
    fn canonical(&self) -> String {
        self.text(canonical, |number| number.to_string(), || " ".into(), || "\n".into())
    }

    /// One of its other texts: with zeros before numbers, numbers in place of letters, other blanks, comments and line ends.
    fn respelled(&self, seed: u64) -> String {
        let (mut runs, mut numbers, mut blanks, mut ends) = (Chance::new(seed), Chance::new(seed + 1), Chance::new(seed + 2), Chance::new(seed + 3));
        let in_numbers = |chance: &mut Chance, steps: &[u8]| {
            steps.iter().map(|code| format!("{:0width$}", code, width = chance.between(1, 5))).collect::<Vec<_>>().join(".")
        };
        self.text(
            |steps| if steps.is_empty() || runs.once_in(2) { canonical(steps) } else { in_numbers(&mut runs, steps) },
            |number| format!("{number:0width$}", width = numbers.between(1, 25)),
            || blanks.pick(&[" ", "\t", "  \t ", "\u{a0}", "\r ", "\u{2003}\u{3000}"]).to_string(),
            || ends.pick(&["\n", "\r\n", " \n\n\t\n", "#\n", " # compare = # 7\r\n", "\n# letters 4\n  "]).to_string(),
        )
    }
}

/// A run of codes among few, among the letters, among those that a book has, or any.
fn any_run(chance: &mut Chance, most: usize) -> Vec<u8> {
    let codes = *chance.pick(&[4, 26, 27, 64, 256]);
    (0..chance.below(most + 1)).map(|_| chance.below(codes) as u8).collect()
}

/// Bytes to text and back; the text is given back.
#[track_caller]
fn check_bytes(bytes: &[u8], what: &str) -> String {
    let text = decode(bytes).unwrap_or_else(|error| panic!("{what}: {error}"));
    let parsed = Text::parse(&text).unwrap_or_else(|error| panic!("{what}: {error}"));
    assert!(parsed.bytes() == bytes, "{what}: {text}");
    text
}

/// The text of a generated book, a line for each rule.
fn book_text(book: &Book) -> String {
    let rules: String = book.words.chunks(2).map(|pair| format!("{} = {}\n", canonical(&pair[0]), canonical(&pair[1]))).collect();
    format!("letters {}\n{rules}", book.letters)
}

#[test]
fn generated_books() {
    for seed in 0..600 {
        let book = books::any(&mut Chance::new(seed));
        let text = check_bytes(&book.bytes(), &format!("seed {seed}"));
        assert_eq!(text, book_text(&book), "seed {seed}");
        assert_eq!(Text::parse(&text).unwrap().book(), book.bytes(), "seed {seed}");
    }
}

#[test]
fn books_at_the_limits() {
    for number in 0..AT_THE_LIMITS {
        let book = books::at_the_limits(&mut Chance::new(number as u64), number);
        assert_eq!(check_bytes(&book.bytes(), &format!("book {number}")), book_text(&book));
    }
}

#[test]
fn generated_inputs() {
    for seed in 0..400 {
        let mut chance = Chance::new(seed);
        let book = books::any(&mut chance);
        let comparisons = chance.below(8);
        let bytes = inputs::input(&mut chance, &book, comparisons, 60);
        let text = check_bytes(&bytes, &format!("seed {seed}"));
        assert!(text.starts_with(&book_text(&book)), "seed {seed}");
        assert_eq!(text.lines().count(), 1 + book.relations() + comparisons, "seed {seed}");
        assert_eq!(Text::parse(&text).unwrap().book(), book.bytes(), "seed {seed}");
    }
}

#[test]
fn texts_of_any_codes() {
    for seed in 0..600 {
        let said = Said::any(&mut Chance::new(seed));
        let text = said.canonical();
        let bytes = Text::parse(&text).unwrap_or_else(|error| panic!("{text}: {error}")).bytes();
        assert_eq!(bytes, said.bytes(), "{text}");
        assert_eq!(decode(&bytes).unwrap(), text);
    }
}

#[test]
fn texts_that_are_spelled_otherwise() {
    for seed in 0..600 {
        let said = Said::any(&mut Chance::new(seed));
        let text = said.respelled(seed);
        let bytes = Text::parse(&text).unwrap_or_else(|error| panic!("{text:?}: {error}")).bytes();
        assert_eq!(bytes, said.bytes(), "{text:?}");
        assert_eq!(decode(&bytes).unwrap(), said.canonical(), "{text:?}");
        assert_eq!(Text::parse(&format!("\u{feff}{text}")).unwrap().bytes(), bytes, "{text:?}");
    }
}

#[test]
fn the_recorded_inputs() {
    let folder = Path::new(env!("CARGO_MANIFEST_DIR")).join("../vectors/program");
    let mut whole = 0;
    for entry in std::fs::read_dir(folder).expect("the folder of recorded inputs") {
        let path = entry.expect("a file").path();
        if path.extension().is_some_and(|extension| extension == "in") {
            let bytes = std::fs::read(&path).expect("a recorded input");
            if decode(&bytes).is_ok() {
                check_bytes(&bytes, &path.file_name().unwrap_or_default().to_string_lossy());
                whole += 1;
            }
        }
    }
    assert!(whole > 20, "{whole} recorded inputs are whole");
}
