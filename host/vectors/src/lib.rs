//! The recorded calls of the entries (`entries.txt`; `least.txt` of least words; `front.txt` of fronts taken off; `shared.txt` under books whose relations share
//! words; `held.txt` of held books and tickets), the recorded inputs and outputs of the program (`program/`) and the executed cases of the proved part
//! (`crates/cases`), as tests read them.
//! Their answers are written down, so no implementation has a part in this crate.

pub mod held;

use std::fs;
use std::path::PathBuf;

pub use held::{Answer, Operation};

/// What lent buffers are filled with.
const FILLED: u8 = 0xaa;

/// A call of an entry, with what it takes; lent buffers by their sizes.
pub enum Call {
    Compare { book: Vec<u8>, u: Vec<u8>, v: Vec<u8>, allowance: u32 },
    Sheet { book: Vec<u8>, size: usize },
    Round { book: Vec<u8>, words: [Vec<u8>; 3], sizes: [usize; 3] },
    Least { book: Vec<u8>, word: Vec<u8>, size: usize, offset: usize },
    Front { book: Vec<u8>, word: Vec<u8>, piece: Vec<u8>, size: usize, offset: usize },
    Held { book: Vec<u8>, operations: Vec<Operation> },
}

impl Call {
    /// The bytes of the book, which every call has.
    pub fn book(&self) -> &[u8] {
        match self {
            Call::Compare { book, .. } | Call::Sheet { book, .. } | Call::Round { book, .. } => book,
            Call::Least { book, .. } | Call::Front { book, .. } | Call::Held { book, .. } => book,
        }
    }
}

/// A line of recorded calls: the call, and the answer as it is written there.
pub struct Recorded {
    pub line: String,
    pub call: Call,
    pub answer: String,
}

/// An executed case: a line of what is asked, and the line that answers it.
pub struct Case {
    pub line: String,
    pub answer: String,
}

/// An input of the program and its output, by the name of the file.
pub struct Run {
    pub name: String,
    pub input: Vec<u8>,
    pub output: String,
}

/// All recorded calls.
pub fn calls() -> Vec<Recorded> {
    let files = [("entries.txt", 381), ("least.txt", 148), ("front.txt", 146), ("shared.txt", 178), ("held.txt", 129)];
    files.into_iter().flat_map(|(name, count)| calls_of(name, count)).collect()
}

/// The recorded calls of a file that has so many.
fn calls_of(name: &str, count: usize) -> Vec<Recorded> {
    let text = fs::read_to_string(directory().join(name)).expect("the recorded calls");
    let calls: Vec<Recorded> = text.lines().map(recorded).collect();
    assert_eq!(calls.len(), count, "recorded calls of {name}");
    calls
}

/// All recorded inputs of the program.
pub fn runs() -> Vec<Run> {
    let entries = fs::read_dir(directory().join("program")).expect("the recorded inputs");
    let paths = entries.map(|entry| entry.expect("an entry").path());
    let run = |path: PathBuf| Run {
        name: path.display().to_string(),
        input: fs::read(&path).expect("an input"),
        output: fs::read_to_string(path.with_extension("out")).expect("its output"),
    };
    let runs: Vec<Run> = paths.filter(|path| path.extension().is_some_and(|extension| extension == "in")).map(run).collect();
    assert_eq!(runs.len(), 56, "recorded inputs");
    runs
}

/// All executed cases. A heading is answered by itself, and is none.
pub fn executed() -> Vec<Case> {
    let read = |name: &str| fs::read_to_string(directory().join("../../crates/cases").join(name)).expect("the executed cases");
    let (lines, answers) = (read("stdin"), read("stdout"));
    assert_eq!(lines.lines().count(), answers.lines().count(), "a line of answer for each");
    let cases = lines.lines().zip(answers.lines()).map(|(line, answer)| Case { line: line.to_string(), answer: answer.to_string() });
    cases.filter(|case| !(case.line.starts_with('#') && case.answer == case.line)).collect()
}

/// The answer of a call that writes a word at an offset of a lent buffer of this size: the call's name, the length and the word, or the refusal. `touched` stands before it
/// where a byte changed that must be kept.
pub fn placed(name: &str, size: usize, offset: usize, call: impl FnOnce(&mut [u8]) -> Answer) -> String {
    let mut buffer = vec![FILLED; size];
    let answer = call(&mut buffer);
    let written = answer.map_or(0..0, |length| offset..offset + length as usize);
    let told = match answer {
        Ok(length) => format!("{name} {length} {}", hex(&buffer[written.clone()])),
        Err((number, place)) => format!("refused {number} {place}"),
    };
    let is_kept = |at: usize| written.contains(&at) || buffer[at] == FILLED;
    if (0..size).all(is_kept) {
        return told;
    }
    format!("touched {told}")
}

/// Bytes as they are written in entries.txt.
pub fn hex(bytes: &[u8]) -> String {
    if bytes.is_empty() {
        return "-".to_string();
    }
    bytes.iter().map(|byte| format!("{byte:02x}")).collect()
}

/// The bytes that `hex` writes so.
pub fn bytes(text: &str) -> Vec<u8> {
    if text == "-" {
        return Vec::new();
    }
    (0..text.len()).step_by(2).map(|i| u8::from_str_radix(&text[i..i + 2], 16).expect("hexadecimal")).collect()
}

fn directory() -> PathBuf {
    PathBuf::from(env!("CARGO_MANIFEST_DIR"))
}

fn recorded(line: &str) -> Recorded {
    let (left, answer) = line.split_once(" => ").expect("a call and its answer");
    Recorded { line: line.to_string(), call: call(left), answer: answer.to_string() }
}

/// The call that is written so.
pub fn call(line: &str) -> Call {
    let fields: Vec<&str> = line.split(' ').collect();
    let word = |i: usize| bytes(fields[i]);
    let number = |i: usize| fields[i].parse().expect("a number");
    let book = word(1);
    match fields[0] {
        "compare" => Call::Compare { book, u: word(2), v: word(3), allowance: fields[4].parse().expect("an allowance") },
        "sheet" => Call::Sheet { book, size: number(2) },
        "round" => Call::Round { book, words: [2, 3, 4].map(word), sizes: [5, 6, 7].map(number) },
        "least" => Call::Least { book, word: word(2), size: number(3), offset: number(4) },
        "front" => Call::Front { book, word: word(2), piece: word(3), size: number(4), offset: number(5) },
        "held" => Call::Held { book, operations: fields[2..].iter().map(|text| held::operation(text)).collect() },
        other => panic!("no entry {other}"),
    }
}
