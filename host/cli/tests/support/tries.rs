//! Calls that are tried on anything: what every one of them must hold to, and a good call of each word.

use std::ffi::{OsStr, OsString};
use std::panic::{catch_unwind, AssertUnwindSafe};
use std::path::Path;

use gen::{books, inputs};

use super::{call, json, Called};

pub const WORDS: [&str; 10] = ["check", "sheet", "compare", "trace", "least", "front", "change", "encode", "decode", "explain"];

/// A book that is accepted, with comparisons.
pub const GOOD: &str = "letters 4\nabdc = cadb # a rule\ncompare abdc cadb 100\ncompare a - 7\n";

/// Options that take a value, which stands behind a = or is the next argument.
const WITH_VALUE: [&str; 4] = ["--allowance", "--width", "--output", "-o"];

/// A call that does not panic and ends as calls do.
pub fn tried(arguments: &[OsString], input: &[u8]) -> Called {
    let what = || format!("{arguments:?} with {:?} as standard input", String::from_utf8_lossy(&input[..input.len().min(500)]));
    let called = catch_unwind(AssertUnwindSafe(|| call(arguments, input))).unwrap_or_else(|_| panic!("it panicked: {}", what()));
    assert!(called.status <= 2, "status {}: {}", called.status, what());
    assert!(called.status < 2 || !(called.output.is_empty() && called.errors.is_empty()), "nothing is said: {}", what());
    assert!(called.errors.is_empty() || (called.status == 2 && called.errors.ends_with(b"\n")), "{}: {}", called.faults(), what());
    if asks_for_objects(arguments) {
        let objects = json::lines(&called.text()).unwrap_or_else(|fault| panic!("{fault}: {}", what()));
        assert!(objects.iter().all(|object| !object.answer().is_empty()) && called.errors.is_empty(), "{}", what());
    }
    called
}

/// Whether the option --json stands among the arguments, as no other option's value, and before every --.
fn asks_for_objects(arguments: &[OsString]) -> bool {
    let mut rest = arguments.iter();
    while let Some(argument) = rest.next() {
        match argument.to_str() {
            Some("--") => return false,
            Some("--json") => return true,
            Some(option) if WITH_VALUE.contains(&option) && rest.next().is_some_and(|value| value == "--") => return false,
            _ => {}
        }
    }
    false
}

pub fn arguments<A: AsRef<OsStr>>(items: &[A]) -> Vec<OsString> {
    items.iter().map(|item| item.as_ref().to_os_string()).collect()
}

/// The good call of each word, with its book, or its bytes, on standard input.
pub fn good_call(word: &str) -> Vec<OsString> {
    let behind: &[&str] = match word {
        "compare" | "trace" => &["abdc", "cadb"],
        "least" => &["cadb"],
        "front" => &["abdc", "c"],
        "change" => &["drop 1"],
        "explain" => &["book 1"],
        _ => &[],
    };
    arguments(&[&[word, "-"], behind].concat())
}

/// What the good call of a word reads.
pub fn good_input(word: &str) -> Vec<u8> {
    match word {
        "decode" => [books::head(4), inputs::question(100, &[0], &[1])].concat(),
        _ => GOOD.as_bytes().to_vec(),
    }
}

/// The argument that stands for the runs in a file.
pub fn runs_in(file: &Path) -> OsString {
    [OsStr::new("@"), file.as_os_str()].into_iter().collect()
}
