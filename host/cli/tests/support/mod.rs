//! What the seeded tests share: calls of the command in this process, a reader of its objects, texts of books, and counts of what was met.
#![allow(dead_code)] // each test uses a part of it

pub mod json;
pub mod texts;
pub mod tries;

use std::collections::BTreeMap;
use std::ffi::{OsStr, OsString};
use std::path::PathBuf;

use json::Json;

/// What a call of the command gave.
#[derive(Debug, Clone, PartialEq, Eq)]
pub struct Called {
    pub status: u8,
    pub output: Vec<u8>,
    pub errors: Vec<u8>,
}

/// Calls the command in this process, with these bytes as its standard input.
pub fn call<A: AsRef<OsStr>>(arguments: &[A], mut input: &[u8]) -> Called {
    let arguments: Vec<OsString> = arguments.iter().map(|argument| argument.as_ref().to_os_string()).collect();
    let (mut output, mut errors) = (Vec::new(), Vec::new());
    let status = cli::run(&arguments, &mut input, &mut output, &mut errors);
    Called { status, output, errors }
}

impl Called {
    /// What it printed.
    pub fn text(&self) -> String {
        String::from_utf8(self.output.clone()).unwrap_or_else(|_| panic!("no text: {:?}", self.output))
    }

    /// What it said of faults.
    pub fn faults(&self) -> String {
        String::from_utf8_lossy(&self.errors).into_owned()
    }

    /// The objects that it printed; every line must be one, and nothing may be said elsewhere.
    pub fn objects(&self) -> Vec<Json> {
        assert_eq!(self.faults(), "", "{}", self.text());
        json::lines(&self.text()).unwrap_or_else(|fault| panic!("{fault}"))
    }

    /// The one object that it printed.
    pub fn object(&self) -> Json {
        let objects = self.objects();
        assert_eq!(objects.len(), 1, "{objects:?}");
        objects.into_iter().next().expect("one")
    }
}

/// How often each kind was met, so that no trial is empty.
#[derive(Debug, Default)]
pub struct Tally {
    met: BTreeMap<String, usize>,
}

impl Tally {
    pub fn meet(&mut self, kind: impl Into<String>) {
        *self.met.entry(kind.into()).or_default() += 1;
    }

    /// Each of these kinds was met as often as is said, at least.
    pub fn expect(&self, kinds: &[(&str, usize)]) {
        let met = |kind: &str| self.met.get(kind).copied().unwrap_or(0);
        let hardly: Vec<&str> = kinds.iter().filter(|(kind, least)| met(kind) < *least).map(|(kind, _)| *kind).collect();
        assert!(hardly.is_empty(), "hardly met: {hardly:?}, of {:#?}", self.met);
    }
}

/// A directory for the files of one test, empty at first.
pub fn directory(test: &str) -> PathBuf {
    let directory = PathBuf::from(env!("CARGO_TARGET_TMPDIR")).join(test);
    let _ = std::fs::remove_dir_all(&directory);
    std::fs::create_dir_all(&directory).expect("a directory for the test's files");
    directory
}

/// A number with commas between its thousands.
pub fn grouped(number: usize) -> String {
    match number {
        0..1_000 => number.to_string(),
        _ => format!("{},{:03}", grouped(number / 1_000), number % 1_000),
    }
}
