//! A book as its author wrote it: its sides, with the places where they stand.

use std::ffi::OsStr;
use std::fmt;

use booktext::{Comparison, Head, Run, Text};
use vanecitron::Cut;

use crate::failure::Failure;
use crate::given::Given;
use crate::input;
use crate::show::drawn;
use crate::Desk;

/// Where something stands: in a file, or in an argument of the call.
#[derive(Debug, Clone, PartialEq, Eq)]
pub enum At {
    File { file: String, line: usize, column: usize },
    Line { file: String, line: usize },
    Argument { name: String, column: usize },
}

impl fmt::Display for At {
    fn fmt(&self, f: &mut fmt::Formatter<'_>) -> fmt::Result {
        match self {
            At::File { file, line, column } => write!(f, "{file}:{line}:{column}"),
            At::Line { file, line } => write!(f, "{file}:{line}"),
            At::Argument { name, column } => write!(f, "{name}, column {column}"),
        }
    }
}

impl At {
    /// The same for those who know which file is meant.
    pub fn within(&self) -> String {
        match self {
            At::File { line, column, .. } => format!("{line}:{column}"),
            At::Line { line, .. } => line.to_string(),
            At::Argument { .. } => self.to_string(),
        }
    }
}

/// A side, and, where it is not of the book's text, the change of the call that gave it.
#[derive(Debug, Clone)]
pub struct Side {
    pub run: Run,
    pub change: Option<usize>,
}

/// The rules of a book as they were written, two sides for each. Changes can have made them other than those of its text.
#[derive(Debug, Clone)]
pub struct Rules {
    pub file: String,
    pub head: Head,
    pub sides: Vec<Side>,
}

impl Rules {
    /// Where a step of a side stands.
    pub fn at(&self, side: usize, position: usize) -> At {
        let Side { run, change } = &self.sides[side];
        // an empty side has no first step, and stands where its - does
        let column = if position == 0 { run.column } else { run.column_of(position) };
        match change {
            None => At::File { file: self.file.clone(), line: run.line, column },
            Some(change) => At::Argument { name: format!("change {change}"), column },
        }
    }

    /// Where the number of letters stands.
    pub fn at_head(&self) -> At {
        At::File { file: self.file.clone(), line: self.head.line, column: self.head.column }
    }

    /// The codes of all sides.
    pub fn runs(&self) -> Vec<&[u8]> {
        self.sides.iter().map(|side| &side.run.steps[..]).collect()
    }
}

/// What the two runs of a comparison are called.
pub const FIRST: &str = "the first run";
pub const SECOND: &str = "the second run";

/// A book, its text, and what was read from it.
pub struct Book {
    pub source: String,
    pub text: Text,
    pub bytes: Vec<u8>,
    pub rules: Rules,
}

impl Book {
    /// The file that its text stands in.
    pub fn file(&self) -> &str {
        &self.rules.file
    }

    /// The runs of a comparison in its text.
    pub fn given(&self, comparison: &Comparison) -> [Given; 2] {
        let given = |run: usize, name: &str| Given { run: comparison.runs[run].clone(), name: name.to_string(), file: Some(self.file().to_string()) };
        [given(0, FIRST), given(1, SECOND)]
    }
}

impl Desk<'_> {
    /// The book of the call's first argument.
    pub fn book(&mut self) -> Result<Book, Failure> {
        let call = self.call;
        self.book_of(&call.arguments[0])
    }

    fn book_of(&mut self, file: &OsStr) -> Result<Book, Failure> {
        let source = self.read_text(file)?;
        let file = input::name(file);
        let text = Text::parse(&source).map_err(|error| Failure::Text { file: file.clone(), error })?;
        let sides = text.rules.iter().flat_map(|rule| rule.sides.clone()).map(|run| Side { run, change: None }).collect();
        let rules = Rules { file, head: text.head.clone(), sides };
        Ok(Book { source, bytes: text.book(), text, rules })
    }
}

/// A side by its number, as its author counts: rules from 1.
pub fn side_name(number: usize) -> String {
    format!("rule {}, {} side", number / 2 + 1, left_or_right(number))
}

pub fn left_or_right(number: usize) -> &'static str {
    ["left", "right"][number % 2]
}

/// A side with its cut drawn in.
pub fn drawn_cut(steps: &[u8], cut: &Cut) -> String {
    let (x, y) = steps.split_at(cut.x.into());
    let (y, z) = y.split_at(cut.y.into());
    drawn(&[x, y, z])
}

/// k, the length of the longest Z.
pub fn longest_tail(cuts: &[Cut]) -> usize {
    cuts.iter().map(|cut| cut.z.into()).max().unwrap_or(0)
}
