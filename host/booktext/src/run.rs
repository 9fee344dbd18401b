//! Runs: how they are written.

use std::fmt;

use crate::error::shown;
use crate::TextError;

/// The highest code that a byte can be.
const BYTE: u64 = 255;

/// The codes that have a letter.
const LETTERS: u8 = 26;

/// A run, and where it stands in its text.
#[derive(Debug, Clone, PartialEq, Eq)]
pub struct Run {
    pub steps: Vec<u8>,
    pub line: usize,
    pub column: usize,
    /// the run as it is written, for the columns of its steps
    item: String,
}

impl Run {
    /// Reads an item that stands at this line and column.
    pub fn parse(item: &str, line: usize, column: usize) -> Result<Run, TextError> {
        let steps = match item {
            "" => return Err(TextError::new(line, column, "a run has no letters; the empty run is -")),
            "-" => Vec::new(),
            _ if in_numbers(item) => numbers_of(item, line, column)?,
            _ => letters_of(item, line, column)?,
        };
        Ok(Run { steps, line, column, item: item.to_string() })
    }

    /// The column of a step, by its position from 0; a position behind the end has the column behind the run.
    pub fn column_of(&self, position: usize) -> usize {
        let before = match &self.item {
            item if position >= self.steps.len() => item.len(),
            item if in_numbers(item) => item.split('.').take(position).map(|number| number.len() + 1).sum(),
            _ => position,
        };
        self.column + before
    }
}

impl fmt::Display for Run {
    fn fmt(&self, f: &mut fmt::Formatter<'_>) -> fmt::Result {
        f.write_str(&run_text(&self.steps))
    }
}

/// A run that begins as one in numbers does.
fn in_numbers(item: &str) -> bool {
    item.starts_with(|first: char| first == '.' || first.is_ascii_digit())
}

/// The codes of letters from a to z.
fn letters_of(item: &str, line: usize, column: usize) -> Result<Vec<u8>, TextError> {
    let code = |(at, letter): (usize, char)| match letter {
        'a'..='z' => Ok(letter as u8 - b'a'),
        other => {
            let message = format!("{} is no letter from a to z; a run is letters, numbers with dots between them, or -", shown(&other.to_string()));
            Err(TextError::new(line, column + at, message))
        }
    };
    item.chars().enumerate().map(code).collect()
}

/// The codes of numbers with dots between them.
fn numbers_of(item: &str, line: usize, column: usize) -> Result<Vec<u8>, TextError> {
    let mut at = column;
    let code = |number: &str| {
        let here = at;
        at += number.len() + 1;
        match number {
            "" => Err(TextError::new(line, here, "a number is missing at a dot")),
            _ => number_of(number, line, here, BYTE, "a letter's code").map(|code| code as u8),
        }
    };
    item.split('.').map(code).collect()
}

/// A decimal number of at most `most`.
pub(crate) fn number_of(item: &str, line: usize, column: usize, most: u64, what: &str) -> Result<u64, TextError> {
    if item.is_empty() || !item.bytes().all(|byte| byte.is_ascii_digit()) {
        return Err(TextError::new(line, column, format!("{what} must be a number, not {}", shown(item))));
    }
    let above = || TextError::new(line, column, format!("{what} is at most {most}, not {}", shown(item)));
    item.parse().ok().filter(|&number| number <= most).ok_or_else(above)
}

/// A run as text: letters where all its codes have one, else numbers.
pub fn run_text(steps: &[u8]) -> String {
    if steps.is_empty() {
        return "-".to_string();
    }
    if steps.iter().all(|&code| code < LETTERS) {
        return steps.iter().map(|&code| char::from(b'a' + code)).collect();
    }
    steps.iter().map(u8::to_string).collect::<Vec<_>>().join(".")
}

/// A step as text, with its code.
pub fn letter_text(code: u8) -> String {
    match code {
        0..LETTERS => format!("{} (code {code})", run_text(&[code])),
        _ => code.to_string(),
    }
}
