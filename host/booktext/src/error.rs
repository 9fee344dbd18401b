//! What is wrong with a text, and where.

use std::fmt;

/// An error of a text: the line and the column where it stands, both from 1, and what is wrong there. Columns count characters.
#[derive(Debug, Clone, PartialEq, Eq)]
pub struct TextError {
    pub line: usize,
    pub column: usize,
    pub message: String,
}

impl TextError {
    pub(crate) fn new(line: usize, column: usize, message: impl Into<String>) -> TextError {
        TextError { line, column, message: message.into() }
    }
}

impl fmt::Display for TextError {
    fn fmt(&self, f: &mut fmt::Formatter<'_>) -> fmt::Result {
        write!(f, "{}:{}: {}", self.line, self.column, self.message)
    }
}

impl std::error::Error for TextError {}

/// The most characters of an item that a message repeats.
const SHOWN: usize = 20;

/// An item as a message shows it: in quotes, what is no printable character spelled out, and the end of a long one left away.
pub fn shown(item: &str) -> String {
    let mut text = String::from("'");
    let mut characters = item.chars();
    for character in characters.by_ref().take(SHOWN) {
        match character {
            '\'' | '"' | '\\' => text.push(character),
            other => text.extend(other.escape_debug()),
        }
    }
    text.push_str(if characters.next().is_some() { "...'" } else { "'" });
    text
}
