//! What ends the command before it has an answer: a wrong call, a text with an error, a file that cannot be read.

use std::fmt;
use std::io;

use booktext::{BytesError, TextError};

use crate::input::reason;
use crate::json::Object;

/// Why there is no answer.
#[derive(Debug)]
pub enum Failure {
    /// the call is none that the command has; the word whose help is of use, where there is one
    Call { message: String, word: Option<&'static str> },
    /// a text has an error
    Text { file: String, error: TextError },
    /// a run or a change that was given as an argument has an error
    Argument { name: String, error: TextError },
    /// bytes are those of no text
    Bytes { file: String, error: BytesError },
    /// a file cannot be read, or not be written
    File { file: String, message: String },
    /// two answers of the library do not agree, which no archive of this version does
    Disagreement(String),
    /// the output cannot be written
    Output(io::Error),
}

impl Failure {
    /// The failure as an object, with what an editor needs to jump to it.
    pub fn object(&self, object: Object) -> Object {
        match self {
            Failure::Text { file, error } => {
                let object = object.text("message", &error.message).text("file", file);
                object.number("line", error.line).number("column", error.column)
            }
            Failure::Bytes { file, error } => object.text("message", &error.message).text("file", file).number("byte", error.place),
            Failure::Argument { name, error } => object.text("message", &error.message).text("argument", name).number("column", error.column),
            Failure::File { file, message } => object.text("message", message).text("file", file),
            Failure::Call { message, .. } | Failure::Disagreement(message) => object.text("message", message),
            Failure::Output(error) => object.text("message", &reason(error)).text("file", "standard output"),
        }
    }
}

impl fmt::Display for Failure {
    fn fmt(&self, f: &mut fmt::Formatter<'_>) -> fmt::Result {
        match self {
            Failure::Call { message, word: None } => write!(f, "vanecitron: {message} (vanecitron --help)"),
            Failure::Call { message, word: Some(word) } => write!(f, "vanecitron: {message} (vanecitron {word} --help)"),
            Failure::Text { file, error } => write!(f, "{file}:{error}"),
            Failure::Argument { name, error } => write!(f, "vanecitron: {name}, column {}: {}", error.column, error.message),
            Failure::Bytes { file, error } => write!(f, "{file}: {error}"),
            Failure::File { file, message } => write!(f, "vanecitron: {file}: {message}"),
            Failure::Disagreement(message) => write!(f, "vanecitron: {message}"),
            Failure::Output(error) => write!(f, "vanecitron: standard output: {}", reason(error)),
        }
    }
}

/// What cannot be written to the output.
impl From<io::Error> for Failure {
    fn from(error: io::Error) -> Failure {
        Failure::Output(error)
    }
}
