//! Files and standard input: books, runs and bytes, with a limit on how much is read.

use std::ffi::OsStr;
use std::fs::File;
use std::io::{self, Read, Write};

use crate::failure::Failure;
use crate::Desk;

/// The most bytes that are read from one file. The longest text of an input that the program takes has some 240,000, comments aside; this is room for thousands of long runs.
const LIMIT: u64 = 4 << 20;

/// What stands for standard input where a file is named.
pub const STANDARD: &str = "-";

impl Desk<'_> {
    /// The bytes of a file, or of standard input where it is `-`.
    pub fn read(&mut self, file: &OsStr) -> Result<Vec<u8>, Failure> {
        if file == STANDARD {
            let input = self.input.take().ok_or_else(|| self.call.wrong("standard input can be read once in a call"))?;
            return limited(input).map_err(|message| Failure::File { file: "standard input".into(), message });
        }
        let bytes = File::open(file).map_err(|error| reason(&error)).and_then(limited);
        bytes.map_err(|message| Failure::File { file: name(file), message })
    }

    /// The text of a file. A byte that is no text stays visible as a bad character, with its line and column.
    pub fn read_text(&mut self, file: &OsStr) -> Result<String, Failure> {
        let bytes = self.read(file)?;
        if bytes.starts_with(&[1, 0, 1, 0]) {
            let message = "these are the bytes of a book and no text; `vanecitron decode` makes a text of them".to_string();
            return Err(Failure::File { file: name(file), message });
        }
        Ok(String::from_utf8_lossy(&bytes).into_owned())
    }

    /// Writes bytes to the file of the option --output, or to standard output where there is none.
    pub fn write(&mut self, bytes: &[u8]) -> Result<(), Failure> {
        let Some(file) = &self.call.output else {
            return Ok(self.output.write_all(bytes)?);
        };
        let written = File::create(file).and_then(|mut to| to.write_all(bytes));
        written.map_err(|error| Failure::File { file: name(file), message: reason(&error) })
    }
}

/// A file as messages name it.
pub fn name(file: &OsStr) -> String {
    match file.to_string_lossy() {
        file if file == STANDARD => "standard input".to_string(),
        file if file.is_empty() => "''".to_string(),
        file => file.into_owned(),
    }
}

/// All bytes, unless there are too many.
fn limited(from: impl Read) -> Result<Vec<u8>, String> {
    let mut bytes = Vec::new();
    from.take(LIMIT + 1).read_to_end(&mut bytes).map_err(|error| reason(&error))?;
    match bytes.len() as u64 > LIMIT {
        true => Err(format!("there are more than {} bytes, which is more than is read", crate::show::grouped(LIMIT))),
        false => Ok(bytes),
    }
}

/// What an error of the system says, without its number.
pub fn reason(error: &io::Error) -> String {
    let text = error.to_string();
    text.split(" (os error").next().unwrap_or(&text).to_string()
}
