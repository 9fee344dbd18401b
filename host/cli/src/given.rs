//! Runs that are given beside a book: as arguments, in files, on standard input, or as comparisons in the book's text.

use std::ffi::{OsStr, OsString};
use std::os::unix::ffi::OsStrExt;

use booktext::Run;

use crate::book::At;
use crate::failure::Failure;
use crate::input;
use crate::Desk;

/// A run, what it is called, and the file that it stands in, if it does.
#[derive(Debug, Clone)]
pub struct Given {
    pub run: Run,
    pub name: String,
    pub file: Option<String>,
}

impl Given {
    /// Where a step of it stands.
    pub fn at(&self, position: usize) -> At {
        let column = self.run.column_of(position);
        match &self.file {
            Some(file) => At::File { file: file.clone(), line: self.run.line, column },
            None => At::Argument { name: self.name.clone(), column },
        }
    }
}

impl Desk<'_> {
    /// The runs that arguments stand for: each is a run, or `@FILE` for the runs in a file, one a line; `@-` is standard input.
    pub fn runs(&mut self, arguments: &[OsString], name: impl Fn(usize) -> String) -> Result<Vec<Given>, Failure> {
        let mut runs = Vec::new();
        for argument in arguments {
            match argument.as_bytes().strip_prefix(b"@") {
                Some(file) => runs.extend(self.runs_of(OsStr::from_bytes(file), runs.len(), &name)?),
                None => {
                    let name = name(runs.len());
                    match Run::parse(&argument.to_string_lossy(), 1, 1) {
                        Ok(run) => runs.push(Given { run, name, file: None }),
                        Err(error) => return Err(Failure::Argument { name, error }),
                    }
                }
            }
        }
        Ok(runs)
    }

    /// The runs in a file, or on standard input, one a line; so many stand before them.
    pub fn runs_of(&mut self, file: &OsStr, before: usize, name: impl Fn(usize) -> String) -> Result<Vec<Given>, Failure> {
        let text = self.read_text(file)?;
        let file = input::name(file);
        let runs = Run::parse_lines(&text).map_err(|error| Failure::Text { file: file.clone(), error })?;
        let given = |(index, run)| Given { run, name: name(before + index), file: Some(file.clone()) };
        Ok(runs.into_iter().enumerate().map(given).collect())
    }

    /// Just so many runs, by these names.
    pub fn just<const N: usize>(&mut self, arguments: &[OsString], names: [&str; N]) -> Result<[Given; N], Failure> {
        let runs = self.runs(arguments, |index| names.get(index).map_or(format!("run {}", index + 1), |name| name.to_string()))?;
        let given = runs.len();
        runs.try_into().map_err(|_| self.call.wrong(&format!("{N} runs are wanted, not {given}")))
    }
}
