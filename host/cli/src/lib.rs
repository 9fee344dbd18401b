//! The command `vanecitron` for people (docs/COMMAND.md): technicians, clerks, authors of books, and the auditor.
//!
//! It reads the readable form of books and runs and calls the proved library for every answer. What it says beyond them, such as which pieces make a side up, it finds
//! itself, outside the proof, and its output says so.
//!
//! [`run`] is the whole command over lent streams, so that tests can call it; `main.rs` lends it those of the process.

mod book;
mod call;
mod doing;
mod failure;
mod given;
mod help;
mod input;
mod json;
mod pieces;
mod refusal;
pub mod rows;
mod show;
mod words;

use std::ffi::OsString;
use std::io::{ErrorKind, Read, Write};

use call::Call;
use failure::Failure;
use json::Object;

/// How a word of the command ends; a script asks for its number.
#[derive(Debug, Clone, Copy, PartialEq, Eq, PartialOrd, Ord)]
pub enum Status {
    /// same, accepted, or what was asked for
    Good,
    /// no chain of exchanges joins the runs
    Different,
    /// refused or spent, or something is wrong with the call, a text or a file
    Refused,
}

/// What a word of the command works with: its call, and the streams that it reads and writes.
struct Desk<'a> {
    call: &'a Call,
    /// standard input, until something reads it
    input: Option<&'a mut dyn Read>,
    output: &'a mut dyn Write,
}

/// Runs the command and gives its status: 0, 1 or 2. It never panics, whatever it is given.
pub fn run(arguments: &[OsString], input: &mut dyn Read, output: &mut dyn Write, errors: &mut dyn Write) -> u8 {
    let call = call::read(arguments);
    let json = call.as_ref().map_or_else(|_| call::wants_json(arguments), |call| call.json);
    let done = call.and_then(|call| words::answer(&mut Desk { call: &call, input: Some(input), output })).and_then(|status| {
        output.flush()?;
        Ok(status)
    });
    let status = done.unwrap_or_else(|failure| {
        // where even this cannot be told, the status still tells it
        let _ = tell(&failure, json, output, errors);
        Status::Refused
    });
    status as u8
}

/// Tells a failure: a sentence among the errors, or, where objects are asked for and can be written, an object among the answers.
fn tell(failure: &Failure, json: bool, output: &mut dyn Write, errors: &mut dyn Write) -> std::io::Result<()> {
    match failure {
        Failure::Output(error) if error.kind() == ErrorKind::BrokenPipe => Ok(()), // nobody reads any more
        Failure::Output(_) => writeln!(errors, "{failure}"),
        _ if json => {
            let told = writeln!(output, "{}", failure.object(Object::new("error"))).and_then(|()| output.flush());
            told.or_else(|error| tell(&Failure::Output(error), json, output, errors))
        }
        _ => writeln!(errors, "{failure}"),
    }
}
