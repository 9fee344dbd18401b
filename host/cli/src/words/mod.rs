//! The words of the command, a file each, and what they share.

pub mod change;
pub mod check;
pub mod compare;
pub mod explain;
pub mod least;
pub mod trace;
pub mod translate;

use vanecitron::Refusal;

use crate::book::Book;
use crate::call::Asked;
use crate::failure::Failure;
use crate::given::Given;
use crate::help;
use crate::json::Object;
use crate::refusal::{About, Told};
use crate::{Desk, Status};

/// What a word gives.
pub type Answered = Result<Status, Failure>;

/// Answers a call.
pub fn answer(desk: &mut Desk) -> Answered {
    match desk.call.asked {
        Asked::Answer(word) => (word.answer)(desk),
        Asked::Help(word) => desk.say([help::text(word)], || Object::new("help").text("text", &help::text(word))),
        Asked::Version => {
            let version = vanecitron::version();
            let text = format!("{}.{}.{}", version / 10_000, version / 100 % 100, version % 100);
            desk.say([format!("vanecitron {text}")], || Object::new("version").number("version", version))
        }
    }
}

impl Desk<'_> {
    /// Says lines, or the object where objects are asked for.
    pub fn say(&mut self, lines: impl IntoIterator<Item = impl AsRef<str>>, object: impl FnOnce() -> Object) -> Answered {
        match self.call.json {
            true => writeln!(self.output, "{}", object())?,
            false => {
                for line in lines {
                    writeln!(self.output, "{}", line.as_ref())?;
                }
            }
        }
        Ok(Status::Good)
    }

    /// Gives a result as it is: into the file of --output, or else to standard output, unless objects are asked for there.
    pub fn give(&mut self, result: &[u8], object: impl FnOnce() -> Object) -> Answered {
        if !self.call.json || self.call.output.is_some() {
            self.write(result)?;
        }
        if self.call.json {
            self.say([""], object)?;
        }
        Ok(Status::Good)
    }

    /// Says a refusal.
    pub fn refuse(&mut self, told: &Told) -> Answered {
        self.say(told.lines(), || told.object())?;
        Ok(Status::Refused)
    }
}

/// A refusal of a call on a book and runs, which are u, v and p where they are there.
pub fn told(book: &Book, runs: [Option<&Given>; 3], refusal: Refusal) -> Told {
    About { rules: &book.rules, record: &|byte| book.text.record_at(byte), runs }.told(refusal)
}
