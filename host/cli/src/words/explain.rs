//! `explain`: what the lines mean that the program prints, in the terms of the text that it was given.

use std::ffi::OsStr;

use booktext::shown;
use vanecitron::{Place, Reason, Refusal};

use crate::book::Book;
use crate::input::STANDARD;
use crate::json::Object;
use crate::refusal::About;
use crate::show::{count, grouped};
use crate::words::Answered;
use crate::{Desk, Status};

/// A line of the program's output.
enum Line {
    Book(usize),
    Same(usize),
    Different(usize),
    Refused(Refusal),
}

/// How far an output is read.
struct Reading<'a> {
    book: &'a Book,
    /// the output began with the book's line, so that each line behind it is known to be of the next comparison
    begun: bool,
    next: usize,
}

/// An explanation for each line of an output: of a file, of standard input, or of the line itself.
pub fn explain(desk: &mut Desk) -> Answered {
    let call = desk.call;
    let book = desk.book()?;
    let output = match call.arguments.get(1) {
        Some(line) if read(&line.to_string_lossy()).is_some() => line.to_string_lossy().into_owned(),
        Some(file) => desk.read_text(file)?,
        None => desk.read_text(OsStr::new(STANDARD))?,
    };
    let mut reading = Reading { book: &book, begun: false, next: 0 };
    for line in output.lines().filter(|line| !line.is_empty()) {
        let (line, meaning) = match read(line) {
            Some(read) => (line.to_string(), reading.meaning(read)),
            None => (shown(line), "this is no line of the program's output".to_string()),
        };
        desk.say([format!("{line}: {meaning}")], || Object::new("meaning").text("line", &line).text("meaning", &meaning))?;
    }
    Ok(Status::Good)
}

fn read(line: &str) -> Option<Line> {
    let number = |text: &str| text.bytes().all(|byte| byte.is_ascii_digit()).then(|| text.parse::<u32>().ok()).flatten();
    match line.split(' ').collect::<Vec<_>>()[..] {
        ["book", rules] => Some(Line::Book(number(rules)? as usize)),
        ["same", rounds] => Some(Line::Same(number(rounds)? as usize)),
        ["different", rounds] => Some(Line::Different(number(rounds)? as usize)),
        ["refused", reason, place] => {
            let (reason, place) = (Reason::from_number(number(reason)?), number(place)?);
            Some(Line::Refused(Refusal { reason, place: Place::from_number(reason, place.into()) }))
        }
        _ => None,
    }
}

impl Reading<'_> {
    fn meaning(&mut self, line: Line) -> String {
        let comparison = match self.comparison() {
            Some(index) => format!("comparison {} on line {}", index + 1, self.book.text.comparisons[index].runs[0].line),
            None => "a comparison".to_string(),
        };
        match line {
            Line::Book(rules) => {
                self.begun = true;
                format!("the book is accepted, with {}", count(rules, "rule"))
            }
            Line::Same(rounds) => {
                self.next += 1;
                format!("{comparison}: a chain of exchanges joins the two runs; {}", count(rounds, "round"))
            }
            Line::Different(rounds) => {
                self.next += 1;
                format!("{comparison}: no chain of exchanges, however long, joins the two runs; {}", count(rounds, "round"))
            }
            Line::Refused(refusal) => self.refused(refusal, &comparison),
        }
    }

    /// The comparison that a line is of, where that is known.
    fn comparison(&self) -> Option<usize> {
        let comparisons = self.book.text.comparisons.len();
        Some(self.next).filter(|&next| next < comparisons && (self.begun || comparisons == 1))
    }

    fn refused(&mut self, refusal: Refusal, comparison: &str) -> String {
        let given = self.comparison().map(|index| self.book.given(&self.book.text.comparisons[index]));
        let [u, v] = given.as_ref().map_or([None; 2], |[u, v]| [Some(u), Some(v)]);
        let about = About { rules: &self.book.rules, record: &|byte| self.book.text.record_at(byte), runs: [u, v, None] };
        let meaning = about.told(refusal).meaning();
        match refusal.reason {
            Reason::Heavy => {
                let (bytes, most) = (grouped(self.book.text.bytes().len() as u64), grouped(vanecitron::INPUT as u64));
                format!("heavy: the text makes {bytes} bytes of input, and the program takes at most {most}")
            }
            Reason::Long | Reason::Stranger | Reason::Spent => {
                self.next += 1;
                format!("{comparison}: {meaning}")
            }
            _ => meaning,
        }
    }
}
