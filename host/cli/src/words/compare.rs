//! `compare`: whether a chain of exchanges joins two runs.

use vanecitron::{Comparison, ALLOWANCE};

use crate::book::{Book, FIRST, SECOND};
use crate::given::Given;
use crate::json::Object;
use crate::refusal::SHOWN;
use crate::show::{count, short};
use crate::words::{told, Answered};
use crate::{Desk, Status};

/// Two given runs, or, where none are given, the comparisons in the book's text.
pub fn compare(desk: &mut Desk) -> Answered {
    let call = desk.call;
    let book = desk.book()?;
    if call.arguments.len() > 1 {
        let [u, v] = desk.just(&call.arguments[1..], [FIRST, SECOND])?;
        return compare_runs(desk, &book, &u, &v, call.allowance.unwrap_or(ALLOWANCE), None);
    }
    // a book that is refused is told once, whether its text has comparisons or not
    if let Err(refusal) = vanecitron::check(&book.bytes) {
        return desk.refuse(&told(&book, [None; 3], refusal));
    }
    if book.text.comparisons.is_empty() {
        return Err(call.wrong(&format!("two runs are wanted, since {} has no comparisons", book.file())));
    }
    let mut worst = Status::Good;
    for comparison in &book.text.comparisons {
        let [u, v] = book.given(comparison);
        let allowance = call.allowance.unwrap_or(comparison.allowance);
        let status = compare_runs(desk, &book, &u, &v, allowance, Some(comparison.runs[0].line))?;
        worst = worst.max(status);
    }
    Ok(worst)
}

/// Compares two runs and says the answer, with the line of the text where they stand in it.
fn compare_runs(desk: &mut Desk, book: &Book, u: &Given, v: &Given, allowance: u32, line: Option<usize>) -> Answered {
    let answer = match vanecitron::compare(&book.bytes, &u.run.steps, &v.run.steps, allowance) {
        Err(refusal) => {
            let told = told(book, [Some(u), Some(v), None], refusal);
            return desk.refuse(&match line {
                Some(line) => told.on_line(book.file(), line),
                None => told,
            });
        }
        Ok(answer) => answer,
    };
    let width = desk.call.width.unwrap_or(SHOWN);
    let place = line.map_or(String::new(), |line| format!("{}:{line}: ", book.file()));
    let sentence = format!("{place}{}", sentence(answer, &u.run.steps, &v.run.steps, width));
    desk.say([sentence], || {
        let object = answer_object(answer).number("allowance", allowance).run("u", &u.run.steps).run("v", &v.run.steps);
        match line {
            Some(line) => object.text("file", book.file()).number("line", line),
            None => object,
        }
    })?;
    Ok(status(answer))
}

/// The answer as a sentence.
pub fn sentence(answer: Comparison, u: &[u8], v: &[u8], width: usize) -> String {
    let (u, v) = (short(u, width), short(v, width));
    match answer {
        Comparison::Same { rounds } => format!("same: a chain of exchanges joins {u} and {v}; {}", count(rounds as usize, "round")),
        Comparison::Different { rounds } => {
            format!("different: no chain of exchanges, however long, joins {u} and {v}; {}", count(rounds as usize, "round"))
        }
    }
}

pub fn answer_object(answer: Comparison) -> Object {
    match answer {
        Comparison::Same { rounds } => Object::new("same").number("rounds", rounds),
        Comparison::Different { rounds } => Object::new("different").number("rounds", rounds),
    }
}

pub fn status(answer: Comparison) -> Status {
    match answer {
        Comparison::Same { .. } => Status::Good,
        Comparison::Different { .. } => Status::Different,
    }
}
