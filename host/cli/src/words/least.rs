//! `least`, the least run of each run, and `front`, what is left of a run once a front is taken off it.

use std::ffi::OsStr;

use booktext::run_text;
use vanecitron::{Reason, Refusal};

use crate::book::{side_name, Book};
use crate::given::Given;
use crate::input::STANDARD;
use crate::json::Object;
use crate::pieces::Pieces;
use crate::refusal::SHOWN;
use crate::show::short;
use crate::words::{told, Answered};
use crate::{Desk, Status};

/// The least run of each given run, a line each; where none is given, of those on standard input.
pub fn least(desk: &mut Desk) -> Answered {
    let call = desk.call;
    let book = desk.book()?;
    let name = |index: usize| format!("run {}", index + 1);
    let runs = match &call.arguments[1..] {
        [] => desk.runs_of(OsStr::new(STANDARD), 0, name)?,
        arguments => desk.runs(arguments, name)?,
    };
    // a refusal of the book is the only answer
    if let Err(refusal) = vanecitron::check(&book.bytes) {
        return desk.refuse(&told(&book, [None; 3], refusal));
    }
    let mut worst = Status::Good;
    for given in &runs {
        let run = &given.run.steps;
        worst = worst.max(match vanecitron::least(&book.bytes, run) {
            Err(refusal) => desk.refuse(&told(&book, [Some(given), None, None], refusal))?,
            Ok(least) => desk.say([run_text(&least)], || Object::new("least").number("length", least.len()).run("run", run).run("least", &least))?,
        });
    }
    Ok(worst)
}

/// What is left of a run behind a piece.
pub fn front(desk: &mut Desk) -> Answered {
    let call = desk.call;
    let book = desk.book()?;
    let [run, piece] = desk.just(&call.arguments[1..], ["the run", "the piece"])?;
    let (u, p) = (&run.run.steps, &piece.run.steps);
    match vanecitron::front(&book.bytes, u, p) {
        Ok(rest) => {
            desk.say([run_text(&rest)], || Object::new("front").number("length", rest.len()).run("run", u).run("piece", p).run("rest", &rest))
        }
        Err(refusal) => {
            let told = told(&book, [Some(&run), None, Some(&piece)], refusal);
            desk.refuse(&match no_front(&book, &run, &piece, refusal) {
                Some(sentence) => told.saying(sentence),
                None => told,
            })
        }
    }
}

/// What 18 and 19 mean of this run and this piece.
fn no_front(book: &Book, run: &Given, piece: &Given, refusal: Refusal) -> Option<String> {
    let (u, p) = (short(&run.run.steps, SHOWN), short(&piece.run.steps, SHOWN));
    match refusal.reason {
        Reason::NoFront => Some(format!("no chain of exchanges, however long, leads from {u} to a run that begins with {p}")),
        Reason::NotPiece => {
            let runs = book.rules.runs();
            let found = match Pieces::new(&runs).places(&piece.run.steps) {
                [] => "in no side".to_string(),
                [place, ..] => format!("in {} (at {}) alone", side_name(place.side), book.rules.at(place.side, place.position).within()),
            };
            Some(format!("{p} is no piece of the book; a piece stands at two places of the sides, each distinct side counted once. This command finds it {found}"))
        }
        _ => None,
    }
}
