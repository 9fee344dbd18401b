//! `trace`: every round of a comparison, a line each, by the library's single round.

use vanecitron::{Comparison, Refusal, ALLOWANCE};

use crate::book::{Book, FIRST, SECOND};
use crate::doing::Teller;
use crate::failure::Failure;
use crate::json::Object;
use crate::refusal::SHOWN;
use crate::rows::{Outcome, State, Words};
use crate::show::{short, table};
use crate::words::{compare, told, Answered};
use crate::Desk;

/// So many lines are held back and aligned to each other.
const ALIGNED: usize = 1_000;

const WHOSE: &str =
    "The rounds and the answer are the library's. The row and what is done are found by this command, and lead from each round to the next.";

/// The rounds of two runs, and then the answer.
pub fn trace(desk: &mut Desk) -> Answered {
    let call = desk.call;
    let book = desk.book()?;
    let [first, second] = desk.just(&call.arguments[1..], [FIRST, SECOND])?;
    let (u, v) = (&first.run.steps, &second.run.steps);
    let answer = match vanecitron::compare(&book.bytes, u, v, ALLOWANCE) {
        Err(refusal) => return desk.refuse(&told(&book, [Some(&first), Some(&second), None], refusal)),
        Ok(answer) => answer,
    };
    let width = call.width.unwrap_or(SHOWN);
    if rounds(desk, &book, State { u: u.clone(), v: v.clone(), p: Vec::new() }, width)? != answer {
        return Err(Failure::Disagreement("the single rounds end otherwise than the comparison".into()));
    }
    let sentence = compare::sentence(answer, u, v, width);
    desk.say(["", &sentence, WHOSE], || compare::answer_object(answer).run("u", u).run("v", v))?;
    Ok(compare::status(answer))
}

/// Tells every round from a state to the end, and gives the answer there.
fn rounds(desk: &mut Desk, book: &Book, mut state: State, width: usize) -> Result<Comparison, Failure> {
    let cuts = vanecitron::cut_sheet(&book.bytes).map_err(disagreement)?;
    let words = Words::new(&book.rules.runs(), &cuts);
    let teller = Teller { words: &words, width };
    let mut table = Table { width, waiting: Vec::new(), headed: false };
    let mut done = 0;
    loop {
        let outcome = library_round(book, &state)?;
        // what this command finds is told only where it leads to the library's round
        let found = Some(words.round(&state)).filter(|round| round.outcome == outcome);
        let line = Line {
            round: matches!(outcome, Outcome::Next(_)).then_some(done + 1),
            row: found.as_ref().map(|round| round.row),
            sentence: found.map_or("this command does not find what is done".into(), |round| teller.sentence(&round, &state)),
        };
        table.tell(desk, &line, &state)?;
        match outcome {
            Outcome::Next(next) => state = next,
            end => {
                table.flush(desk)?;
                return Ok(if end == Outcome::Same { Comparison::Same { rounds: done } } else { Comparison::Different { rounds: done } });
            }
        }
        done += 1;
    }
}

/// The library's single round.
fn library_round(book: &Book, State { u, v, p }: &State) -> Result<Outcome, Failure> {
    Ok(match vanecitron::round(&book.bytes, u, v, p).map_err(disagreement)? {
        vanecitron::Round::Same => Outcome::Same,
        vanecitron::Round::Different => Outcome::Different,
        vanecitron::Round::Next { u, v, p } => Outcome::Next(State { u, v, p }),
    })
}

fn disagreement(refusal: Refusal) -> Failure {
    Failure::Disagreement(format!("a round inside a comparison is refused: {refusal}"))
}

/// What is told of a round beside its state: its number, which the end has not, its row, and what is done.
struct Line {
    round: Option<u64>,
    row: Option<u8>,
    sentence: String,
}

/// Lines of the table that are not yet written.
struct Table {
    width: usize,
    waiting: Vec<[String; 6]>,
    headed: bool,
}

impl Table {
    /// Tells a round: at once as an object, or as a line of the table.
    fn tell(&mut self, desk: &mut Desk, line: &Line, state: &State) -> Result<(), Failure> {
        if desk.call.json {
            desk.say([""], || line.object(state))?;
            return Ok(());
        }
        let number = |number: Option<u64>| number.map_or(String::new(), |number| number.to_string());
        let [u, v, p] = [&state.u, &state.v, &state.p].map(|run| short(run, self.width));
        self.waiting.push([number(line.round), line.row.map_or("?".into(), |row| row.to_string()), u, v, p, line.sentence.clone()]);
        match self.waiting.len() {
            ALIGNED => self.flush(desk),
            _ => Ok(()),
        }
    }

    fn flush(&mut self, desk: &mut Desk) -> Result<(), Failure> {
        let lines = table(["round", "row", "u", "v", "mark", "what is done"], &self.waiting);
        let behind_head = usize::from(self.headed);
        self.waiting.clear();
        self.headed = true;
        match desk.call.json {
            true => Ok(()),
            false => desk.say(&lines[behind_head..], Object::part).map(drop),
        }
    }
}

impl Line {
    fn object(&self, state: &State) -> Object {
        let object = match self.round {
            Some(round) => Object::new("round").number("round", round),
            None => Object::new("end"),
        };
        let object = match self.row {
            Some(row) => object.number("row", row),
            None => object,
        };
        object.run("u", &state.u).run("v", &state.v).run("p", &state.p).text("done", &self.sentence)
    }
}
