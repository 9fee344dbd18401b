//! The line form `held`: a book that is loaded, and operations on it one after the other: changes, proposals of changes, and postings of tickets.
//!
//! A line is answered by a word for the loading and one for each operation, with a space between: `accepted:RULES` for the loading, `accepted:RULES:SHEET` for an
//! operation, `refused:NUMBER:PLACE`. A refused loading ends the line. `touched:` stands before a word where a byte changed that must be kept.

use crate::{bytes, hex, FILLED};

/// The size of the lent buffer of a held book, and of that of a ticket.
pub const HELD: usize = 4_297;
pub const TICKET: usize = 140;

/// The bytes before the book in the one, and before the record in the other; and those of a rule on a sheet.
const PREFIX: usize = 4;
const FIELDS: usize = 6;
const SHEET_RULE: usize = 8;

/// An operation on a held book, with the size of the sheet's buffer: a change, one that is only proposed, or the posting of a ticket. The tickets of a line are counted from
/// 0; a refused proposal gives none.
pub enum Operation {
    Add { record: Vec<u8>, size: usize },
    Drop { rule: usize, size: usize },
    PlanAdd { record: Vec<u8>, size: usize },
    PlanDrop { rule: usize, size: usize },
    Post { ticket: usize, size: usize },
}

/// The operation that is written so: `add:RECORD:SIZE`, `drop:RULE:SIZE`, `plan-add:RECORD:SIZE`, `plan-drop:RULE:SIZE` or `post:TICKET:SIZE`.
pub(crate) fn operation(text: &str) -> Operation {
    let fields: Vec<&str> = text.split(':').collect();
    let size = fields[2].parse().expect("a size");
    let (record, number) = (|| bytes(fields[1]), || fields[1].parse().expect("a number"));
    match fields[0] {
        "add" => Operation::Add { record: record(), size },
        "drop" => Operation::Drop { rule: number(), size },
        "plan-add" => Operation::PlanAdd { record: record(), size },
        "plan-drop" => Operation::PlanDrop { rule: number(), size },
        "post" => Operation::Post { ticket: number(), size },
        other => panic!("no operation {other}"),
    }
}

/// The number of rules or a length, or the number and place of a refusal.
pub type Answer = Result<u64, (u32, u64)>;

/// What loads and changes held books, proposes changes and posts tickets.
pub trait Holder {
    fn load(&self, book: &[u8], held: &mut [u8]) -> Answer;
    fn add(&self, held: &mut [u8], record: &[u8], sheet: &mut [u8]) -> Answer;
    fn withdraw(&self, held: &mut [u8], rule: usize, sheet: &mut [u8]) -> Answer;
    fn propose_add(&self, held: &[u8], record: &[u8], sheet: &mut [u8], ticket: &mut [u8]) -> Answer;
    fn propose_withdraw(&self, held: &[u8], rule: usize, sheet: &mut [u8], ticket: &mut [u8]) -> Answer;
    fn post(&self, held: &mut [u8], ticket: &[u8], sheet: &mut [u8]) -> Answer;
}

/// The words that answer a line.
pub fn told(holder: &dyn Holder, book: &[u8], operations: &[Operation]) -> String {
    let mut held = vec![FILLED; HELD];
    let loaded = holder.load(book, &mut held);
    let touched = is_touched(&loaded, &vec![FILLED; HELD], &held);
    let mut words = vec![word(touched, loaded, None)];
    if loaded.is_ok() {
        let mut line = Line { holder, held, tickets: Vec::new() };
        words.extend(operations.iter().map(|operation| line.told(operation)));
    }
    words.join(" ")
}

/// A line whose book is loaded.
struct Line<'a> {
    holder: &'a dyn Holder,
    held: Vec<u8>,
    /// those that were given so far
    tickets: Vec<Vec<u8>>,
}

impl Line<'_> {
    /// The word that answers an operation.
    fn told(&mut self, operation: &Operation) -> String {
        match operation {
            Operation::Add { record, size } => self.told_change(*size, |holder, held, sheet| holder.add(held, record, sheet)),
            Operation::Drop { rule, size } => self.told_change(*size, |holder, held, sheet| holder.withdraw(held, *rule, sheet)),
            Operation::Post { ticket, size } => {
                let ticket = self.tickets.get(*ticket).cloned().unwrap_or(vec![FILLED; TICKET]);
                self.told_change(*size, |holder, held, sheet| holder.post(held, &ticket, sheet))
            }
            Operation::PlanAdd { record, size } => {
                let length = FIELDS + record.len();
                self.told_proposal(*size, length, |holder, held, sheet, ticket| holder.propose_add(held, record, sheet, ticket))
            }
            Operation::PlanDrop { rule, size } => {
                self.told_proposal(*size, FIELDS, |holder, held, sheet, ticket| holder.propose_withdraw(held, *rule, sheet, ticket))
            }
        }
    }

    /// The word that answers a change or a posting.
    fn told_change(&mut self, size: usize, change: impl FnOnce(&dyn Holder, &mut [u8], &mut [u8]) -> Answer) -> String {
        let (before, mut sheet) = (self.held.clone(), vec![FILLED; size]);
        let answer = change(self.holder, &mut self.held, &mut sheet);
        let (written, behind) = written(&answer, &sheet);
        word(is_touched(&answer, &before, &self.held) || !is_filled(behind), answer, Some(written))
    }

    /// The word that answers a proposal, which changes no byte of the held book, and whose ticket has so many bytes.
    fn told_proposal(&mut self, size: usize, length: usize, propose: impl FnOnce(&dyn Holder, &[u8], &mut [u8], &mut [u8]) -> Answer) -> String {
        let (before, mut sheet, mut ticket) = (self.held.clone(), vec![FILLED; size], vec![FILLED; TICKET]);
        let answer = propose(self.holder, &self.held, &mut sheet, &mut ticket);
        let (written, behind) = written(&answer, &sheet);
        let kept = if answer.is_ok() { length } else { 0 };
        let touched = before != self.held || !is_filled(behind) || !is_filled(&ticket[kept..]);
        if answer.is_ok() {
            self.tickets.push(ticket);
        }
        word(touched, answer, Some(written))
    }
}

/// The part of a sheet that is written by an answer, and the rest.
fn written<'a>(answer: &Answer, sheet: &'a [u8]) -> (&'a [u8], &'a [u8]) {
    sheet.split_at(answer.map_or(0, |rules| SHEET_RULE * rules as usize))
}

fn is_filled(bytes: &[u8]) -> bool {
    bytes.iter().all(|&byte| byte == FILLED)
}

/// A byte of the buffer changed that must be kept: any byte by a refusal, and else one behind the book.
fn is_touched(answer: &Answer, before: &[u8], held: &[u8]) -> bool {
    let length = u16::from_le_bytes([held[0], held[1]]) as usize;
    let kept = if answer.is_ok() { PREFIX + length } else { 0 };
    before[kept..] != held[kept..]
}

fn word(touched: bool, answer: Answer, sheet: Option<&[u8]>) -> String {
    let word = match answer {
        Ok(rules) => format!("accepted:{rules}{}", sheet.map_or(String::new(), |sheet| format!(":{}", hex(sheet)))),
        Err((number, place)) => format!("refused:{number}:{place}"),
    };
    if touched {
        return format!("touched:{word}");
    }
    word
}
