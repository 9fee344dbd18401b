//! Held books (document 01, "Rules that come and go"): a book in a lent buffer, behind its length and the count of its changes.
//!
//! A change takes the book apart into its rules, makes the list of the new ones, writes them out as a book, and has that book's sheet written as if no other
//! had been there. It is made as document 01 says ("Propose, then post"): it is proposed, and its ticket is posted on the spot.

use crate::book::{accept, read, read_sides, two_bytes, Presentation};
use crate::tickets::{post, propose, TICKET};
use crate::{refuse, Refusal, Word};

/// The bytes before the book: its length and the count of changes, two bytes each.
const PREFIX: usize = 4;
/// The most bytes of a book: a head, and 32 rules with sides of 64 letters.
pub const BOOK: usize = 5 + 32 * (4 + 2 + 64 + 64);
/// The least size of the lent buffer.
pub const HELD: usize = PREFIX + BOOK;
/// The most rules of a book.
const RULES: usize = 32;
/// The most changes from loading on.
pub const COUNTED: usize = 60_000;
/// The number of its buffer in refusal 12. That of the sheet is 0.
const HELD_BUFFER: usize = 1;

/// The bytes of the book that is held, as far as the buffer has them.
pub fn book_of(held: &[u8]) -> &[u8] {
    if held.len() < PREFIX {
        return &[];
    }
    let end = PREFIX + two_bytes(held, 0);
    &held[PREFIX..end.min(held.len())]
}

/// The count of changes since the book was loaded, 0 where the buffer has no room for it.
pub fn changes_of(held: &[u8]) -> usize {
    if held.len() < PREFIX {
        return 0;
    }
    two_bytes(held, 2)
}

/// Writes a field of two bytes.
pub(crate) fn write_two_bytes(number: usize, bytes: &mut [u8], at: usize) {
    bytes[at] = (number % 256) as u8;
    bytes[at + 1] = (number / 256) as u8;
}

/// Writes a book into the buffer with its length and the count of changes. Bytes behind it are kept.
pub(crate) fn hold(book: &[u8], changes: usize, held: &mut [u8]) {
    write_two_bytes(book.len(), held, 0);
    write_two_bytes(changes, held, 2);
    held[PREFIX..PREFIX + book.len()].copy_from_slice(book);
}

/// The bytes of a book, from its letters and rules.
fn written(book: &Presentation) -> Vec<u8> {
    let mut bytes = vec![1, 0, 1, 0, book.letters];
    for rule in book.sides.chunks(2) {
        let (left, right) = (&rule[0], &rule[1]);
        bytes.extend([(2 + left.len() + right.len()) as u8, 0, 2, 0, left.len() as u8, right.len() as u8]);
        bytes.extend(left);
        bytes.extend(right);
    }
    bytes
}

/// Loads a book: it is checked, and then held with no change counted. Gives its number of rules.
pub fn load(book: &[u8], held: &mut [u8]) -> Result<u64, Refusal> {
    let accepted = accept(book)?;
    if held.len() < HELD {
        return refuse(12, HELD_BUFFER);
    }
    hold(book, 0, held);
    Ok(accepted.relations() as u64)
}

/// What a change finds: 12 of the buffer, then 1 to 6 of the book in it, and not 8.
pub fn taken_up(held: &[u8]) -> Result<Presentation, Refusal> {
    if held.len() < HELD {
        return refuse(12, HELD_BUFFER);
    }
    read(book_of(held))
}

/// A change of a held book.
#[derive(Debug, Clone, PartialEq, Eq)]
pub enum Change {
    /// the rule of these bytes, which are to be one record, is put behind the others
    Addition(Vec<u8>),
    /// the rule of this index, counted from 0, is taken out
    Withdrawal(usize),
}

/// Adds the rule of a record behind those of the held book, writes the sheet of the new book, and gives its number of rules.
pub fn add(held: &mut [u8], record: &[u8], sheet: &mut [u8]) -> Result<u64, Refusal> {
    make(held, &Change::Addition(record.to_vec()), sheet)
}

/// Withdraws a rule of the held book, counted from 0, writes the sheet of the new book, and gives its number of rules.
pub fn withdraw(held: &mut [u8], rule: usize, sheet: &mut [u8]) -> Result<u64, Refusal> {
    make(held, &Change::Withdrawal(rule), sheet)
}

/// A direct change: a proposal, whose sheet nobody sees, posted on the spot.
fn make(held: &mut [u8], change: &Change, sheet: &mut [u8]) -> Result<u64, Refusal> {
    let mut ticket = [0; TICKET];
    propose(held, change, &mut sheet.to_vec(), &mut ticket)?;
    post(held, &ticket, sheet)
}

/// The bytes of the book that a change leads to: 12 and 1 to 6 of what is held, and then what the change itself is refused by.
pub(crate) fn new_book(held: &[u8], change: &Change) -> Result<Vec<u8>, Refusal> {
    let mut book = taken_up(held)?;
    match change {
        Change::Addition(record) => {
            let (left, right) = read_added(record, &book, book_of(held).len())?;
            book.sides.push(left);
            book.sides.push(right);
        }
        Change::Withdrawal(rule) => {
            if *rule >= book.sides.len() / 2 {
                return refuse(15, 0);
            }
            book.sides.remove(2 * rule + 1);
            book.sides.remove(2 * rule);
        }
    }
    Ok(written(&book))
}

/// The sides of a rule that is given apart from its book, as one record: 1, 2, 6, 3, 4, 5 in that order, all at the end of the book.
fn read_added(record: &[u8], book: &Presentation, place: usize) -> Result<(Word, Word), Refusal> {
    if record.len() < 4 || record.len() < 4 + two_bytes(record, 0) {
        return refuse(1, place);
    }
    if two_bytes(record, 2) != 2 {
        return refuse(2, place);
    }
    if book.sides.len() / 2 == RULES {
        return refuse(6, place);
    }
    let payload = &record[4..4 + two_bytes(record, 0)];
    if record.len() > 4 + payload.len() {
        return refuse(3, place);
    }
    read_sides(payload, book.letters, place)
}
