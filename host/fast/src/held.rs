//! Held books: a book in a lent buffer, behind its length and the count of its changes. A change reads what is held, makes the new book in an array, has it
//! checked once, with its sheet, and then moves it into the buffer.

use crate::reader::{self, two_bytes, Laid, BOOK};
use crate::{accept_for, check, refuse, write_sheet, Refusal};

/// The bytes before the book: its length and the count of changes, two bytes each.
const PREFIX: usize = 4;

/// The most changes from loading on.
pub const COUNTED: u16 = 60_000;

/// The least size of the lent buffer of a held book.
pub const HELD: usize = PREFIX + BOOK;

/// The book that is held, as far as the buffer has it.
pub fn book_of(held: &[u8]) -> &[u8] {
    match held.split_at_checked(PREFIX) {
        Some((prefix, rest)) => &rest[..two_bytes(prefix, 0).min(rest.len())],
        None => &[],
    }
}

/// The count of changes, 0 where the buffer has no room for it.
pub fn changes_of(held: &[u8]) -> u16 {
    held.get(..PREFIX).map_or(0, |prefix| two_bytes(prefix, 2) as u16)
}

/// Moves a book into the buffer.
fn hold(book: &[u8], changes: u16, held: &mut [u8]) {
    held[..2].copy_from_slice(&(book.len() as u16).to_le_bytes());
    held[2..PREFIX].copy_from_slice(&changes.to_le_bytes());
    held[PREFIX..PREFIX + book.len()].copy_from_slice(book);
}

/// Holds a book that is accepted, and gives its number of relations.
pub fn load(book: &[u8], held: &mut [u8]) -> Result<u64, Refusal> {
    let relations = check(book)?;
    if held.len() < HELD {
        return refuse(12, 1);
    }
    hold(book, 0, held);
    Ok(relations)
}

/// The numbers of letters and of relations of the book that is held. Its C(4) is left to the check of the new book.
fn take_up(held: &[u8]) -> Result<(u8, usize), Refusal> {
    if held.len() < HELD {
        return refuse(12, 1);
    }
    reader::scan(book_of(held))
}

/// A change of a held book.
#[derive(Clone, Copy)]
pub enum Change<'a> {
    /// of a relation, given as one record
    Addition(&'a [u8]),
    /// of a relation by its index
    Withdrawal(usize),
}

/// A new book, apart from the one that is held.
pub struct Fresh {
    bytes: [u8; BOOK],
    length: usize,
}

impl Fresh {
    pub fn empty() -> Fresh {
        Fresh { bytes: [0; BOOK], length: 0 }
    }

    /// The two parts, one behind the other.
    fn put(&mut self, a: &[u8], b: &[u8]) {
        self.length = a.len() + b.len();
        self.bytes[..a.len()].copy_from_slice(a);
        self.bytes[a.len()..self.length].copy_from_slice(b);
    }

    fn book(&self) -> &[u8] {
        &self.bytes[..self.length]
    }

    /// Becomes the book that a change leads to, checked, with its sheet ready to be written into so many bytes.
    pub fn change(&mut self, held: &[u8], change: Change, laid: &mut Laid, room: usize) -> Result<(), Refusal> {
        let (letters, relations) = take_up(held)?;
        let book = book_of(held);
        match change {
            Change::Addition(record) => {
                reader::read_apart(record, book.len(), letters, relations)?;
                self.put(book, record);
            }
            Change::Withdrawal(relation) if relation < relations => {
                let behind = |at: usize| at + 4 + two_bytes(book, at);
                let from = (0..=relation).fold(0, |at, _| behind(at));
                self.put(&book[..from], &book[behind(from)..]);
            }
            Change::Withdrawal(_) => return refuse(15, 0),
        }
        accept_for(self.book(), laid, room)
    }
}

/// Makes a change: the new book takes the place of the old one, its sheet is written, and the number of its relations is given.
pub fn make(held: &mut [u8], change: Change, sheet: &mut [u8]) -> Result<u64, Refusal> {
    let (mut fresh, mut laid) = (Fresh::empty(), Laid::empty());
    fresh.change(held, change, &mut laid, sheet.len())?;
    let changes = changes_of(held);
    if changes >= COUNTED {
        return refuse(17, 0);
    }
    hold(fresh.book(), changes + 1, held);
    Ok(write_sheet(&laid, sheet))
}

/// Adds a relation, given as one record, at the end of the held book, writes the new sheet, and gives the new number of relations.
pub fn add(held: &mut [u8], record: &[u8], sheet: &mut [u8]) -> Result<u64, Refusal> {
    make(held, Change::Addition(record), sheet)
}

/// Withdraws a relation of the held book, counted from 0, writes the new sheet, and gives the new number of relations.
pub fn withdraw(held: &mut [u8], relation: usize, sheet: &mut [u8]) -> Result<u64, Refusal> {
    make(held, Change::Withdrawal(relation), sheet)
}
