//! A fast unverified version of the design of the proved library, the yardstick of its benchmark. Nothing rests on it.
//!
//! All distinct relation words lie in one text, each laid once, word number i followed by its fence, the code 64 + i; each side has the number of its word,
//! and each word that of its family and a link to the next member. One row of common fronts, updated in place, gives the
//! longest piece that starts at each place of the text; C(4), the cuts and the numbers of pieces are read off that table. A comparison finds relation
//! words by an index and holds each of its words as a part of the text followed by the rest of a given word, in three numbers, and copies nothing; so does
//! the least word and what a front leaves. A change of a held book, made, proposed or posted, makes the new book in an array, and checks it once, as any other.
//!
//! Document 01's words: a step is a letter, a run a word, a side a relation word, a rule a relation, a book a presentation.

mod held;
mod index;
mod least;
mod pieces;
mod program;
mod reader;
mod rounds;
mod tickets;

pub use held::{add, book_of, load, withdraw, HELD};
pub use least::{front, least};
pub use program::{program, OUTPUT};
pub use rounds::{compare, round, Comparison, RoundEnd};
pub use tickets::{post, propose_add, propose_withdraw, TICKET};

use reader::Laid;

/// A refusal is its number and place.
#[derive(Debug, Clone, Copy, PartialEq, Eq)]
pub struct Refusal {
    pub number: u32,
    pub place: u64,
}

#[inline]
fn refuse<T>(number: u32, place: usize) -> Result<T, Refusal> {
    Err(Refusal { number, place: place as u64 })
}

/// The book is accepted, with its number of relations, or refused.
pub fn check(book: &[u8]) -> Result<u64, Refusal> {
    let mut laid = Laid::empty();
    accept(book, &mut laid)?;
    Ok(laid.relations() as u64)
}

/// The bytes of the cut sheet for each side.
pub const SHEET_SIDE: usize = 4;

/// Writes the lengths of X, Y, Z and the number of pieces of each side in order, one byte each, and gives the number of relations.
pub fn cut_sheet(book: &[u8], sheet: &mut [u8]) -> Result<u64, Refusal> {
    let mut laid = Laid::empty();
    accept_for(book, &mut laid, sheet.len())?;
    Ok(write_sheet(&laid, sheet))
}

/// Writes the sheet of a book into a buffer that has the room.
fn write_sheet(laid: &Laid, sheet: &mut [u8]) -> u64 {
    for (place, &i) in sheet.chunks_exact_mut(SHEET_SIDE).zip(&laid.word_of[..laid.sides]) {
        let word = &laid.table[i as usize];
        place[0] = (word.x_end - word.start) as u8;
        place[1] = (word.z_start - word.x_end) as u8;
        place[2] = (word.end - word.z_start) as u8;
        place[3] = word.pieces;
    }
    laid.relations() as u64
}

/// Accepts a book whose sheet fits into so many bytes.
fn accept_for(book: &[u8], laid: &mut Laid, room: usize) -> Result<(), Refusal> {
    accept(book, laid)?;
    if room < SHEET_SIDE * laid.sides {
        return refuse(12, 0);
    }
    Ok(())
}

/// Reads a book, checks it, and cuts its words.
fn accept(book: &[u8], laid: &mut Laid) -> Result<(), Refusal> {
    reader::read(book, laid)?;
    match pieces::cut_all(laid) {
        Some(side) => refuse(8, side),
        None => Ok(()),
    }
}
