//! Reading a book (document 01, "Book bytes" and "Refusals by number", numbers 1 to 6 and 8).

use crate::families::Words;
use crate::pieces::{first_loose, number, pieces};
use crate::{refuse, Refusal, Word};

/// What a book's records say, before any check of its relation words against each other.
#[derive(Debug, Clone, PartialEq, Eq)]
pub struct Presentation {
    /// the number of letters, A
    pub letters: u8,
    /// the sides, two for each relation, in the order of the book; a word may stand on several
    pub sides: Vec<Word>,
}

/// A little-endian field of two bytes.
pub fn two_bytes(bytes: &[u8], at: usize) -> usize {
    bytes[at] as usize + 256 * bytes[at + 1] as usize
}

/// Reads the records in turn, each in the order 1, 2, 6, 3, 4, 5.
pub fn read(bytes: &[u8]) -> Result<Presentation, Refusal> {
    if bytes.is_empty() {
        return refuse(1, 0);
    }
    let mut letters = 0;
    let mut sides: Vec<Word> = Vec::new();
    let mut at = 0;
    while at < bytes.len() {
        let left = bytes.len() - at;
        if left < 4 || left < 4 + two_bytes(bytes, at) {
            return refuse(1, at);
        }
        let length = two_bytes(bytes, at);
        let kind = two_bytes(bytes, at + 2);
        let payload = &bytes[at + 4..at + 4 + length];
        if at == 0 {
            letters = read_head(kind, payload)?;
        } else {
            let (left_word, right_word) = read_rule(kind, payload, letters, sides.len() / 2, at)?;
            sides.push(left_word);
            sides.push(right_word);
        }
        at += 4 + length;
    }
    Ok(Presentation { letters, sides })
}

/// The head, kind 1: one byte A, from 1 to 64.
fn read_head(kind: usize, payload: &[u8]) -> Result<u8, Refusal> {
    if kind != 1 {
        return refuse(2, 0);
    }
    if payload.len() != 1 {
        return refuse(3, 0);
    }
    if !(1..=64).contains(&payload[0]) {
        return refuse(4, 0);
    }
    Ok(payload[0])
}

/// A rule, kind 2: byte m, byte n, m codes of the left side, n codes of the right.
fn read_rule(kind: usize, payload: &[u8], letters: u8, before: usize, at: usize) -> Result<(Word, Word), Refusal> {
    if kind != 2 {
        return refuse(2, at);
    }
    if before == 32 {
        return refuse(6, at);
    }
    read_sides(payload, letters, at)
}

/// The two sides of a rule's payload: 3, 4 and 5, in that order.
pub fn read_sides(payload: &[u8], letters: u8, at: usize) -> Result<(Word, Word), Refusal> {
    if payload.len() < 2 {
        return refuse(3, at);
    }
    let m = payload[0] as usize;
    let n = payload[1] as usize;
    if payload.len() != 2 + m + n {
        return refuse(3, at);
    }
    if !(1..=64).contains(&m) || !(1..=64).contains(&n) {
        return refuse(4, at);
    }
    if payload[2..].iter().any(|&code| code >= letters) {
        return refuse(5, at);
    }
    Ok((payload[2..2 + m].to_vec(), payload[2 + m..].to_vec()))
}

/// The bytes of the cut sheet for each side.
pub const SHEET_SIDE: usize = 4;

/// An accepted book.
#[derive(Debug, Clone, PartialEq, Eq)]
pub struct Accepted {
    /// the number of letters, A
    pub letters: u8,
    /// the sides, two for each relation, in the order of the book
    pub sides: Vec<Word>,
    /// the distinct words among them, with their families
    pub words: Words,
    /// of each side the smallest number of pieces whose product its word is, 255 standing for none
    pub numbers: Vec<u8>,
}

impl Accepted {
    /// The number of relations (document 01: rules).
    pub fn relations(&self) -> usize {
        self.sides.len() / 2
    }

    /// The cut sheet: for each side in order the lengths of X, Y and Z and the number of pieces of its word.
    pub fn sheet(&self) -> Vec<u8> {
        let row = |(side, &number): (&Word, &u8)| -> [u8; SHEET_SIDE] {
            let cut = self.words.cut_of(side);
            [cut.x().len() as u8, cut.y().len() as u8, cut.z().len() as u8, number]
        };
        self.sides.iter().zip(&self.numbers).flat_map(row).collect()
    }
}

/// Reads a book and checks it: 1 to 6 record by record, then 8 over the whole book. No book is refused by 7.
pub fn accept(bytes: &[u8]) -> Result<Accepted, Refusal> {
    let Presentation { letters, sides } = read(bytes)?;
    let pieces = pieces(&sides);
    if let Some(side) = first_loose(&sides, &pieces) {
        return refuse(8, side);
    }
    let words = Words::new(&sides, &pieces);
    let numbers = sides.iter().map(|side| number(side, &pieces)).collect();
    Ok(Accepted { letters, words, numbers, sides })
}
