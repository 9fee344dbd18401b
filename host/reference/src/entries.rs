//! The entries over slices: check, cut sheet, single round, comparison, least word, taking a front off (document 01, with the order of refusals that it fixes).

use crate::book::{accept, Accepted, SHEET_SIDE};
use crate::chains::reached;
use crate::front::least_rest;
use crate::least::least_word;
use crate::pieces::pieces;
use crate::rows::{self, Answer, Next};
use crate::{refuse, Refusal, Word};

/// The most letters of a word that is compared, of one whose least word is asked for, and of one that a front is taken off.
pub const COMPARED: usize = 4_096;
/// The most letters of the single round's u and v.
pub const ROUND_WORD: usize = 4_160;
/// The most letters of the single round's p, and of a front that is taken off.
pub const ROUND_MARK: usize = 64;
/// The least sizes of the single round's three lent buffers.
pub const NEXT: [usize; 3] = [4_224, 4_224, 64];

/// The book is accepted, with its number of relations, or refused.
pub fn check(book: &[u8]) -> Result<u64, Refusal> {
    Ok(accept(book)?.relations() as u64)
}

/// Writes the lengths of X, Y, Z and the number of pieces of each side in order, one byte each, and gives the number of relations.
pub fn cut_sheet(book: &[u8], sheet: &mut [u8]) -> Result<u64, Refusal> {
    let accepted = accept(book)?;
    let size = SHEET_SIDE * accepted.sides.len();
    if sheet.len() < size {
        return refuse(12, 0);
    }
    sheet[..size].copy_from_slice(&accepted.sheet());
    Ok(accepted.relations() as u64)
}

/// 9 and then 10 of one given word.
fn check_word(word: &[u8], number: usize, limit: usize, letters: u8) -> Result<(), Refusal> {
    if word.len() > limit {
        return refuse(9, 5_000 * number);
    }
    match word.iter().position(|&code| code >= letters) {
        Some(position) => refuse(10, 5_000 * number + position),
        None => Ok(()),
    }
}

/// What the single round gives: the end, or the lengths of the next u, v and p, which are then written.
#[derive(Debug, Clone, Copy, PartialEq, Eq)]
pub enum RoundEnd {
    Same,
    Different,
    Next([u64; 3]),
}

/// One round under a book. An end and a refusal write nothing.
pub fn round(book: &[u8], words: [&[u8]; 3], next: [&mut [u8]; 3]) -> Result<RoundEnd, Refusal> {
    round_under(&accept(book)?, words, next)
}

/// The same under a book that is accepted already.
pub fn round_under(book: &Accepted, [u, v, p]: [&[u8]; 3], next: [&mut [u8]; 3]) -> Result<RoundEnd, Refusal> {
    check_word(u, 0, ROUND_WORD, book.letters)?;
    check_word(v, 1, ROUND_WORD, book.letters)?;
    check_word(p, 2, ROUND_MARK, book.letters)?;
    if let Some(buffer) = (0..3).find(|&i| next[i].len() < NEXT[i]) {
        return refuse(12, buffer);
    }
    match rows::round(&book.words, u, v, p) {
        Next::Same => Ok(RoundEnd::Same),
        Next::Different => Ok(RoundEnd::Different),
        Next::Go { u, v, p } => {
            let words = [u, v, p];
            for (buffer, word) in next.into_iter().zip(&words) {
                buffer[..word.len()].copy_from_slice(word);
            }
            Ok(RoundEnd::Next(words.map(|word| word.len() as u64)))
        }
    }
}

/// A comparison's answer that is no refusal, with the count of rounds.
#[derive(Debug, Clone, Copy, PartialEq, Eq)]
pub enum Comparison {
    Same(u64),
    Different(u64),
}

/// Compares two words under a book with an allowance of rounds.
pub fn compare(book: &[u8], u: &[u8], v: &[u8], allowance: u32) -> Result<Comparison, Refusal> {
    compare_under(&accept(book)?, u, v, allowance)
}

/// The same under a book that is accepted already.
pub fn compare_under(book: &Accepted, u: &[u8], v: &[u8], allowance: u32) -> Result<Comparison, Refusal> {
    check_word(u, 0, COMPARED, book.letters)?;
    check_word(v, 1, COMPARED, book.letters)?;
    match rows::rounds(&book.words, u, v, allowance) {
        Answer::Same(count) => Ok(Comparison::Same(count)),
        Answer::Different(count) => Ok(Comparison::Different(count)),
        Answer::Spent(done) => refuse(11, done as usize),
    }
}

/// Writes the least word of a word under a book at an offset of a lent buffer, and gives its length.
pub fn least(book: &[u8], word: &[u8], buffer: &mut [u8], offset: usize) -> Result<u64, Refusal> {
    least_under(&accept(book)?, word, buffer, offset)
}

/// The same under a book that is accepted already.
pub fn least_under(book: &Accepted, word: &[u8], buffer: &mut [u8], offset: usize) -> Result<u64, Refusal> {
    let least = find_least(book, word, usize::MAX)?.expect("a search without a limit ends");
    write_at(&least, buffer, offset)
}

/// 9 and 10 of the word, and then its least word; none where a chain reaches more than `most` words.
pub fn find_least(book: &Accepted, word: &[u8], most: usize) -> Result<Option<Word>, Refusal> {
    check_word(word, 0, COMPARED, book.letters)?;
    Ok(least_word(&book.sides, word, most))
}

/// Takes a piece off the front of a word under a book, writes the least rest at an offset of a lent buffer, and gives its length.
pub fn front(book: &[u8], word: &[u8], piece: &[u8], buffer: &mut [u8], offset: usize) -> Result<u64, Refusal> {
    front_under(&accept(book)?, word, piece, buffer, offset)
}

/// The same under a book that is accepted already.
pub fn front_under(book: &Accepted, word: &[u8], piece: &[u8], buffer: &mut [u8], offset: usize) -> Result<u64, Refusal> {
    let rest = find_front(book, word, piece, usize::MAX)?.expect("a search without a limit ends");
    write_at(&rest, buffer, offset)
}

/// 9 and 10 of the word, and then of the piece, 18, 19, and then the least rest; none where a chain reaches more than `most` words.
pub fn find_front(book: &Accepted, word: &[u8], piece: &[u8], most: usize) -> Result<Option<Word>, Refusal> {
    check_word(word, 0, COMPARED, book.letters)?;
    check_word(piece, 2, ROUND_MARK, book.letters)?;
    if !pieces(&book.sides).contains(piece) {
        return refuse(18, 0);
    }
    let Some(reached) = reached(&book.sides, word, most) else { return Ok(None) };
    least_rest(&reached, piece).map_or_else(|| refuse(19, 0), |rest| Ok(Some(rest)))
}

/// Writes a word at an offset: 14 where the offset lies past the buffer's end, or the word is longer than what follows the offset.
pub fn write_at(word: &[u8], buffer: &mut [u8], offset: usize) -> Result<u64, Refusal> {
    if offset > buffer.len() || word.len() > buffer.len() - offset {
        return refuse(14, 0);
    }
    buffer[offset..offset + word.len()].copy_from_slice(word);
    Ok(word.len() as u64)
}
