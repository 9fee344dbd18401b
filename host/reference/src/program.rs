//! The whole program: input bytes to output bytes (document 01, "The program").

use crate::book::{accept, two_bytes, Accepted};
use crate::entries::{compare_under, Comparison};
use crate::{refuse, Refusal};

/// The most bytes of the program's input.
pub const INPUT: usize = 60_000;

/// Where the book ends: at the first record whose kind field is present and is 3, walking by L, or at the end of the input.
fn book_end(input: &[u8]) -> usize {
    let mut at = 0;
    while at + 4 <= input.len() {
        if two_bytes(input, at + 2) == 3 {
            return at;
        }
        at += 4 + two_bytes(input, at);
    }
    input.len()
}

/// A record of kind 3.
struct Question {
    allowance: u32,
    u: Vec<u8>,
    v: Vec<u8>,
    /// where the next record begins
    end: usize,
}

/// Reads one record of the kind 3 part: 1, 2 (another kind) or 3 in that order.
fn read_question(input: &[u8], at: usize) -> Result<Question, Refusal> {
    let left = input.len() - at;
    if left < 4 || left < 4 + two_bytes(input, at) {
        return refuse(1, at);
    }
    let length = two_bytes(input, at);
    if two_bytes(input, at + 2) != 3 {
        return refuse(2, at);
    }
    let payload = &input[at + 4..at + 4 + length];
    if length < 8 {
        return refuse(3, at);
    }
    let m = two_bytes(payload, 4);
    let n = two_bytes(payload, 6);
    if length != 8 + m + n {
        return refuse(3, at);
    }
    let allowance = u32::from_le_bytes([payload[0], payload[1], payload[2], payload[3]]);
    Ok(Question { allowance, u: payload[8..8 + m].to_vec(), v: payload[8 + m..].to_vec(), end: at + 4 + length })
}

fn refused(refusal: Refusal) -> String {
    format!("refused {} {}\n", refusal.number, refusal.place)
}

/// The whole output for the whole input.
pub fn program(input: &[u8]) -> Vec<u8> {
    if input.len() > INPUT {
        return b"refused 13 60000\n".to_vec();
    }
    let end = book_end(input);
    match accept(&input[..end]) {
        Err(refusal) => refused(refusal).into_bytes(),
        Ok(book) => answers(input, end, &book).into_bytes(),
    }
}

/// The line of an accepted book and those of the comparisons.
fn answers(input: &[u8], mut at: usize, book: &Accepted) -> String {
    let mut text = format!("book {}\n", book.relations());
    while at < input.len() {
        let question = match read_question(input, at) {
            Ok(question) => question,
            Err(refusal) => return text + &refused(refusal),
        };
        text += &match compare_under(book, &question.u, &question.v, question.allowance) {
            Ok(Comparison::Same(count)) => format!("same {count}\n"),
            Ok(Comparison::Different(count)) => format!("different {count}\n"),
            Err(refusal) => refused(refusal),
        };
        at = question.end;
    }
    text
}
