//! Inputs of the program: a book and comparisons.

use crate::{books, damage, words, Book, Chance};

/// A record of kind 3.
pub fn question(allowance: u32, u: &[u8], v: &[u8]) -> Vec<u8> {
    let length = (8 + u.len() + v.len()) as u16;
    [&length.to_le_bytes()[..], &[3, 0], &allowance.to_le_bytes(), &(u.len() as u16).to_le_bytes(), &(v.len() as u16).to_le_bytes(), u, v].concat()
}

/// An allowance: often ample, often small.
pub fn allowance(chance: &mut Chance) -> u32 {
    match chance.below(3) {
        0 => chance.below(40) as u32,
        1 => chance.number() as u32,
        _ => u32::MAX,
    }
}

/// A whole input for a book, with some comparisons, some of them with strangers.
pub fn input(chance: &mut Chance, book: &Book, comparisons: usize, most: usize) -> Vec<u8> {
    let mut bytes = book.bytes();
    for _ in 0..comparisons {
        let (mut u, v) = words::pair(chance, book, most);
        if chance.once_in(10) && !u.is_empty() {
            let at = chance.below(u.len());
            u[at] = chance.between(book.letters as usize, 255) as u8;
        }
        bytes.extend(question(allowance(chance), &u, &v));
    }
    bytes
}

/// Any input: whole or damaged.
pub fn any(chance: &mut Chance) -> Vec<u8> {
    let book = books::any(chance);
    let comparisons = chance.below(8);
    let bytes = input(chance, &book, comparisons, 40);
    if chance.once_in(2) {
        damage::damaged(chance, &bytes)
    } else {
        bytes
    }
}
