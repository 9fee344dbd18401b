//! The least word that a chain reaches, by looking at all of them, for small cases (document 01, "The least equal run").

use std::cmp::Ordering;

use crate::chains::reached;
use crate::Word;

/// The rank of a letter, by the house table: the codes 32 to 63 come first in rising order, then 0 to 31.
pub fn rank(code: u8) -> usize {
    (32..64).chain(0..32).position(|listed| listed == code).expect("a code is below 64")
}

/// Dictionary order: a proper prefix comes before the longer word; else the first letters that differ decide, by their ranks.
pub fn order(a: &[u8], b: &[u8]) -> Ordering {
    match a.iter().zip(b).find(|(x, y)| x != y) {
        None => a.len().cmp(&b.len()),
        Some((x, y)) => rank(*x).cmp(&rank(*y)),
    }
}

/// The first in dictionary order of all words that a chain reaches from this one, or none where there are more than `most`.
pub fn least_word(sides: &[Word], from: &[u8], most: usize) -> Option<Word> {
    reached(sides, from, most)?.into_iter().min_by(|a, b| order(a, b))
}
