//! Chains of exchanges by breadth-first search, for small cases (document 01, "Exchanges and rounds").

use std::collections::{HashSet, VecDeque};

use crate::Word;

/// All words that one exchange makes of the word: s W t turns into s W' t, where W and W' are the two sides of one rule in either order.
/// A rule with equal sides makes the word itself.
pub fn exchanges(sides: &[Word], word: &[u8]) -> Vec<Word> {
    let mut found = Vec::new();
    for pair in sides.chunks(2) {
        for (from, to) in [(&pair[0], &pair[1]), (&pair[1], &pair[0])] {
            for at in 0..=word.len() {
                if word[at..].starts_with(from) {
                    found.push([&word[..at], &to[..], &word[at + from.len()..]].concat());
                }
            }
        }
    }
    found
}

/// All words that a chain reaches from this one, or none where there are more than `most`.
/// Under C(4) they are finitely many (document 000, section 1).
pub fn reached(sides: &[Word], from: &[u8], most: usize) -> Option<HashSet<Word>> {
    let mut seen = HashSet::from([from.to_vec()]);
    let mut waiting = VecDeque::from([from.to_vec()]);
    while let Some(word) = waiting.pop_front() {
        for next in exchanges(sides, &word) {
            if seen.insert(next.clone()) {
                if seen.len() > most {
                    return None;
                }
                waiting.push_back(next);
            }
        }
    }
    Some(seen)
}
