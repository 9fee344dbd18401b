//! Words that stand on several sides, and families (document 01, "Pieces, C(4) and cuts" and "Exchanges and rounds").
//!
//! A member of a family is a word, not a side: a word that stands on two sides is one member.

use std::collections::{HashSet, VecDeque};

use crate::pieces::{cut, pieces, Cut};
use crate::Word;

/// The distinct words: each side is looked up among those before it, and kept where it is new. So they are in order of first appearance.
pub fn distinct(sides: &[Word]) -> Vec<&Word> {
    let mut words: Vec<&Word> = Vec::new();
    for side in sides {
        if !words.contains(&side) {
            words.push(side);
        }
    }
    words
}

/// The number of a word among the distinct words.
pub fn number_of(words: &[&Word], word: &Word) -> usize {
    words.iter().position(|&listed| listed == word).expect("every side is one of the distinct words")
}

/// The words that one relation joins to this one: the other sides of the rules on which it stands.
fn joined_by_one(sides: &[Word], word: &Word) -> Vec<Word> {
    let other_sides = |rule: &[Word]| -> Vec<Word> {
        let ways = [(&rule[0], &rule[1]), (&rule[1], &rule[0])];
        ways.into_iter().filter(|(from, _)| *from == word).map(|(_, to)| to.clone()).collect()
    };
    sides.chunks(2).flat_map(other_sides).collect()
}

/// All words joined to this one by relations, itself among them, by breadth-first search: its family.
fn joined_by_any(sides: &[Word], word: &Word) -> Vec<Word> {
    let mut seen = vec![word.clone()];
    let mut waiting = VecDeque::from([word.clone()]);
    while let Some(next) = waiting.pop_front() {
        for other in joined_by_one(sides, &next) {
            if !seen.contains(&other) {
                seen.push(other.clone());
                waiting.push_back(other);
            }
        }
    }
    seen
}

/// For each distinct word the numbers of the members of its family, itself among them, in order of their lowest sides.
pub fn families(sides: &[Word]) -> Vec<Vec<usize>> {
    let words = distinct(sides);
    let family = |word: &Word| {
        let mut members: Vec<usize> = joined_by_any(sides, word).iter().map(|member| number_of(&words, member)).collect();
        members.sort();
        members
    };
    words.iter().map(|word| family(word)).collect()
}

/// The distinct words of a book, which the rows go by.
#[derive(Debug, Clone, PartialEq, Eq)]
pub struct Words {
    /// the words, each cut into X, Y, Z
    pub cuts: Vec<Cut>,
    /// for each word the numbers of the members of its family, itself among them, in order of their lowest sides
    pub families: Vec<Vec<usize>>,
}

impl Words {
    /// The words of an accepted book, given by its sides, and the pieces.
    pub fn new(sides: &[Word], pieces: &HashSet<&[u8]>) -> Words {
        Words { cuts: distinct(sides).into_iter().map(|word| cut(word, pieces)).collect(), families: families(sides) }
    }

    /// The same, where the pieces are not at hand.
    pub fn of(sides: &[Word]) -> Words {
        Words::new(sides, &pieces(sides))
    }

    /// The cut of a side's word.
    pub fn cut_of(&self, side: &Word) -> &Cut {
        self.cuts.iter().find(|cut| cut.xyz() == side).expect("every side is one of the distinct words")
    }

    /// The other members of a word's family, in order of their lowest sides.
    pub fn others(&self, i: usize) -> Vec<usize> {
        self.families[i].iter().copied().filter(|&member| member != i).collect()
    }
}
