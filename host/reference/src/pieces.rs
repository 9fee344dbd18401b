//! Pieces, C(4) and cuts (document 01, the section of that name; document 003, section 1), and of how many pieces a relation word is the product
//! (the same section).

use std::collections::HashSet;

use crate::families::distinct;
use crate::Word;

/// The pieces: the words found as factors in two different relation words or in two different places of one, which may overlap; and the empty word.
/// They are counted over distinct words, so that a word on several sides is no piece for that reason.
pub fn pieces(sides: &[Word]) -> HashSet<&[u8]> {
    let mut once: HashSet<&[u8]> = HashSet::new();
    let mut twice: HashSet<&[u8]> = HashSet::new();
    for word in distinct(sides) {
        for from in 0..word.len() {
            for to in from + 1..=word.len() {
                // each turn is one place of one relation word
                let factor = &word[from..to];
                if !once.insert(factor) {
                    twice.insert(factor);
                }
            }
        }
    }
    twice.insert(&[]);
    twice
}

/// The word is a product of three or fewer pieces; since the empty word is a piece, "of three" says as much.
pub fn is_loose(word: &[u8], pieces: &HashSet<&[u8]>) -> bool {
    (0..=word.len()).any(|a| pieces.contains(&word[..a]) && (a..=word.len()).any(|b| pieces.contains(&word[a..b]) && pieces.contains(&word[b..])))
}

/// The lowest side whose word is a product of three or fewer pieces.
pub fn first_loose(sides: &[Word], pieces: &HashSet<&[u8]>) -> Option<usize> {
    (0..sides.len()).find(|&i| is_loose(&sides[i], pieces))
}

/// The number of a word that is no product of pieces.
pub const NO_PRODUCT: u8 = 255;

/// The smallest number of pieces whose product the word is; none where it is no product of pieces.
/// For each end in turn every start is tried from which a piece leads to it: the fewest up to the end are one more than the fewest up to any such start.
pub fn fewest_pieces(word: &[u8], pieces: &HashSet<&[u8]>) -> Option<usize> {
    let mut fewest = vec![Some(0)];
    for end in 1..=word.len() {
        let starts = (0..end).filter(|&start| pieces.contains(&word[start..end]));
        fewest.push(starts.filter_map(|start| fewest[start]).min().map(|before| before + 1));
    }
    fewest[word.len()]
}

/// The number of a relation word: the smallest number of pieces whose product it is, 255 standing for none.
pub fn number(word: &[u8], pieces: &HashSet<&[u8]>) -> u8 {
    fewest_pieces(word, pieces).map_or(NO_PRODUCT, |count| u8::try_from(count).expect("a relation word has 64 letters at most"))
}

/// The numbers of all sides, each that of its word.
pub fn numbers(sides: &[Word]) -> Vec<u8> {
    let pieces = pieces(sides);
    sides.iter().map(|side| number(side, &pieces)).collect()
}

/// A relation word cut into X, its longest front that is a piece, Z, its longest end that is a piece, and Y, the rest.
#[derive(Debug, Clone, PartialEq, Eq)]
pub struct Cut {
    word: Word,
    x_length: usize,
    z_length: usize,
}

impl Cut {
    pub fn x(&self) -> &[u8] {
        &self.word[..self.x_length]
    }

    pub fn y(&self) -> &[u8] {
        &self.word[self.x_length..self.word.len() - self.z_length]
    }

    pub fn z(&self) -> &[u8] {
        &self.word[self.word.len() - self.z_length..]
    }

    /// X and Y together.
    pub fn xy(&self) -> &[u8] {
        &self.word[..self.word.len() - self.z_length]
    }

    /// The whole relation word.
    pub fn xyz(&self) -> &[u8] {
        &self.word
    }
}

/// The cut of a relation word of an accepted book, where X and Z do not meet.
pub fn cut(word: &[u8], pieces: &HashSet<&[u8]>) -> Cut {
    let n = word.len();
    let x_length = (0..=n).rev().find(|&l| pieces.contains(&word[..l])).expect("the empty word is a piece");
    let z_length = (0..=n).rev().find(|&l| pieces.contains(&word[n - l..])).expect("the empty word is a piece");
    Cut { word: word.to_vec(), x_length, z_length }
}

/// The cuts of all sides, each that of its word.
pub fn cuts(sides: &[Word]) -> Vec<Cut> {
    let pieces = pieces(sides);
    sides.iter().map(|side| cut(side, &pieces)).collect()
}

/// Document 01's k: the length of the longest Z, or 0 where there are no relations.
pub fn longest_tail(cuts: &[Cut]) -> usize {
    cuts.iter().map(|cut| cut.z().len()).max().unwrap_or(0)
}
