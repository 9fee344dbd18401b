//! Fronts to take off words: the pieces of a book, words that are nearly pieces or none at all; and words that begin with them, often by way of exchanges alone.

use std::collections::HashSet;

use crate::{shared, words, Book, Chance};

/// The most letters of a front.
pub const FRONT: usize = 64;

/// A book with its pieces, from which fronts are drawn.
pub struct Fronts<'a> {
    book: &'a Book,
    /// the words that stand at two places of the distinct words, and the empty one; shorter ones first
    pub pieces: Vec<Vec<u8>>,
}

impl<'a> Fronts<'a> {
    pub fn new(book: &'a Book) -> Fronts<'a> {
        let words = shared::distinct(&book.words);
        let (mut once, mut twice) = (HashSet::new(), HashSet::new());
        for (word, from) in words.iter().flat_map(|word| (0..word.len()).map(move |from| (word, from))) {
            // every front of a piece is a piece, so that behind the first factor of this place that is new all are
            let mut factors = (from + 1..=word.len()).map(|to| &word[from..to]);
            twice.extend(factors.by_ref().take_while(|factor| !once.insert(*factor)));
            once.extend(factors);
        }
        let mut pieces: Vec<Vec<u8>> = twice.into_iter().chain([&[][..]]).map(<[u8]>::to_vec).collect();
        pieces.sort_by(|a, b| (a.len(), a).cmp(&(b.len(), b)));
        Fronts { book, pieces }
    }

    /// A front of any kind: mostly a piece; a word that is nearly one; a part of a side; the empty word; as many letters as a front can have.
    pub fn any(&self, chance: &mut Chance) -> Vec<u8> {
        match chance.below(16) {
            0 => Vec::new(),
            1 => self.longest(chance),
            2..=4 => self.nearly(chance),
            5 | 6 => words::mark(chance, self.book),
            _ => self.piece(chance),
        }
    }

    /// A piece: a front of a side, or any, a longer one more often.
    pub fn piece(&self, chance: &mut Chance) -> Vec<u8> {
        if !self.book.words.is_empty() && chance.once_in(2) {
            let side = chance.pick(&self.book.words);
            let longest = (0..=side.len()).rev().find(|&l| self.is_piece(&side[..l])).expect("the empty word is a piece");
            return side[..chance.below(longest + 1).max(longest.min(1))].to_vec();
        }
        let n = self.pieces.len();
        self.pieces[chance.below(n).max(chance.below(n))].clone()
    }

    fn is_piece(&self, word: &[u8]) -> bool {
        self.pieces.binary_search_by(|piece| (piece.len(), &piece[..]).cmp(&(word.len(), word))).is_ok()
    }

    /// A piece with a letter more in front of it or behind it, with one less, or with one that is another.
    fn nearly(&self, chance: &mut Chance) -> Vec<u8> {
        let mut word = self.piece(chance);
        let letter = chance.below(self.book.letters as usize) as u8;
        match chance.below(4) {
            0 => word.insert(0, letter),
            1 => drop(word.pop()),
            2 if !word.is_empty() => {
                let at = chance.below(word.len());
                word[at] = letter;
            }
            _ => word.push(letter),
        }
        word
    }

    /// As many letters as a front can have, or one more; pieces one behind the other, or anything.
    fn longest(&self, chance: &mut Chance) -> Vec<u8> {
        let length = FRONT + chance.below(2);
        let mut word = if chance.once_in(2) { self.piece(chance).repeat(length) } else { Vec::new() };
        word.extend(chance.word(length, self.book.letters));
        word.truncate(length);
        word
    }

    /// A word of up to about `most` letters to take a front off: mostly one that exchanges make of the front and sides behind it, at times with a letter altered; or
    /// one that is made without regard to the front, at times a short one.
    pub fn word(&self, chance: &mut Chance, front: &[u8], most: usize) -> Vec<u8> {
        let word = match chance.below(8) {
            0 => words::linked(chance, self.book, most),
            1 => words::of_sides(chance, self.book, 4),
            2 => [front, &words::of_sides(chance, self.book, most)].concat(),
            3 => self.begun(chance, front, 0),
            _ => self.begun(chance, front, most),
        };
        let times = *chance.pick(&[0, 0, 1, 2, 5, 20]);
        let mut word = words::exchanged(chance, self.book, &word, times, 2 * most.max(word.len()));
        if !word.is_empty() && chance.once_in(8) {
            let at = chance.below(word.len());
            word[at] = chance.below(self.book.letters as usize) as u8;
        }
        word
    }

    /// The front with a side laid over an end of it, where one begins so, and more sides behind that, up to `most` letters in all; the first side that stands there is
    /// exchanged.
    fn begun(&self, chance: &mut Chance, front: &[u8], most: usize) -> Vec<u8> {
        let mut word = front.to_vec();
        let fitting: Vec<&Vec<u8>> = self.book.words.iter().filter(|side| (1..side.len()).any(|l| front.ends_with(&side[..l]))).collect();
        if !fitting.is_empty() {
            let side = fitting[chance.below(fitting.len())];
            words::overlap(&mut word, side);
        }
        let mut word = words::linked_behind(chance, self.book, &word, most.max(word.len()));
        if let Some(&(at, side)) = words::places(self.book, &word).first() {
            words::exchange(self.book, &mut word, at, side);
        }
        word
    }
}
