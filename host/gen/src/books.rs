//! Books: random ones, families made to be accepted by C(4) with long pieces, and those at the limits.

use std::collections::HashSet;

use crate::{shared, Chance};

/// The letters and relation words of a book; two words for each relation.
#[derive(Debug, Clone, PartialEq, Eq)]
pub struct Book {
    pub letters: u8,
    pub words: Vec<Vec<u8>>,
}

impl Book {
    pub fn new(letters: u8, words: Vec<Vec<u8>>) -> Book {
        assert!(words.len().is_multiple_of(2), "two words for each relation");
        Book { letters, words }
    }

    /// The number of relations.
    pub fn relations(&self) -> usize {
        self.words.len() / 2
    }

    /// The book's bytes (document 01, "Book bytes").
    pub fn bytes(&self) -> Vec<u8> {
        let mut bytes = head(self.letters);
        for pair in self.words.chunks(2) {
            bytes.extend(rule(&pair[0], &pair[1]));
        }
        bytes
    }

    /// The same book with its letters renamed, among 64.
    pub fn renamed(&self, table: &Renaming) -> Book {
        Book::new(64, self.words.iter().map(|word| renamed(word, table)).collect())
    }
}

/// Other codes for the letters: a code for each from 0 to 63, none twice.
pub type Renaming = [u8; 64];

/// A renaming at random, so that few letters lie anywhere among the 64.
pub fn renaming(chance: &mut Chance) -> Renaming {
    let mut table: Renaming = std::array::from_fn(|code| code as u8);
    for i in (1..64).rev() {
        table.swap(i, chance.below(i + 1));
    }
    table
}

/// A word with its letters renamed.
pub fn renamed(word: &[u8], table: &Renaming) -> Vec<u8> {
    word.iter().map(|&code| table[code as usize]).collect()
}

/// A record of kind 1.
pub fn head(letters: u8) -> Vec<u8> {
    vec![1, 0, 1, 0, letters]
}

/// A record of kind 2.
pub fn rule(left: &[u8], right: &[u8]) -> Vec<u8> {
    let length = (2 + left.len() + right.len()) as u16;
    [&length.to_le_bytes()[..], &[2, 0, left.len() as u8, right.len() as u8], left, right].concat()
}

/// A book of any kind below, or one whose relations share words: mostly small, many accepted, some refused by 8.
pub fn any(chance: &mut Chance) -> Book {
    match chance.below(18) {
        0 => anything(chance),
        1 | 2 => few_letters(chance),
        3 | 4 => random(chance),
        5 | 6 => marked(chance),
        7 => periodic(chance),
        8 => shared_fronts(chance),
        9 => overlapping(chance),
        10 => linked(chance),
        11 => of_many_numbers(chance),
        12 | 13 => small(chance),
        _ => shared::any(chance),
    }
}

/// No care is taken at all: from 1 letter, up to 32 relations, sides of 1 to 64.
pub fn anything(chance: &mut Chance) -> Book {
    let letters = chance.between(1, 64) as u8;
    let relations = chance.below(33);
    let most = *chance.pick(&[3, 10, 64]);
    let words = chance.words(2 * relations, 1, most, letters);
    Book::new(letters, words)
}

/// Two or three letters, sides long enough for C(4) to be met often.
pub fn few_letters(chance: &mut Chance) -> Book {
    let letters = chance.between(2, 3) as u8;
    let relations = chance.between(1, 3);
    let (least, most) = if letters == 2 { (9, 30) } else { (5, 18) };
    let words = chance.words(2 * relations, least, most, letters);
    Book::new(letters, words)
}

/// Random sides over 3 to 64 letters, of 5 to 64 letters.
pub fn random(chance: &mut Chance) -> Book {
    let letters = chance.between(3, 64) as u8;
    let most = *chance.pick(&[6, 6, 6, 6, 6, 6, 32]);
    let relations = chance.between(1, most);
    let least = if letters < 6 { 16 } else { 5 };
    let words = chance.words(2 * relations, least, 64, letters);
    Book::new(letters, words)
}

/// Each side is a shared front, a letter of its own and a shared end, so that it is accepted with long X and Z.
/// Fronts and ends come from a small stock of pieces over few letters, and now and then the side is its own letter alone.
pub fn marked(chance: &mut Chance) -> Book {
    let common = chance.between(1, 3) as u8;
    let relations = chance.between(1, 6);
    let most = *chance.pick(&[2, 5, 12, 31]);
    let count = chance.between(1, 5);
    let stock = chance.words(count, 0, most, common);
    let part = |chance: &mut Chance| if chance.once_in(4) { Vec::new() } else { chance.pick(&stock).clone() };
    with_own_letters(chance, common, relations, |chance, own| [part(chance), vec![own], part(chance)].concat())
}

/// A book in which each side is made around a letter of its own, behind the letters that they have in common.
pub fn with_own_letters(chance: &mut Chance, common: u8, relations: usize, mut side: impl FnMut(&mut Chance, u8) -> Vec<u8>) -> Book {
    let letters = common + 2 * relations as u8;
    Book::new(letters, (common..letters).map(|own| side(chance, own)).collect())
}

/// Sides of a short period around letters of their own.
pub fn periodic(chance: &mut Chance) -> Book {
    let relations = chance.between(1, 5);
    let length = chance.between(1, 3);
    let period = chance.word(length, 2);
    with_own_letters(chance, 2, relations, |chance, own| {
        let (before, behind) = (chance.below(30), chance.below(30));
        let mut part = |length: usize| -> Vec<u8> { period.iter().cycle().skip(chance.below(3)).take(length).copied().collect() };
        [part(before), vec![own], part(behind)].concat()
    })
}

/// Sides that begin with one long word and part late.
pub fn shared_fronts(chance: &mut Chance) -> Book {
    let relations = chance.between(1, 8);
    let length = chance.between(1, 60);
    let front = chance.word(length, 3);
    with_own_letters(chance, 3, relations, |chance, own| {
        let kept = if chance.once_in(3) { chance.below(front.len() + 1) } else { front.len() };
        let rest = chance.below(4);
        [&front[..kept], &[own], &chance.word(rest, 3)[..]].concat()
    })
}

/// Sides whose ends are other sides' beginnings, so that their places in a word overlap and fronts are often not clean.
pub fn overlapping(chance: &mut Chance) -> Book {
    let relations = chance.between(1, 4);
    let letters = chance.between(3, 6) as u8;
    let length = chance.between(8, 40);
    let ring = chance.word(length, letters);
    let words = (0..2 * relations)
        .map(|_| {
            let from = chance.below(ring.len());
            let length = chance.between(4, ring.len().min(24));
            let mut word: Vec<u8> = ring.iter().cycle().skip(from).take(length).copied().collect();
            for _ in 0..chance.below(4) {
                let at = chance.below(word.len());
                word[at] = chance.below(letters as usize) as u8;
            }
            word
        })
        .collect();
    Book::new(letters, words)
}

/// Sides whose fronts and ends come from a few short words with a common end, so that long chains of sides overlap in words
/// and an exchange at one place makes or undoes a side at the next.
pub fn linked(chance: &mut Chance) -> Book {
    let common = chance.between(1, 3) as u8;
    let relations = chance.between(1, 3);
    let length = chance.between(1, 2);
    let end = chance.word(length, common);
    let count = chance.between(1, 4);
    let mut stock: Vec<Vec<u8>> = chance.words(count, 0, 2, common).into_iter().map(|front| [front, end.clone()].concat()).collect();
    stock.push(Vec::new());
    with_own_letters(chance, common, relations, |chance, own| [&chance.pick(&stock)[..], &[own], &chance.pick(&stock)[..]].concat())
}

/// As `linked`, with more relations, middles that have a front or end inside them, and fronts that both sides of a relation have in common often:
/// whether a side can be exchanged depends on what follows it, over many sides.
pub fn tangled(chance: &mut Chance) -> Book {
    let common = chance.between(1, 3) as u8;
    let relations = chance.between(1, 5);
    let length = chance.between(1, 2);
    let end = chance.word(length, common);
    let count = chance.between(1, 4);
    let mut stock: Vec<Vec<u8>> = chance.words(count, 0, 3, common).into_iter().map(|front| [front, end.clone()].concat()).collect();
    if chance.once_in(2) {
        stock.push(Vec::new());
    }
    let fronts: Vec<Vec<u8>> = (0..relations).map(|_| chance.pick(&stock).clone()).collect();
    with_own_letters(chance, common, relations, |chance, own| {
        let shared = &fronts[(own - common) as usize / 2];
        let front = if chance.once_in(2) { shared } else { chance.pick(&stock) };
        let middle = if chance.once_in(3) { [&[own], &chance.pick(&stock)[..], &[own]].concat() } else { vec![own] };
        [&front[..], &middle, &chance.pick(&stock)[..]].concat()
    })
}

/// Sides that are products of few pieces, of many, or of none. A side is a walk over the letters, and so mostly a letter is a piece and two together are not.
/// In some books each letter has others behind it, always the same, so that pieces are longer; some sides have a letter of their own, and a few are short.
pub fn of_many_numbers(chance: &mut Chance) -> Book {
    let letters = chance.between(4, 12) as u8;
    let relations = chance.between(1, 4);
    let more = *chance.pick(&[0, 0, 1, 3]);
    let blocks = blocks(chance, letters, more);
    let mut together = HashSet::new();
    with_own_letters(chance, letters + 2, relations, |chance, own| {
        let least = if chance.once_in(12) { 1 } else { 4 };
        let most = *chance.pick(&[5, 5, 6, 8, 12, 30, 63]);
        let length = chance.between(least, most);
        let walk = walk(chance, letters, length, &mut together);
        let mut word: Vec<u8> = walk.iter().flat_map(|&letter| blocks[letter as usize].clone()).take(63).collect();
        if chance.once_in(6) {
            word.insert(chance.below(word.len() + 1), own);
        }
        word
    })
}

/// Each letter with up to `more` behind it of the two next codes.
fn blocks(chance: &mut Chance, letters: u8, more: usize) -> Vec<Vec<u8>> {
    let behind = chance.words(letters as usize, 0, more, 2);
    let block = |(letter, behind): (u8, Vec<u8>)| [letter].into_iter().chain(behind.iter().map(|code| letters + code)).collect();
    (0..letters).zip(behind).map(block).collect()
}

/// A word in which no two letters stand together that did so before, as long as there are such. Those that stand together are kept.
fn walk(chance: &mut Chance, letters: u8, length: usize, together: &mut HashSet<[u8; 2]>) -> Vec<u8> {
    let mut word = chance.word(1, letters);
    while word.len() < length {
        let last = word[word.len() - 1];
        let fresh: Vec<u8> = (0..letters).filter(|&next| !together.contains(&[last, next])).collect();
        let next = if fresh.is_empty() { chance.below(letters as usize) as u8 } else { *chance.pick(&fresh) };
        together.insert([last, next]);
        word.push(next);
    }
    word
}

/// A side of 60 to 64 letters in three parts, each of which stands in another side before a letter of that side's own, now and then without its last letter.
/// So the side is a product of three pieces with cuts anywhere, the last places among them, or just not.
pub fn of_three_parts(chance: &mut Chance) -> Book {
    let length = chance.between(60, 64);
    let mut cut = || if chance.once_in(3) { chance.between(length - 2, length) } else { chance.below(length + 1) };
    let (one, other) = (cut(), cut());
    let (first, second) = (one.min(other), one.max(other));
    let powers = chance.once_in(2);
    let mut part = |letter: u8, length: usize| if powers { vec![letter; length] } else { chance.word(length, 3) };
    let parts = [part(0, first), part(1, second - first), part(2, length - second)];
    let side_of = |(own, part): (u8, &Vec<u8>)| {
        let most = if chance.once_in(6) { part.len().saturating_sub(1) } else { 63 };
        [&part[..part.len().min(most)], &[own]].concat()
    };
    let mut words: Vec<Vec<u8>> = (3..).zip(&parts).map(side_of).collect();
    words.insert(chance.below(4), parts.concat());
    Book::new(6, words)
}

/// One or two short relations over two to six letters, for breadth-first search.
pub fn small(chance: &mut Chance) -> Book {
    let letters = chance.between(2, 6) as u8;
    let relations = chance.between(1, 2);
    let words = chance.words(2 * relations, 1, 6, letters);
    Book::new(letters, words)
}

/// Every book of one relation over two letters whose two sides differ and whose longer side has just n letters, each pair once.
pub fn of_two_letters(n: usize) -> impl Iterator<Item = Book> {
    // a word is numbered by its binary digits behind a leading 1, so shorter words come first
    let word = |number: usize| -> Vec<u8> { (0..number.ilog2()).rev().map(|digit| (number >> digit & 1) as u8).collect() };
    (1 << n..2 << n).flat_map(move |right| (2..right).map(move |left| Book::new(2, vec![word(left), word(right)])))
}

/// One relation whose sides are alike but for their last letters: the search for three pieces tries every pair of cuts, and is half of the check's work.
pub fn longest_search() -> Book {
    Book::new(3, [1, 2].map(|last| [&[0; 63][..], &[last]].concat()).to_vec())
}

/// 32 relations of 64 and 64 random letters.
pub fn full_random(chance: &mut Chance, letters: u8) -> Book {
    Book::new(letters, chance.words(64, 64, 64, letters))
}

/// A book of this many relations, each side random and 64 letters long.
pub fn long_random(chance: &mut Chance, relations: usize) -> Book {
    Book::new(64, chance.words(2 * relations, 64, 64, 64))
}

/// Four letters for each side such that no two of them stand together twice, from `least` on below 64.
/// A side that has them needs four pieces at least, whatever else is in it.
fn own_letters(sides: usize, least: u8) -> Vec<[u8; 4]> {
    let count = 64 - least as usize;
    let code = |n: usize| least + (n % count) as u8;
    // the distances between neighbours are others at each turn around
    let of_side = |i: usize| {
        let step = 1 + 3 * (i / count);
        [code(i), code(i + step), code(i + 2 * step + 1), code(i + 3 * step + 3)]
    };
    (0..sides).map(of_side).collect()
}

/// 32 relations of 64 and 64 letters that share a front of 60.
pub fn full_shared_fronts(chance: &mut Chance) -> Book {
    let front = chance.word(60, 3);
    Book::new(64, own_letters(64, 3).iter().map(|own| [&front[..], own].concat()).collect())
}

/// 32 relations of 64 and 64 letters, all of one period but for four letters.
pub fn full_periodic(period: &[u8]) -> Book {
    let words = own_letters(64, 3)
        .iter()
        .enumerate()
        .map(|(i, own)| {
            let mut word: Vec<u8> = period.iter().cycle().take(64).copied().collect();
            let at = i % 61;
            word[at..at + 4].copy_from_slice(own);
            word
        })
        .collect();
    Book::new(64, words)
}

/// 32 relations of 64 and 64 letters, each side a product of 64 pieces and of no fewer: every side has every letter, and no two letters stand together twice.
/// The distances between neighbours are the same in all sides, and no distance comes twice in one; each side begins with another letter.
pub fn full_letter_by_letter() -> Book {
    let step = |j: u8| if j % 2 == 1 { j.div_ceil(2) } else { 64 - j / 2 };
    Book::new(64, (0..64).map(|first| (0..64).map(|j| (first + step(j)) % 64).collect()).collect())
}

/// The book with the most rounds: 31 relations of 1 and 64 letters, whose long sides end alike, so that k is 63.
/// Each letter that begins a relation is answered by 63 more, so two equal words of n such letters take 64 n rounds.
pub fn most_rounds() -> Book {
    let tail: Vec<u8> = (0..63).map(|i| 62 + (i % 5 % 2) as u8).collect();
    let words = (0..31).flat_map(|i| [vec![2 * i], [&[2 * i + 1], &tail[..]].concat()]).collect();
    Book::new(64, words)
}

/// A word of n letters that takes 64 n rounds against itself under `most_rounds`.
pub fn most_rounds_word(n: usize) -> Vec<u8> {
    (0..n).map(|i| 2 * (i % 31) as u8).collect()
}

/// 32 relations, one of which is `ad = de` with d before a: whether the a of a run can be exchanged depends on all that follows it.
/// Those who look ahead anew at each step of `a` repeated take as many steps as there are pairs of letters.
pub fn far_sight() -> Book {
    let [d, a, e] = [0, 1, 2];
    let others = own_letters(62, 3);
    Book::new(64, [vec![a, d], vec![d, e]].into_iter().chain(others.iter().map(|own| own.to_vec())).collect())
}

/// The letter of `far_sight` that is repeated.
pub const FAR_SIGHT_LETTER: u8 = 1;

/// The book with the longest least words: a letter and a side of 64 that comes before it, so that the least word of n such letters has 64 n.
pub fn longest_least() -> Book {
    Book::new(3, vec![vec![LONGEST_LEAST_LETTER], [&[0], &[2; 63][..]].concat()])
}

/// The letter of `longest_least` that is repeated.
pub const LONGEST_LEAST_LETTER: u8 = 1;

/// The book with the longest rests behind a front: as `longest_least`, with a long side that ends as it begins, so that its first letter is a piece, which leaves 64 n − 1.
pub fn longest_rest() -> Book {
    Book::new(3, vec![vec![LONGEST_LEAST_LETTER], [&[0], &[2; 62][..], &[0]].concat()])
}

/// 31 relations whose sides have long middles that begin alike, so that each test for a clean front tries many places.
pub fn long_middles(chance: &mut Chance) -> Book {
    let front = chance.word(20, 2);
    let words = (0..62u8).map(|i| {
        let rest = chance.word(42, 2);
        [&front[..], &[2 + i], &rest[..], &[2 + i]].concat()
    });
    Book::new(64, words.collect())
}

/// How many books at the limits there are.
pub const AT_THE_LIMITS: usize = 12;

/// Some books at the limits, by number; every one is accepted.
pub fn at_the_limits(chance: &mut Chance, number: usize) -> Book {
    match number % AT_THE_LIMITS {
        0 => full_random(chance, 64),
        1 => full_random(chance, 3),
        2 => full_shared_fronts(chance),
        3 => full_periodic(&[0]),
        4 => full_periodic(&[0, 1, 0, 0, 1]),
        5 => most_rounds(),
        6 => long_middles(chance),
        7 => full_letter_by_letter(),
        8 => shared::quiet_tails(chance),
        9 => shared::quiet_overlaps(chance),
        10 => shared::random_family(chance, 64, shared::Shape::Chain),
        _ => shared::random_family(chance, 20, shared::Shape::Tree),
    }
}
