//! Books whose relations share words: families of several members, written as chains, stars, rings and trees, with rules repeated, turned round, and with
//! equal sides. C(4) goes by the distinct words alone, so that words of an accepted book make an accepted book in whatever way they are joined.

use crate::{books, Book, Chance};

/// Most relations of a book, and most members of a family: what as many relations can join.
const RELATIONS: usize = 32;
pub const MEMBERS: usize = RELATIONS + 1;

/// A relation by its two sides.
type Rule = [Vec<u8>; 2];

/// How the members of a family are joined by as few relations as can be, or by one more.
#[derive(Debug, Clone, Copy, PartialEq, Eq)]
pub enum Shape {
    /// each to the next
    Chain,
    /// the first to all others
    Star,
    /// a chain whose ends are joined too
    Ring,
    /// each to any before it
    Tree,
}

const SHAPES: [Shape; 4] = [Shape::Chain, Shape::Star, Shape::Ring, Shape::Tree];

/// The relations that make the words one family: a word alone has a rule with equal sides.
pub fn rules(chance: &mut Chance, members: &[Vec<u8>], shape: Shape) -> Vec<Rule> {
    let n = members.len();
    let rule = |i: usize, j: usize| [members[i].clone(), members[j].clone()];
    if n == 1 {
        return vec![rule(0, 0)];
    }
    let mut rules: Vec<Rule> = (1..n)
        .map(|i| match shape {
            Shape::Chain | Shape::Ring => rule(i - 1, i),
            Shape::Star => rule(0, i),
            Shape::Tree => rule(chance.below(i), i),
        })
        .collect();
    if shape == Shape::Ring {
        rules.push(rule(n - 1, 0));
    }
    rules
}

/// The items in another order.
fn shuffled<T>(chance: &mut Chance, mut items: Vec<T>) -> Vec<T> {
    for i in (1..items.len()).rev() {
        items.swap(i, chance.below(i + 1));
    }
    items
}

/// The words, none of them twice.
pub fn distinct(words: &[Vec<u8>]) -> Vec<Vec<u8>> {
    let mut kept: Vec<Vec<u8>> = Vec::new();
    for word in words {
        if !kept.contains(word) {
            kept.push(word.clone());
        }
    }
    kept
}

/// The words in families of `least` to `most` members, now and then of one, as many as 32 relations hold; then some rules again, some with equal sides; all in any
/// order, turned round or not.
pub fn of_words(chance: &mut Chance, letters: u8, words: &[Vec<u8>], [least, most]: [usize; 2]) -> Book {
    let words = shuffled(chance, distinct(words));
    let mut all: Vec<Rule> = Vec::new();
    let mut left = &words[..];
    while !left.is_empty() {
        let size = if chance.once_in(12) { 1 } else { chance.between(least, most) };
        let (members, rest) = left.split_at(size.min(left.len()));
        let shape = *chance.pick(&SHAPES);
        all.extend(rules(chance, members, shape));
        left = rest;
    }
    all.truncate(RELATIONS);
    let more = if all.is_empty() { 0 } else { *chance.pick(&[0, 0, 1, 2, 5]) };
    for _ in 0..more {
        let again: Rule = chance.pick(&all).clone();
        all.push(if chance.once_in(3) { [again[0].clone(), again[0].clone()] } else { again });
    }
    all.truncate(RELATIONS);
    let turned = |rule: Rule| if chance.once_in(2) { rule } else { [rule[1].clone(), rule[0].clone()] };
    let all: Vec<Rule> = all.into_iter().map(turned).collect();
    Book::new(letters, shuffled(chance, all).concat())
}

/// The words of a book of another kind, joined anew.
fn joined_anew(chance: &mut Chance, make: fn(&mut Chance) -> Book) -> Book {
    let book = make(chance);
    let sizes = *chance.pick(&[[2, 2], [2, 4], [3, 3], [3, 6], [6, 12]]);
    of_words(chance, book.letters, &book.words, sizes)
}

/// A book whose relations share words, of any kind below: most are accepted.
pub fn any(chance: &mut Chance) -> Book {
    match chance.below(14) {
        0 => joined_anew(chance, books::few_letters),
        1 => joined_anew(chance, books::random),
        2 => joined_anew(chance, books::marked),
        3 => joined_anew(chance, books::periodic),
        4 => joined_anew(chance, books::shared_fronts),
        5 => joined_anew(chance, books::overlapping),
        6 => joined_anew(chance, books::of_many_numbers),
        7 => joined_anew(chance, books::tangled),
        8 => large(chance),
        9 => loose(chance),
        10 | 11 => apart(chance),
        _ => linked(chance),
    }
}

/// Words made of a front and an end from a stock of words over the letters that they have in common, with a letter of their own between, in families of such sizes.
fn around_own_letters(chance: &mut Chance, common: u8, stock: &[Vec<u8>], words: usize, sizes: [usize; 2]) -> Book {
    let letters = common + words as u8;
    let word = |own: u8| [&chance.pick(stock)[..], &[own], &chance.pick(stock)[..]].concat();
    let words: Vec<Vec<u8>> = (common..letters).map(word).collect();
    of_words(chance, letters, &words, sizes)
}

/// Words whose fronts and ends come from a few short words with a common end, in families of up to seven: what follows one member is often active for another,
/// two tails often have an end in common, and that end is often a front of some member's X alone.
pub fn linked(chance: &mut Chance) -> Book {
    let common = chance.between(1, 3) as u8;
    let words = chance.between(2, 7);
    let length = chance.between(1, 2);
    let end = chance.word(length, common);
    let count = chance.between(1, 4);
    let mut stock: Vec<Vec<u8>> = chance.words(count, 0, 2, common).into_iter().map(|front| [front, end.clone()].concat()).collect();
    stock.push(Vec::new());
    around_own_letters(chance, common, &stock, words, [2, words])
}

/// Words whose fronts and ends are short and mostly end with different letters, in families of three to eight: what follows a word is often active for one of the
/// other members alone, whichever it is.
pub fn apart(chance: &mut Chance) -> Book {
    let common = chance.between(2, 5) as u8;
    let words = chance.between(3, 8);
    let mut stock: Vec<Vec<u8>> = (0..common).map(|letter| vec![letter]).collect();
    if chance.once_in(2) {
        let count = chance.between(1, 3);
        stock.extend(chance.words(count, 2, 3, common));
    }
    if chance.once_in(2) {
        stock.push(Vec::new());
    }
    around_own_letters(chance, common, &stock, words, [3, words])
}

/// Up to 33 words in one family, or in few, each with a letter of its own between parts of a small stock.
pub fn large(chance: &mut Chance) -> Book {
    let common = chance.between(1, 3) as u8;
    let words = if chance.once_in(3) { MEMBERS } else { chance.between(12, MEMBERS) };
    let most = *chance.pick(&[3, 10, 20]);
    let count = chance.between(2, 6);
    let mut stock = chance.words(count, 0, most, common);
    stock.push(Vec::new());
    let sizes = *chance.pick(&[[words, words], [words, words], [4, 11], [2, 5]]);
    around_own_letters(chance, common, &stock, words, sizes)
}

/// Good words and short ones that are often products of few pieces, on several sides each: the lowest side at fault is often that of a word which stands on
/// others too, and often behind sides that are repeated.
pub fn loose(chance: &mut Chance) -> Book {
    let book = books::marked(chance);
    let count = chance.between(1, 3);
    let short = chance.words(count, 1, 3, 2);
    of_words(chance, book.letters, &[book.words, short].concat(), [2, 6])
}

/// Two to four short words over few letters, for breadth-first search: with a letter of their own each, or random.
pub fn small(chance: &mut Chance) -> Book {
    if chance.once_in(3) {
        let letters = chance.between(2, 4) as u8;
        let count = chance.between(2, 4);
        let words = chance.words(count, 1, 6, letters);
        return of_words(chance, letters, &words, [2, 4]);
    }
    let words = chance.between(2, 4);
    let stock = chance.words(3, 0, 2, 1);
    around_own_letters(chance, 1, &stock, words, [2, 4])
}

/// One family of 33 words in 32 relations: a letter, and 32 words of 64 letters that are a letter of their own and a tail of 63, the same for all.
/// No X begins with an end of a tail, so that nothing is ever active, and row 4 on the letter tries all places of 32 tails.
pub fn quiet_tails(chance: &mut Chance) -> Book {
    let tail: Vec<u8> = (0..63).map(|i| 62 + (i % 5 % 2) as u8).collect();
    let members: Vec<Vec<u8>> = (0..MEMBERS as u8).map(|own| if own == QUIET_LETTER { vec![own] } else { [&[own], &tail[..]].concat() }).collect();
    Book::new(64, rules(chance, &members, Shape::Star).concat())
}

/// One family of 33 words in 32 relations: a letter, and 32 words of 64 letters that are all of period 1 but for a letter of their own in the middle.
/// Behind a letter that no word has nothing is active, though every end of a tail begins every X.
pub fn quiet_overlaps(chance: &mut Chance) -> Book {
    let long = |own: u8| [&[62; 31][..], &[own], &[62; 32]].concat();
    let members: Vec<Vec<u8>> = (0..MEMBERS as u8).map(|own| if own == QUIET_LETTER { vec![own] } else { long(own) }).collect();
    Book::new(64, rules(chance, &members, Shape::Star).concat())
}

/// The letter of `quiet_tails` and `quiet_overlaps` that is a member, and one that stands in no word.
pub const QUIET_LETTER: u8 = 0;
pub const STRANGE_LETTER: u8 = 61;

/// One family of 33 words of some letters in 32 relations of this shape, random but for a letter of their own.
pub fn random_family(chance: &mut Chance, length: usize, shape: Shape) -> Book {
    assert!(shape != Shape::Ring, "a ring of 33 has 33 relations");
    let members: Vec<Vec<u8>> = (0..MEMBERS as u8).map(|own| own_between(chance, own, length)).collect();
    Book::new(64, rules(chance, &members, shape).concat())
}

/// 32 pairs of words of some letters, random but for a letter of their own: what `random_family` is measured beside.
pub fn random_pairs(chance: &mut Chance, length: usize) -> Book {
    Book::new(64, (0..RELATIONS as u8).flat_map(|own| [own_between(chance, own, length), own_between(chance, own, length)]).collect())
}

/// A word with its own letter in the middle, and random ones of 31 others around it.
fn own_between(chance: &mut Chance, own: u8, length: usize) -> Vec<u8> {
    let mut word: Vec<u8> = chance.word(length, 31).into_iter().map(|code| code + 33).collect();
    word[length / 2] = own;
    word
}

/// For each side the number of its family: the lowest side that relations and equal words join to it.
pub fn families(book: &Book) -> Vec<usize> {
    let mut family: Vec<usize> = (0..book.words.len()).collect();
    loop {
        let before = family.clone();
        for i in 0..family.len() {
            for j in 0..family.len() {
                if i / 2 == j / 2 || book.words[i] == book.words[j] {
                    family[i] = family[i].min(family[j]);
                }
            }
        }
        if family == before {
            return family;
        }
    }
}
