//! Words to compare, front marks, and random chains of exchanges.

use crate::{shared, Book, Chance};

/// A word of up to about `most` letters, made of sides, of parts of sides and of letters.
pub fn of_sides(chance: &mut Chance, book: &Book, most: usize) -> Vec<u8> {
    let mut word = Vec::new();
    let length = chance.below(most + 1);
    while word.len() < length {
        if book.words.is_empty() || chance.once_in(5) {
            word.push(chance.below(book.letters as usize) as u8);
            continue;
        }
        let side = chance.pick(&book.words);
        match chance.below(4) {
            0 => word.extend(&side[..chance.below(side.len() + 1)]),
            1 => word.extend(&side[chance.below(side.len())..]),
            2 => overlap(&mut word, side),
            _ => word.extend(side),
        }
    }
    word.truncate(most);
    word
}

/// Puts the side behind the word, laid over as long an end of the word as fits.
pub fn overlap(word: &mut Vec<u8>, side: &[u8]) {
    let shared = (0..=side.len().min(word.len())).rev().find(|&l| word[word.len() - l..] == side[..l]).expect("nothing fits always");
    let shared = if shared == side.len() { 0 } else { shared };
    word.extend(&side[shared..]);
}

/// A word of up to about `most` letters in which each side is laid over an end of the side before it where it can be.
pub fn linked(chance: &mut Chance, book: &Book, most: usize) -> Vec<u8> {
    linked_behind(chance, book, &[], most)
}

/// The same behind a front that is given, which has at most `most` letters, the first side laid over an end of it.
pub fn linked_behind(chance: &mut Chance, book: &Book, front: &[u8], most: usize) -> Vec<u8> {
    let mut word = front.to_vec();
    let length = chance.below(most + 1);
    while word.len() < length && !book.words.is_empty() {
        let shared = |side: &[u8]| (1..side.len().min(word.len() + 1)).rev().find(|&l| word.ends_with(&side[..l])).unwrap_or(0);
        let fitting: Vec<usize> = (0..book.words.len()).filter(|&i| shared(&book.words[i]) > 0).collect();
        let side = &book.words[if fitting.is_empty() { chance.below(book.words.len()) } else { *chance.pick(&fitting) }];
        let kept = shared(side);
        word.extend(&side[kept..]);
    }
    word.truncate(most);
    word
}

/// All places where a side stands in the word: the place and the side's number.
pub fn places(book: &Book, word: &[u8]) -> Vec<(usize, usize)> {
    let mut found = Vec::new();
    for at in 0..word.len() {
        for (i, side) in book.words.iter().enumerate() {
            if side[0] == word[at] && word[at..].starts_with(side) {
                found.push((at, i));
            }
        }
    }
    found
}

/// The word after some random exchanges; none that would make it longer than `most`.
pub fn exchanged(chance: &mut Chance, book: &Book, word: &[u8], times: usize, most: usize) -> Vec<u8> {
    let mut word = word.to_vec();
    for _ in 0..times {
        let places = places(book, &word);
        if places.is_empty() {
            break;
        }
        let (at, i) = *chance.pick(&places);
        if word.len() - book.words[i].len() + book.words[i ^ 1].len() <= most {
            exchange(book, &mut word, at, i);
        }
    }
    word
}

/// Exchanges a side that stands at a place of the word for the other side of its relation.
pub fn exchange(book: &Book, word: &mut Vec<u8>, at: usize, side: usize) {
    word.splice(at..at + book.words[side].len(), book.words[side ^ 1].iter().copied());
}

/// The word with a side that stands in it replaced by any other, of its family or not; none that would make it longer than `most`.
pub fn replaced(chance: &mut Chance, book: &Book, word: &[u8], most: usize) -> Vec<u8> {
    let places = places(book, word);
    if places.is_empty() {
        return word.to_vec();
    }
    let (at, i) = *chance.pick(&places);
    let other: &Vec<u8> = chance.pick(&book.words);
    let word = [&word[..at], other, &word[at + book.words[i].len()..]].concat();
    word[..word.len().min(most)].to_vec()
}

/// Two joined words that begin with two members of one family less the longest end that they have in common, which is a front of some third side, and behind that
/// have other members of that side's family: `ade` and `ce` under `ada = ca, ca = e`, where both reach `ada da`. So a comparison comes to a mark that only the X of
/// the third side begins with. None where a few tries find none.
fn parted(chance: &mut Chance, book: &Book, rest: &[u8]) -> Option<(Vec<u8>, Vec<u8>)> {
    let sides = &book.words;
    let family = shared::families(book);
    for _ in 0..if sides.is_empty() { 0 } else { 100 } {
        let [one, other, third] = [0; 3].map(|_| chance.below(sides.len()));
        let common = common_end(&sides[one], &sides[other]);
        let end = &sides[one][sides[one].len() - common..];
        let members: Vec<usize> = (0..sides.len()).filter(|&i| family[i] == family[third] && !sides[i].starts_with(end)).collect();
        if common > 0 && family[one] == family[other] && sides[one] != sides[other] && sides[third].starts_with(end) && !members.is_empty() {
            let mut made = |i: usize| [&sides[i][..sides[i].len() - common], &sides[*chance.pick(&members)][..], rest].concat();
            return Some((made(one), made(other)));
        }
    }
    None
}

/// The length of the longest common end of two words.
fn common_end(a: &[u8], b: &[u8]) -> usize {
    a.iter().rev().zip(b.iter().rev()).take_while(|(x, y)| x == y).count()
}

/// Two words of up to `most` letters: joined by a chain, or nearly so, or at random.
pub fn pair(chance: &mut Chance, book: &Book, most: usize) -> (Vec<u8>, Vec<u8>) {
    let word = if chance.once_in(2) { linked(chance, book, most) } else { of_sides(chance, book, most) };
    let parted = if chance.once_in(4) { parted(chance, book, &word) } else { None };
    let away = |chance: &mut Chance, word: &[u8]| {
        let times = *chance.pick(&[0, 0, 1, 2, 5, 20]);
        let mut word = exchanged(chance, book, word, times, most);
        word.truncate(most);
        word
    };
    let (u, v) = parted.unwrap_or((word.clone(), word));
    let (u, mut v) = (away(chance, &u), away(chance, &v));
    match chance.below(8) {
        0 if !v.is_empty() => {
            let at = chance.below(v.len());
            v[at] = chance.below(book.letters as usize) as u8;
        }
        1 if !v.is_empty() => v.truncate(chance.below(v.len())),
        2 => v = of_sides(chance, book, most),
        3 if chance.once_in(2) => v = replaced(chance, book, &v, most),
        _ => {}
    }
    if chance.once_in(2) {
        (u, v)
    } else {
        (v, u)
    }
}

/// The word with a letter put in that a book of so many letters does not have.
pub fn strange(chance: &mut Chance, word: &[u8], letters: u8) -> Vec<u8> {
    let mut word = word.to_vec();
    word.insert(chance.below(word.len() + 1), chance.between(letters as usize, 255) as u8);
    word
}

/// A front mark: empty, a front, an end or another part of a side, or anything.
pub fn mark(chance: &mut Chance, book: &Book) -> Vec<u8> {
    if book.words.is_empty() || chance.once_in(8) {
        let length = chance.below(6);
        return chance.word(length, book.letters);
    }
    let side = chance.pick(&book.words);
    let n = side.len();
    match chance.below(4) {
        0 => Vec::new(),
        1 => side[..chance.below(n + 1)].to_vec(),
        2 => side[chance.below(n)..].to_vec(),
        _ => {
            let from = chance.below(n);
            side[from..from + chance.below(n - from + 1)].to_vec()
        }
    }
}

/// What makes a word behind the tail of a side active for it: a side that begins inside the tail, without that beginning. None where no X begins so.
fn hanging(chance: &mut Chance, book: &Book, cuts: &[[usize; 3]], side: usize) -> Option<Vec<u8>> {
    let word = &book.words[side];
    let tail = &word[word.len() - cuts[side][2]..];
    let ways = (0..book.words.len()).flat_map(|i| (1..=cuts[i][0]).map(move |l| (i, l)));
    let ways: Vec<(usize, usize)> = ways.filter(|&(i, l)| tail.ends_with(&book.words[i][..l])).collect();
    (!ways.is_empty()).then(|| {
        let (i, l) = *chance.pick(&ways);
        book.words[i][l..].to_vec()
    })
}

/// Words and a mark made for rows 3 to 8 of a round: u begins with XY of a side, v with XY of this or of another side of its family, both followed by all of Z, by a
/// front of it, or by something else; and then by a rest that is often active for the tail of some member. The lengths of X, Y, Z of each side are given.
pub fn shaped(chance: &mut Chance, book: &Book, cuts: &[[usize; 3]]) -> [Vec<u8>; 3] {
    let family = shared::families(book);
    let side = chance.below(book.words.len());
    let members: Vec<usize> = (0..book.words.len()).filter(|&i| family[i] == family[side]).collect();
    let other = if chance.once_in(4) { side } else { *chance.pick(&members) };
    let hung_on = *chance.pick(&members);
    let hung = if chance.once_in(2) { hanging(chance, book, cuts, hung_on) } else { None };
    let rest = [hung.unwrap_or_default(), linked(chance, book, 20)].concat();
    let follow = |chance: &mut Chance, i: usize| {
        let [x, y, z] = cuts[i];
        let kept = if chance.once_in(2) { z } else { chance.below(z + 1) };
        let between = if chance.once_in(3) { of_sides(chance, book, 6) } else { Vec::new() };
        [&book.words[i][..x + y + kept], &between, &rest].concat()
    };
    let (u, v) = (follow(chance, side), follow(chance, other));
    let thirds: Vec<usize> = members.iter().copied().filter(|&i| ![side, other].contains(&i) && cuts[i][0] > 0).collect();
    let p = match chance.below(5) {
        0 => Vec::new(),
        1 => mark(chance, book),
        2 if !thirds.is_empty() => {
            let i = *chance.pick(&thirds);
            book.words[i][..chance.between(1, cuts[i][0])].to_vec()
        }
        _ => {
            let i = *chance.pick(&members);
            book.words[i][..chance.below(cuts[i][0] + 1)].to_vec()
        }
    };
    [u, v, p]
}
