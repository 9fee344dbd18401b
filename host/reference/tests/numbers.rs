//! The number of pieces of every side of many small books: what it is by trying every way to cut the side, and that it is below 4 just where the side is
//! a product of three or fewer pieces.

use std::collections::BTreeSet;

use reference::pieces::{first_loose, is_loose, numbers, pieces};

/// The factor is a piece: it stands at two places of the relation words, each of which counts once on however many sides it stands, or it is empty.
fn is_piece(sides: &[Vec<u8>], factor: &[u8]) -> bool {
    let words: BTreeSet<&Vec<u8>> = sides.iter().collect();
    factor.is_empty() || words.iter().map(|word| word.windows(factor.len()).filter(|part| *part == factor).count()).sum::<usize>() > 1
}

/// The parts of a word that is cut behind its letter i wherever bit i of `places` is set.
fn parts(word: &[u8], places: usize) -> Vec<&[u8]> {
    let mut parts = Vec::new();
    let mut start = 0;
    for end in 1..=word.len() {
        if end == word.len() || places >> (end - 1) & 1 == 1 {
            parts.push(&word[start..end]);
            start = end;
        }
    }
    parts
}

/// The fewest parts of all ways to cut the word into pieces, or 255 where there is no way.
fn by_all_cuts(words: &[Vec<u8>], word: &[u8]) -> u8 {
    let ways = (0..1 << (word.len() - 1)).map(|places| parts(word, places));
    let into_pieces = ways.filter(|parts| parts.iter().all(|part| is_piece(words, part)));
    into_pieces.map(|parts| parts.len() as u8).min().unwrap_or(255)
}

/// How often each number was met, so that a test that meets few is seen.
struct Met([usize; 256]);

impl Met {
    /// Those of the numbers that were met fewer than `least` times.
    fn few(&self, numbers: impl IntoIterator<Item = usize>, least: usize) -> Vec<usize> {
        numbers.into_iter().filter(|&number| self.0[number] < least).collect()
    }
}

/// The numbers of a book's sides are those of all cuts, and are below 4 just where a side is loose, so that the lowest loose side is the lowest with such a number.
fn compare(words: &[Vec<u8>], met: &mut Met) {
    let numbers = numbers(words);
    let pieces = pieces(words);
    for (word, &number) in words.iter().zip(&numbers) {
        assert_eq!(number, by_all_cuts(words, word), "{word:?} in {words:?}");
        assert_eq!(number < 4, is_loose(word, &pieces), "{word:?} in {words:?}");
        met.0[number as usize] += 1;
    }
    assert_eq!(first_loose(words, &pieces), numbers.iter().position(|&number| number < 4), "{words:?}");
}

/// All words of 1 to `most` letters.
fn all_words(letters: u8, most: usize) -> Vec<Vec<u8>> {
    let mut all = vec![Vec::new()];
    let mut from = 0;
    for _ in 0..most {
        let to = all.len();
        for i in from..to {
            all.extend((0..letters).map(|letter| [&all[i][..], &[letter]].concat()).collect::<Vec<_>>());
        }
        from = to;
    }
    all.split_off(1)
}

/// All orders of the letters below n.
fn orders(n: u8) -> Vec<Vec<u8>> {
    let Some(last) = n.checked_sub(1) else { return vec![Vec::new()] };
    let with = |order: &Vec<u8>, at: usize| [&order[..at], &[last], &order[at..]].concat();
    orders(last).iter().flat_map(|order| (0..n as usize).map(|at| with(order, at)).collect::<Vec<_>>()).collect()
}

#[test]
fn of_one_rule_over_few_letters() {
    let mut met = Met([0; 256]);
    for (letters, most) in [(1, 8), (2, 7), (3, 4)] {
        let all = all_words(letters, most);
        for (i, left) in all.iter().enumerate() {
            for right in &all[..=i] {
                compare(&[left.clone(), right.clone()], &mut met);
            }
        }
    }
    assert_eq!(met.few([1, 2, 3, 4, 255], 100), []);
}

#[test]
fn of_two_rules_over_two_letters() {
    let mut met = Met([0; 256]);
    let all = all_words(2, 3);
    for sides in 0..all.len().pow(4) {
        let side = |i: u32| all[sides / all.len().pow(i) % all.len()].clone();
        compare(&[side(0), side(1), side(2), side(3)], &mut met);
    }
    assert_eq!(met.few([1, 2, 3, 255], 100), []);
}

#[test]
fn of_rules_that_put_their_letters_in_another_order() {
    let mut met = Met([0; 256]);
    for letters in 2..=7 {
        let rising: Vec<u8> = (0..letters).collect();
        for other in orders(letters) {
            compare(&[rising.clone(), other.clone()], &mut met);
            // without its first letter, which then stands in the other side alone
            compare(&[rising.clone(), other[1..].to_vec()], &mut met);
        }
    }
    assert_eq!(met.few((2..=7).chain([255]), 100), []);
}
