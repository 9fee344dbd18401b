//! The trials of fronts that are taken off words: every piece of small books with all short words, whole classes, words that many exchanges join, and the limits.

use std::collections::{HashMap, HashSet};

use gen::books::renamed;
use gen::fronts::Fronts;
use gen::{books, words, Chance};
use reference::chains::reached;
use reference::front::least_rest;
use reference::least::order;

use crate::entries::Compared;
use crate::trial::{KnownWord, Trial, LEAST};
use crate::trials::{all_words, buffers_near, length_for, ranked_of_two_letters, Make, Ranked};

/// The most letters of a word that a front is taken off.
const WORD: usize = 4_096;

/// Every piece of small books, with all words of a length and below, for about `count` words each.
pub fn every_piece(trial: &mut Trial, chance: &mut Chance, kinds: &[Make], cases: usize, count: usize) {
    for case in 0..cases {
        let ranked = Ranked::new(trial, chance, kinds[case % kinds.len()]);
        let most = length_for(ranked.book.letters, count);
        every_piece_of_words_up_to(trial, &ranked, most);
    }
}

/// The same under books over two letters.
pub fn every_piece_of_two_letters(trial: &mut Trial, chance: &mut Chance, most: usize, words_of: usize) {
    for ranked in ranked_of_two_letters(chance, most) {
        every_piece_of_words_up_to(trial, &ranked, words_of);
    }
}

/// All words of at most so many letters; one search finds what each piece leaves of all words of a class.
fn every_piece_of_words_up_to(trial: &mut Trial, ranked: &Ranked, most: usize) {
    let sides = &ranked.known.as_ref().expect("accepted").sides;
    let pieces: Vec<Vec<u8>> = Fronts::new(&ranked.book).pieces.iter().map(|piece| renamed(piece, &ranked.table)).collect();
    assert_eq!(pieces.iter().map(|piece| &piece[..]).collect::<HashSet<_>>(), reference::pieces::pieces(sides), "{:?}", ranked.book);
    let mut class_of: HashMap<Vec<u8>, usize> = HashMap::new();
    let mut left: Vec<Vec<KnownWord>> = Vec::new();
    for word in all_words(ranked.book.letters, most) {
        let word = renamed(&word, &ranked.table);
        if !class_of.contains_key(&word) {
            let class = reached(sides, &word, 1_000_000).expect("few words are reached");
            let of_piece = |piece: &Vec<u8>| least_rest(&class, piece).ok_or((19, 0));
            left.push(pieces.iter().map(of_piece).collect());
            class_of.extend(class.into_iter().map(|word| (word, left.len() - 1)));
        }
        for (piece, known) in pieces.iter().zip(&left[class_of[&word]]) {
            let size = known.as_ref().map_or(3, Vec::len);
            trial.front(&ranked.bytes, known, [&word, piece], size, 0);
            trial.tally.searched += 1;
        }
    }
}

/// Fronts of all kinds by breadth-first search over whole classes, in buffers of every size near theirs, at offsets from the start to one past the end; and strangers in
/// the word, in the front and in both.
pub fn fronts(trial: &mut Trial, chance: &mut Chance, kinds: &[Make], cases: usize) {
    for case in 0..cases {
        let ranked = Ranked::new(trial, chance, kinds[case % kinds.len()]);
        let fronts = Fronts::new(&ranked.book);
        for _ in 0..6 {
            let piece = fronts.any(chance);
            let word = fronts.word(chance, &piece, 40);
            let [word, piece] = [word, piece].map(|word| renamed(&word, &ranked.table));
            if let Some(left) = trial.search_front(&ranked.known, &word, &piece, 300) {
                for (size, offset) in buffers_near(&left) {
                    trial.front(&ranked.bytes, &left, [&word, &piece], size, offset);
                }
            }
            if chance.once_in(3) {
                let strange = [&word, &piece].map(|word| words::strange(chance, word, 64));
                for given in [[&strange[0], &piece], [&word, &strange[1]], [&strange[0], &strange[1]]] {
                    let left =
                        trial.search_front(&ranked.known, given[0], given[1], 0).expect("a letter that the book does not have is not searched for");
                    trial.front(&ranked.bytes, &left, given.map(|word| &word[..]), chance.below(50), chance.below(60));
                }
            }
        }
    }
}

/// Words that many exchanges join: a front leaves the same of all of them. The front and what it leaves are joined to them, and have their least word; no other rest that
/// is known comes before it; and the empty front leaves the least word.
pub fn fronts_of_joined_words(trial: &mut Trial, chance: &mut Chance, kinds: &[Make], cases: usize, most: usize, exchanges: usize) {
    for case in 0..cases {
        let Ranked { book, table, bytes, known } = Ranked::new(trial, chance, kinds[case % kinds.len()]);
        let fronts = Fronts::new(&book);
        for _ in 0..4 {
            let piece = if chance.once_in(4) { fronts.any(chance) } else { fronts.piece(chance) };
            let u = fronts.word(chance, &piece, most);
            let v = words::exchanged(chance, &book, &u, exchanges, 4 * most);
            let [u, v, piece] = [u, v, piece].map(|word| renamed(&word, &table));
            let least = trial.least_in_ample_buffer(&bytes, &u);
            assert_eq!(trial.front_in_ample_buffer(&bytes, [&u, &[]]), Ok(least.clone()), "{u:?} {book:?}");
            let left = trial.front_in_ample_buffer(&bytes, [&u, &piece]);
            assert_eq!(trial.front_in_ample_buffer(&bytes, [&v, &piece]), left, "{u:?} {v:?} {piece:?} {book:?}");
            let Ok(rest) = left else {
                let is_piece = fronts.pieces.iter().any(|known| renamed(known, &table) == piece);
                assert!(!is_piece || [&u, &v, &least].iter().all(|word| !word.starts_with(&piece)), "{u:?} {v:?} {piece:?} {book:?}");
                continue;
            };
            for known in [&u, &v, &least].iter().filter_map(|word| word.strip_prefix(&piece[..])) {
                assert!(order(&rest, known).is_le(), "{u:?} {v:?} {piece:?} {book:?}");
            }
            let whole = [piece, rest].concat();
            if whole.len() <= WORD {
                assert!(matches!(trial.compare(&bytes, &known, &u, &whole, u32::MAX), Ok(Compared::Same(_))), "{u:?} {whole:?} {book:?}");
                assert_eq!(trial.least_in_ample_buffer(&bytes, &whole), least, "{u:?} {whole:?} {book:?}");
            }
        }
    }
}

/// Fronts at the limits: the longest rest, with just enough room and a byte less; pieces of 63 letters and runs of 64 and 65; whether there is a front depends on the last
/// letter of the longest word; words and fronts that are too long; full books.
pub fn fronts_at_the_limits(trial: &mut Trial, chance: &mut Chance) {
    longest_rests(trial);
    longest_pieces(trial);
    far_sight(trial);
    for number in 0..books::AT_THE_LIMITS {
        let book = books::at_the_limits(chance, number);
        let bytes = book.bytes();
        let fronts = Fronts::new(&book);
        for _ in 0..4 {
            let piece = fronts.piece(chance);
            let mut u = fronts.word(chance, &piece, 1_500);
            while u.len() < 4_000 {
                words::overlap(&mut u, chance.pick(&book.words).as_slice());
            }
            u.truncate(WORD);
            let v = words::exchanged(chance, &book, &u, 6, WORD);
            let left = trial.front_in_ample_buffer(&bytes, [&u, &piece]);
            assert_eq!(trial.front_in_ample_buffer(&bytes, [&v, &piece]), left, "book {number} at the limits");
        }
    }
}

/// A letter that stands for 64: its long side without the first letter, and then the long side again and again.
fn longest_rests(trial: &mut Trial) {
    let book = books::longest_rest();
    let bytes = book.bytes();
    for n in [1, 1_000, WORD] {
        let (word, length) = (vec![books::LONGEST_LEAST_LETTER; n], 64 * n - 1);
        let known = Ok(book.words[1].repeat(n)[1..].to_vec());
        for (size, offset) in [(length, 0), (length - 1, 0), (length + 5, 5), (length + 5, 6), (LEAST, LEAST - length)] {
            trial.front(&bytes, &known, [&word, &[0]], size, offset);
        }
    }
    for over in [4_097, 5_000, 70_000] {
        trial.front(&bytes, &Err((9, 0)), [&vec![255; over], &vec![255; over]], 0, 1);
        trial.front(&bytes, &Err((9, 10_000)), [&[0; WORD], &vec![255; over - 4_032]], 0, 1);
    }
}

/// 63 letters that two sides begin with: fronts of one to 65 of them, of a side, of a word with fewer, and of the longest word.
fn longest_pieces(trial: &mut Trial) {
    let bytes = books::longest_search().bytes();
    let side = [&[0; 63][..], &[2]].concat();
    let long = [&[0; WORD - 1][..], &[2]].concat();
    for n in 1..=65 {
        let front = vec![0; n];
        let refused = if n == 64 { Some((18, 0)) } else { (n == 65).then_some((9, 10_000)) };
        // the lesser side ends with 1
        let left = |word: &[u8]| refused.map_or_else(|| Ok([&word[n..word.len() - 1], &[1]].concat()), Err);
        trial.front(&bytes, &left(&side), [&side, &front], 64, 0);
        trial.front(&bytes, &left(&long), [&long, &front], WORD - n, 0);
        trial.front(&bytes, &Err(refused.unwrap_or((19, 0))), [&front[1..], &front], 64, 0);
    }
}

/// `ad = de`, where d is a piece: `a` repeated begins with d just where a d follows.
fn far_sight(trial: &mut Trial) {
    let bytes = books::far_sight().bytes();
    let (d, a, e) = (0, books::FAR_SIGHT_LETTER, 2);
    for (last, left) in [(a, Err((19, 0))), (e, Err((19, 0))), (d, Ok(vec![e; WORD - 1]))] {
        let word = [&[a; WORD - 1][..], &[last]].concat();
        trial.front(&bytes, &left, [&word, &[d]], WORD - 1, 0);
    }
}
