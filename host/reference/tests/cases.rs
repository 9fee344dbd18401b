//! The bench cases of document 01, the presentations of document 000, section 1, each refusal number, the cut sheet with its numbers of pieces, relations
//! that share a word, and chains and least words on small cases.
//! The answers are worked out from the papers.

use std::cmp::Ordering::{Equal, Greater, Less};

use reference::chains::{exchanges, reached};
use reference::families::{distinct, families, Words};
use reference::least::{order, rank};
use reference::pieces::{cuts, is_loose, longest_tail, numbers, pieces};
use reference::{check, compare, cut_sheet, least, program, round, Comparison, Refusal, RoundEnd, SHEET_SIDE};
use Comparison::{Different, Same};

/// The codes of a word written with the letters from a on.
fn word(text: &str) -> Vec<u8> {
    text.bytes().map(|letter| letter - b'a').collect()
}

fn words(rules: &[(&str, &str)]) -> Vec<Vec<u8>> {
    rules.iter().flat_map(|(left, right)| [word(left), word(right)]).collect()
}

fn head(letters: u8) -> Vec<u8> {
    vec![1, 0, 1, 0, letters]
}

fn rule(left: &[u8], right: &[u8]) -> Vec<u8> {
    let length = (2 + left.len() + right.len()) as u16;
    [&length.to_le_bytes()[..], &[2, 0, left.len() as u8, right.len() as u8], left, right].concat()
}

fn book(letters: u8, rules: &[(&str, &str)]) -> Vec<u8> {
    let mut bytes = head(letters);
    for (left, right) in rules {
        bytes.extend(rule(&word(left), &word(right)));
    }
    bytes
}

fn question(allowance: u32, u: &[u8], v: &[u8]) -> Vec<u8> {
    let length = (8 + u.len() + v.len()) as u16;
    [&length.to_le_bytes()[..], &[3, 0], &allowance.to_le_bytes(), &(u.len() as u16).to_le_bytes(), &(v.len() as u16).to_le_bytes(), u, v].concat()
}

fn refused<T>(number: u32, place: u64) -> Result<T, Refusal> {
    Err(Refusal { number, place })
}

/// The bytes of the sheet of a full book: two sides for each of 32 rules.
const SHEET: usize = 64 * SHEET_SIDE;

/// The sheet of an accepted book.
fn sheet(bytes: &[u8]) -> Vec<u8> {
    let mut sheet = vec![0; SHEET];
    let relations = cut_sheet(bytes, &mut sheet).expect("accepted");
    sheet.truncate(2 * relations as usize * SHEET_SIDE);
    sheet
}

fn q() -> Vec<u8> {
    book(4, &[("abdc", "cadb")])
}

#[test]
fn books_of_the_bench() {
    assert_eq!(check(&book(4, &[("a", "aa")])), refused(8, 0));
    assert_eq!(check(&book(4, &[("aa", "b")])), refused(8, 0));
    assert_eq!(check(&book(4, &[("a", "b")])), Ok(1));
    assert_eq!(sheet(&book(4, &[("a", "b")])), [0, 1, 0, 255, 0, 1, 0, 255]);
    assert_eq!(check(&book(4, &[("ab", "ab")])), Ok(1));
    assert_eq!(sheet(&book(4, &[("ab", "ab")])), [0, 2, 0, 255, 0, 2, 0, 255]);
    assert_eq!(check(&book(4, &[("abdc", "acbd")])), refused(8, 0));
    assert_eq!(check(&q()), Ok(1));
    assert_eq!(sheet(&q()), [1, 2, 1, 4, 1, 2, 1, 4]);
    assert_eq!(check(&book(4, &[("daaa", "dc")])), refused(8, 0));
}

#[test]
fn comparisons_of_the_bench() {
    let answer = |u: &str, v: &str, allowance| compare(&q(), &word(u), &word(v), allowance);
    assert_eq!(answer("", "", 100), Ok(Same(0)));
    assert_eq!(answer("a", "", 100), Ok(Different(0)));
    assert_eq!(answer("abd", "abd", 100), Ok(Same(1)));
    assert_eq!(answer("abd", "cad", 100), Ok(Different(0)));
    assert_eq!(answer("abdc", "cadb", 100), Ok(Same(2)));
    assert_eq!(answer("abdcad", "cadbad", 100), Ok(Same(2)));
    assert_eq!(answer("cadbadb", "abdabdc", 100), Ok(Same(3)));
    assert_eq!(answer("cadbadb", "abdabdc", 2), refused(11, 2));
    assert_eq!(answer("cadbadb", "abdabdc", 3), Ok(Same(3)));
    let none = head(4);
    assert_eq!(compare(&none, &word("a"), &word("b"), 100), Ok(Different(0)));
    assert_eq!(compare(&none, &word("ab"), &word("ab"), 100), Ok(Same(2)));
}

/// A side of the given length over 64 letters.
fn long_side(i: u8, length: usize) -> Vec<u8> {
    (0..length).map(|j| if j % 3 == 0 { i } else { ((i as usize + j) % 64) as u8 }).collect()
}

#[test]
fn limits_of_the_bench() {
    let of_lengths = |m, n| [head(64), rule(&long_side(0, m), &long_side(7, n))].concat();
    let number = |result: Result<u64, Refusal>| result.map_err(|refusal| refusal.number);
    assert_ne!(number(check(&of_lengths(64, 64))), Err(4));
    assert_eq!(check(&of_lengths(65, 64)), refused(4, 5));
    assert_eq!(check(&of_lengths(64, 65)), refused(4, 5));
    assert_eq!(check(&of_lengths(0, 64)), refused(4, 5));
    assert_eq!(check(&of_lengths(64, 0)), refused(4, 5));
    // 32 rules of two letters of their own each
    let mut many = head(64);
    for i in 0..32 {
        many.extend(rule(&[2 * i], &[2 * i + 1]));
    }
    assert_eq!(check(&many), Ok(32));
    let place = many.len() as u64;
    many.extend(rule(&[0], &[1]));
    assert_eq!(check(&many), refused(6, place));
    let run = vec![0; 4_097];
    assert_eq!(compare(&q(), &run[..4_096], &run[..4_096], u32::MAX), Ok(Same(4_096)));
    assert_eq!(compare(&q(), &run, &run[..4_096], u32::MAX), refused(9, 0));
    assert_eq!(compare(&q(), &run[..4_096], &run, u32::MAX), refused(9, 5_000));
}

#[test]
fn presentations_of_document_000() {
    // abc = cba: the pieces are the empty word and the letters, and each relation word is a product of three
    let first = words(&[("abc", "cba")]);
    assert_eq!(pieces(&first).len(), 4);
    assert_eq!(check(&book(3, &[("abc", "cba")])), refused(8, 0));
    // acba = aabc: the same pieces, four needed
    let second = words(&[("acba", "aabc")]);
    assert_eq!(pieces(&second).len(), 4);
    assert_eq!(check(&book(3, &[("acba", "aabc")])), Ok(1));
    assert_eq!(sheet(&book(3, &[("acba", "aabc")])), [1, 2, 1, 4, 1, 2, 1, 4]);
    // the one with a shared run: the pieces are the empty word, the letters and bb, and dbbbd is d bb b d
    let shared = [("acba", "aabc"), ("acba", "dbbbd")];
    assert_eq!(pieces(&words(&shared)).len(), 6);
    assert_eq!(check(&book(4, &shared)), Ok(2));
    assert_eq!(sheet(&book(4, &shared)), [1, 2, 1, 4, 1, 2, 1, 4, 1, 2, 1, 4, 1, 3, 1, 4]);
    // aabc = aabd: the pieces are the empty word, a, b, aa, ab and aab, and no relation word is a product of pieces
    let last = words(&[("aabc", "aabd")]);
    assert_eq!(pieces(&last).len(), 6);
    assert!(!last.iter().any(|side| is_loose(side, &pieces(&last))));
    assert_eq!(check(&book(4, &[("aabc", "aabd")])), Ok(1));
    assert_eq!(sheet(&book(4, &[("aabc", "aabd")])), [3, 1, 0, 255, 3, 1, 0, 255]);
    assert_eq!(longest_tail(&cuts(&last)), 0);
}

#[test]
fn records_are_refused_in_the_order_of_the_paper() {
    assert_eq!(check(&[]), refused(1, 0));
    for cut in 1..5 {
        assert_eq!(check(&head(4)[..cut]), refused(1, 0));
    }
    // cut off and of another kind: 1
    assert_eq!(check(&[1, 0, 9, 0]), refused(1, 0));
    assert_eq!(check(&[1, 0, 2, 0, 4]), refused(2, 0));
    assert_eq!(check(&[1, 0, 1, 1, 4]), refused(2, 0));
    assert_eq!(check(&[0, 0, 1, 0]), refused(3, 0));
    assert_eq!(check(&[2, 0, 1, 0, 4, 4]), refused(3, 0));
    assert_eq!(check(&head(0)), refused(4, 0));
    assert_eq!(check(&head(65)), refused(4, 0));
    assert_eq!(check(&head(64)), Ok(0));
    assert_eq!(check(&[head(4), head(4)].concat()), refused(2, 5));
    assert_eq!(check(&[head(4), question(0, &[], &[])].concat()), refused(2, 5));
    let behind = |record: &[u8]| check(&[&head(4), record].concat());
    assert_eq!(behind(&[0, 0, 2, 0]), refused(3, 5));
    assert_eq!(behind(&[1, 0, 2, 0, 1]), refused(3, 5));
    assert_eq!(behind(&[2, 0, 2, 0, 255, 1]), refused(3, 5));
    assert_eq!(behind(&[2, 0, 2, 0, 0, 0]), refused(4, 5));
    assert_eq!(behind(&rule(&[0], &[9; 65])), refused(4, 5));
    assert_eq!(behind(&rule(&[0], &[4])), refused(5, 5));
    assert_eq!(behind(&rule(&[4], &[0])), refused(5, 5));
    // the 34th record: cut off, another kind, then 6 before all else
    let mut full = head(64);
    for i in 0..32 {
        full.extend(rule(&[2 * i], &[2 * i + 1]));
    }
    let place = full.len() as u64;
    let then = |record: &[u8]| check(&[&full[..], record].concat());
    assert_eq!(then(&[9, 0, 2, 0, 1]), refused(1, place));
    assert_eq!(then(&[0, 0, 7, 0]), refused(2, place));
    assert_eq!(then(&[0, 0, 2, 0]), refused(6, place));
    // sides x, y, y, x: a word may stand on several sides, and 7 is no number of a refusal any more
    assert_eq!(check(&book(4, &[("a", "b"), ("b", "a")])), Ok(2));
    assert_eq!(check(&book(4, &[("a", "aa"), ("b", "b")])), refused(8, 0));
}

fn single(bytes: &[u8], u: &[u8], v: &[u8], p: &[u8], sizes: [usize; 3]) -> (Result<RoundEnd, Refusal>, [Vec<u8>; 3]) {
    let mut next = sizes.map(|size| vec![170; size]);
    let end = round(bytes, [u, v, p], next.each_mut().map(|buffer| &mut buffer[..]));
    (end, next)
}

#[test]
fn rounds_refuse_and_write_as_the_paper_says() {
    let enough = [4_224, 4_224, 64];
    let untouched = enough.map(|size| vec![170; size]);
    let (end, next) = single(&q(), &word("abdc"), &word("cadb"), &[], enough);
    // row 4: the remainder of u is empty and so not active for c; the other tail is b
    assert_eq!(end, Ok(RoundEnd::Next([1, 1, 0])));
    assert_eq!((next[0][0], next[1][0], next[0][1], next[1][1]), (1, 1, 170, 170));
    assert_eq!(next[2], untouched[2]);
    let (end, next) = single(&q(), &[], &[], &[], enough);
    assert_eq!((end, next), (Ok(RoundEnd::Same), untouched.clone()));
    let (end, next) = single(&q(), &[], &[], &[0], enough);
    assert_eq!((end, next), (Ok(RoundEnd::Different), untouched.clone()));
    // a = b with a p that is no piece ends 'different'
    let (end, _) = single(&book(2, &[("a", "b")]), &[0], &[0], &[0], enough);
    assert_eq!(end, Ok(RoundEnd::Different));
    let long = vec![0; 4_161];
    assert_eq!(single(&q(), &long, &long, &long, [0; 3]).0, refused(9, 0));
    assert_eq!(single(&q(), &long[1..], &long, &long, [0; 3]).0, refused(9, 5_000));
    assert_eq!(single(&q(), &long[1..], &long[1..], &long, [0; 3]).0, refused(9, 10_000));
    assert_eq!(single(&q(), &[0, 4], &long, &long, [0; 3]).0, refused(10, 1));
    assert_eq!(single(&q(), &[0], &[0, 0, 9], &long, [0; 3]).0, refused(10, 5_002));
    assert_eq!(single(&q(), &[0], &[0], &[0, 4], [0; 3]).0, refused(10, 10_001));
    assert_eq!(single(&q(), &[], &[], &[], [4_223, 0, 0]).0, refused(12, 0));
    assert_eq!(single(&q(), &[], &[], &[], [4_224, 4_223, 0]).0, refused(12, 1));
    assert_eq!(single(&q(), &[], &[], &[], [4_224, 4_224, 63]).0, refused(12, 2));
}

/// The rules of a book, each by its two sides.
type Rules = &'static [(&'static str, &'static str)];

/// For each side the lengths of X, Y, Z and its number of pieces.
type Rows = &'static [[u8; SHEET_SIDE]];

/// Books, by their number of letters and their rules, with their sheets, worked out by hand.
const SHEETS: [(u8, Rules, Rows); 16] = [
    (4, &[], &[]),
    // no piece but the empty one
    (2, &[("a", "b")], &[[0, 1, 0, 255], [0, 1, 0, 255]]),
    // Q: every letter is a piece, and no two letters stand together twice
    (4, &[("abdc", "cadb")], &[[1, 2, 1, 4], [1, 2, 1, 4]]),
    (5, &[("abcde", "edcba")], &[[1, 3, 1, 5], [1, 3, 1, 5]]),
    // e stands nowhere else, at an end and between
    (5, &[("abdc", "cadbe")], &[[1, 2, 1, 4], [1, 4, 0, 255]]),
    (5, &[("caedb", "abdc")], &[[1, 3, 1, 255], [1, 2, 1, 4]]),
    // the pieces are the letters and ab, cd, ef, gh: ab cd gh ef, and ef ab gh cd
    (8, &[("abcdghef", "efabghcd")], &[[2, 4, 2, 4], [2, 4, 2, 4]]),
    // the pieces are the letters and ab: ab d c f, c a d b g, and neither e nor h stands twice
    (8, &[("abdcf", "cadbg"), ("gfabe", "h")], &[[2, 2, 1, 4], [1, 3, 1, 5], [1, 4, 0, 255], [0, 1, 0, 255]]),
    // aa stands at two places that overlap: b c aa a d e
    (5, &[("bcaaade", "edcb")], &[[1, 5, 1, 6], [1, 2, 1, 4]]),
    // letter by letter, as in Q
    (6, &[("abdc", "cadbe"), ("eacfde", "fbcedaf")], &[[1, 2, 1, 4], [1, 3, 1, 5], [1, 4, 1, 6], [1, 5, 1, 7]]),
    // a word on two sides is no piece for that reason, whether the sides are of one rule or of two
    (2, &[("ab", "ab")], &[[0, 2, 0, 255], [0, 2, 0, 255]]),
    (5, &[("abc", "d"), ("e", "abc")], &[[0, 3, 0, 255], [0, 1, 0, 255], [0, 1, 0, 255], [0, 3, 0, 255]]),
    // a is a piece, at three places of two words
    (5, &[("ad", "c"), ("c", "aea")], &[[1, 1, 0, 255], [0, 1, 0, 255], [0, 1, 0, 255], [1, 1, 1, 255]]),
    // c is a piece, at two places of one word
    (4, &[("d", "d"), ("cac", "d")], &[[0, 1, 0, 255], [0, 1, 0, 255], [1, 1, 1, 255], [0, 1, 0, 255]]),
    // a is a piece, at three places of two words
    (4, &[("ada", "ca")], &[[1, 1, 1, 255], [0, 1, 1, 255]]),
    // letter by letter, as in Q, and Q turned round
    (4, &[("abdc", "cadb"), ("cadb", "abdc"), ("bcda", "abdc")], &[[1, 2, 1, 4]; 6]),
];

#[test]
fn sheets_with_numbers_worked_out_by_hand() {
    for (letters, rules, rows) in SHEETS {
        assert_eq!(sheet(&book(letters, rules)), rows.concat(), "{rules:?}");
    }
    // 64 letters, and the same backwards: no two stand together twice
    let forwards: Vec<u8> = (0..64).collect();
    let backwards: Vec<u8> = (0..64).rev().collect();
    assert_eq!(sheet(&[head(64), rule(&forwards, &backwards)].concat()), [1, 62, 1, 64, 1, 62, 1, 64]);
}

#[test]
fn the_sheet_takes_four_bytes_a_side() {
    for (letters, rules, rows) in SHEETS {
        let bytes = book(letters, rules);
        let size = 4 * 2 * rules.len();
        for room in 0..size {
            let mut buffer = vec![170; room];
            assert_eq!(cut_sheet(&bytes, &mut buffer), refused(12, 0), "{rules:?} {room}");
            assert_eq!(buffer, vec![170; room]);
        }
        for more in [0, 1, 9] {
            let mut buffer = vec![170; size + more];
            assert_eq!(cut_sheet(&bytes, &mut buffer), Ok(rules.len() as u64), "{rules:?} {more}");
            assert_eq!(buffer, [rows.concat(), vec![170; more]].concat());
        }
    }
    // the refusals of the book come before that of the buffer
    assert_eq!(cut_sheet(&[], &mut []), refused(1, 0));
    assert_eq!(cut_sheet(&book(4, &[("ab", "ab")]), &mut []), refused(12, 0));
    assert_eq!(cut_sheet(&book(4, &[("a", "aa")]), &mut []), refused(8, 0));
}

/// Books with the number of each side, worked out by hand, and the lowest side whose number is below 4.
const REFUSED: [(Rules, &[u8], u64); 19] = [
    (&[("a", "aa")], &[1, 2], 0),
    (&[("aa", "b")], &[2, 255], 0),
    // a bd c, and a c bd
    (&[("abdc", "acbd")], &[3, 3], 0),
    (&[("abc", "cba")], &[3, 3], 0),
    // d aa a
    (&[("daaa", "dc")], &[3, 255], 0),
    // ab ab
    (&[("abab", "bac")], &[2, 255], 0),
    (&[("abdc", "b")], &[255, 1], 1),
    (&[("cab", "aa")], &[255, 2], 1),
    (&[("cdbea", "abc")], &[255, 3], 1),
    // Q, and sides below 4 behind it
    (&[("abdc", "cadb"), ("bcd", "a")], &[4, 4, 3, 1], 2),
    (&[("abdc", "cadb"), ("a", "bcd")], &[4, 4, 1, 3], 2),
    (&[("abdc", "cadb"), ("eaf", "ba")], &[4, 4, 255, 2], 3),
    // ab is a piece by the second rule: ab d c
    (&[("abdc", "cadb"), ("abe", "f")], &[3, 4, 255, 255], 0),
    // a word at fault on several sides: the lowest of them
    (&[("aa", "aa")], &[2, 2], 0),
    (&[("b", "aa"), ("aa", "c")], &[255, 2, 2, 255], 1),
    // behind sides that are repeated: side 2 is the second word, and side 5 the fourth
    (&[("b", "b"), ("aa", "b"), ("cc", "aa")], &[255, 255, 2, 255, 2, 2], 2),
    (&[("b", "c"), ("c", "b"), ("d", "aa"), ("aa", "b")], &[255, 255, 255, 255, 255, 2, 2, 255], 5),
    // a is a piece of aa, and b of no other word
    (&[("b", "b"), ("b", "a"), ("a", "aa")], &[255, 255, 255, 1, 1, 2], 3),
    // Q twice over, and bcd, which is b c d
    (&[("abdc", "cadb"), ("cadb", "abdc"), ("abdc", "bcd")], &[4, 4, 4, 4, 4, 3], 5),
];

#[test]
fn books_with_a_number_below_four_are_refused_at_the_lowest_side() {
    for (rules, of_sides, place) in REFUSED {
        assert_eq!(numbers(&words(rules)), of_sides, "{rules:?}");
        assert_eq!(check(&book(6, rules)), refused(8, place), "{rules:?}");
        assert_eq!(cut_sheet(&book(6, rules), &mut [0; SHEET]), refused(8, place), "{rules:?}");
    }
}

fn printed(input: &[u8]) -> String {
    String::from_utf8(program(input)).expect("text")
}

#[test]
fn the_program_prints_what_the_paper_says() {
    let example = [
        &[0x01, 0x00, 0x01, 0x00, 0x04][..],
        &[0x0A, 0x00, 0x02, 0x00, 0x04, 0x04, 0x00, 0x01, 0x03, 0x02, 0x02, 0x00, 0x03, 0x01],
        &[0x10, 0x00, 0x03, 0x00, 0x64, 0x00, 0x00, 0x00, 0x04, 0x00, 0x04, 0x00, 0x00, 0x01, 0x03, 0x02, 0x02, 0x00, 0x03, 0x01],
    ]
    .concat();
    assert_eq!(printed(&example), "book 1\nsame 2\n");
    assert_eq!(printed(&[]), "refused 1 0\n");
    assert_eq!(printed(&question(0, &[], &[])), "refused 1 0\n");
    assert_eq!(printed(&vec![0; 60_001]), "refused 13 60000\n");
    assert_eq!(printed(&vec![0; 60_000]), "refused 2 0\n");
    let with = |rest: &[u8]| printed(&[&q()[..], rest].concat());
    assert_eq!(with(&[]), "book 1\n");
    // stray bytes and a cut record of another kind belong to the book; a cut record of kind 3 does not
    assert_eq!(with(&[3]), "refused 1 19\n");
    assert_eq!(with(&[9, 0, 9, 0, 1]), "refused 1 19\n");
    assert_eq!(with(&[9, 0, 3, 0, 1]), "book 1\nrefused 1 19\n");
    let first = question(0, &[], &[]);
    let then = |rest: &[u8]| with(&[&first[..], rest].concat());
    assert_eq!(then(&[3]), "book 1\nsame 0\nrefused 1 31\n");
    assert_eq!(then(&[1, 0, 9, 0, 1]), "book 1\nsame 0\nrefused 2 31\n");
    assert_eq!(then(&[1, 0, 3, 0, 1]), "book 1\nsame 0\nrefused 3 31\n");
    assert_eq!(then(&[9, 0, 3, 0, 0, 0, 0, 0, 0, 0, 0, 0, 0]), "book 1\nsame 0\nrefused 3 31\n");
    let rest = [question(0, &[0], &[0]), question(0, &[4], &[]), question(0, &[], &vec![0; 4_097]), question(1, &[0], &[0])].concat();
    assert_eq!(then(&rest), "book 1\nsame 0\nrefused 11 0\nrefused 10 0\nrefused 9 5000\nsame 1\n");
}

#[test]
fn chains_of_small_cases() {
    let sides = words(&[("abdc", "cadb")]);
    assert_eq!(exchanges(&sides, &word("abdcadb")), [word("cadbadb"), word("abdabdc")]);
    let class = reached(&sides, &word("cadbadb"), 100).expect("few");
    assert_eq!(class.len(), 3);
    assert!(class.contains(&word("abdabdc")));
}

#[test]
fn words_and_families() {
    let [chain, star, ring] = [
        words(&[("a", "b"), ("b", "c"), ("c", "d")]),
        words(&[("d", "a"), ("b", "d"), ("d", "c")]),
        words(&[("c", "a"), ("a", "b"), ("b", "d"), ("d", "c")]),
    ];
    assert_eq!(distinct(&chain), [&word("a"), &word("b"), &word("c"), &word("d")]);
    assert_eq!(distinct(&star), [&word("d"), &word("a"), &word("b"), &word("c")]);
    assert_eq!(distinct(&ring), [&word("c"), &word("a"), &word("b"), &word("d")]);
    for sides in [chain, star, ring] {
        assert_eq!(families(&sides), vec![vec![0, 1, 2, 3]; 4]);
    }
    // two families, one of which is joined by the last rule; a rule with equal sides joins nothing
    assert_eq!(
        families(&words(&[("a", "b"), ("c", "d"), ("e", "e"), ("f", "b")])),
        [vec![0, 1, 5], vec![0, 1, 5], vec![2, 3], vec![2, 3], vec![4], vec![0, 1, 5]]
    );
    assert_eq!(families(&words(&[("a", "b"), ("c", "d"), ("d", "a")])), vec![vec![0, 1, 2, 3]; 4]);
    assert_eq!(families(&[]), Vec::<Vec<usize>>::new());
}

/// Books with relations that share a word, and comparisons under them, worked out by hand: round by round where a row says more than for a pair.
#[test]
fn comparisons_where_a_word_is_shared() {
    let answer = |rules: &[(&str, &str)], u: &str, v: &str| compare(&book(5, rules), &word(u), &word(v), u32::MAX).expect("accepted");
    // ab = ab: the only word is ab, and its Z is empty. Row 4, no other member: the next words are empty
    let alone = [("ab", "ab")];
    assert_eq!(answer(&alone, "ab", "ab"), Same(1));
    assert_eq!(answer(&alone, "abab", "abab"), Same(2));
    assert_eq!(answer(&alone, "ba", "ba"), Same(2));
    assert_eq!(answer(&alone, "ab", "ba"), Different(0));
    // ad = c, c = aea. cea, cd: row 4 on c, s = ea, t = d. s is not active for the empty Z of c nor for that of ad, the first other member, but for that of aea,
    // since a ea begins with ae: go on with aea, ad. Row 4 on aea and ad, s and t empty, and nothing active: the Z of ad is empty. Both reach aec
    let later = [("ad", "c"), ("c", "aea")];
    assert_eq!(answer(&later, "cea", "cd"), Same(2));
    // row 6: s = c does not begin with a, and v is c d: go on with c, ad. Row 4, nothing active: the Z of ad
    assert_eq!(answer(&later, "aec", "cd"), Same(2));
    // the other way round d is active for a too: ad, aea, and then the Z of c, the first member other than ad, which is empty
    assert_eq!(answer(&later, "cd", "cea"), Same(2));
    // s = e is active for a: ae, ad. Row 6: s is empty and does not begin with a, and v is ad: go on with the empty word and a
    assert_eq!(answer(&later, "ce", "cd"), Different(2));
    // d = d, cac = d. d, d: row 4, nothing active; the first other member is cac, not the second side with d: go on with c, c, which are dropped
    let equal = [("d", "d"), ("cac", "d")];
    assert_eq!(answer(&equal, "d", "d"), Same(2));
    assert_eq!(answer(&equal, "d", "cac"), Same(2));
    // from cac the first other member is d, whose Z is empty
    assert_eq!(answer(&equal, "cac", "d"), Same(1));
    // ada = ca. adca, cca: row 8, Z and Z' are a, s = t = ca, p = a. Then u = v = ca: p is no prefix of the empty X of ca, but of that of ada. Row 4: a, a; dropped
    assert_eq!(answer(&[("ada", "ca")], "adca", "cca"), Same(3));
    // ada = ca, ca = e. ade, ce: row 8 as before, then u = v = e, p = a, a prefix of the X of ada alone, with which neither begins. Row 4: the Z of ada, a; dropped
    let third = [("ada", "ca"), ("ca", "e")];
    assert_eq!(answer(&third, "ade", "ce"), Same(3));
    assert_eq!(answer(&third, "ce", "ade"), Same(3));
    // c = e, d = c. e and d are joined by two rules; every Z is empty
    let closed = [("c", "e"), ("d", "c")];
    assert_eq!(answer(&closed, "e", "d"), Same(1));
    assert_eq!(answer(&closed, "ecd", "dde"), Same(3));
    assert_eq!(answer(&closed, "aed", "acb"), Different(2));
    assert_eq!(answer(&closed, "e", "a"), Different(0));
}

/// Three ways of rinsing that may replace each other, abdc, cadb and bcda, written down in several ways.
/// The X are a, c, b and the Z c, b, a: what follows one of them can be active for another, and no Z is empty.
const RINSING: [Rules; 6] = [
    &[("abdc", "cadb"), ("cadb", "bcda")],
    &[("abdc", "cadb"), ("bcda", "abdc")],
    &[("abdc", "cadb"), ("cadb", "bcda"), ("bcda", "abdc")],
    &[("abdc", "cadb"), ("abdc", "cadb"), ("cadb", "bcda"), ("bcda", "cadb")],
    &[("abdc", "abdc"), ("abdc", "cadb"), ("cadb", "bcda")],
    &[("abdc", "cadb"), ("cadb", "cadb"), ("bcda", "cadb"), ("bcda", "bcda")],
];

#[test]
fn three_ways_of_rinsing() {
    let cases = [
        // row 4, nothing active: the Z of cadb, b, is put and dropped
        ("abdc", "bcda", Same(2)),
        ("abdc", "abdc", Same(2)),
        // the first member other than cadb, and than bcda, is abdc, whose Z is c
        ("cadb", "bcda", Same(2)),
        ("bcda", "cadb", Same(2)),
        // s = bdc is not active for c or b, but for a: go on with abdc, abdc, and then as above
        ("abdcbdc", "cadbbdc", Same(3)),
        ("abdcbdc", "bcdabdc", Same(3)),
        // row 7: t = cadb does not begin with a; go on with abdc, cadb
        ("abdcbdc", "bcdcadb", Same(3)),
        // row 6, the other way round: go on with cadb, abdc
        ("bcdcadb", "abdcbdc", Same(3)),
        // s = ad is active for c: cad, cad, which is row 5 with cad on both sides
        ("abdcad", "bcdaad", Same(2)),
        // no member in front of v
        ("abdc", "acdb", Different(0)),
        // row 8: no two Z have an end in common
        ("abda", "cada", Different(0)),
    ];
    for rules in RINSING {
        let bytes = book(4, rules);
        assert_eq!(sheet(&bytes), [1, 2, 1, 4].repeat(2 * rules.len()), "{rules:?}");
        assert_eq!(families(&words(rules)), vec![vec![0, 1, 2]; 3], "{rules:?}");
        for (u, v, answer) in cases {
            assert_eq!(compare(&bytes, &word(u), &word(v), u32::MAX), Ok(answer), "{u} {v} {rules:?}");
        }
        // all of them are one class, whose least word has abdc
        for text in ["abdc", "cadb", "bcda"] {
            assert_eq!(least_of(&bytes, &word(text)), word("abdc"), "{rules:?}");
        }
        // abdc bdc, cadb bdc, bcda bdc = bcd abdc, bcd cadb = bcdc adb, bcd bcda
        for text in ["abdcbdc", "cadbbdc", "bcdabdc", "bcdcadb", "bcdbcda"] {
            assert_eq!(least_of(&bytes, &word(text)), word("abdcbdc"), "{rules:?}");
        }
    }
    // as a pair alone s = bdc is not active: b bdc is put, and its four letters are dropped
    assert_eq!(compare(&q(), &word("abdcbdc"), &word("cadbbdc"), u32::MAX), Ok(Same(5)));
}

/// Breadth-first search and the rounds agree on all words of up to six letters, and the count keeps to (k + 2) times the first word's length.
#[test]
fn the_rounds_agree_with_the_chains() {
    for rules in [
        &[("abdc", "cadb")][..],
        &[("acba", "aabc")],
        &[("a", "b")],
        &[("aabc", "aabd")],
        &[("ab", "ab")],
        &[("abdc", "cadb"), ("cadb", "bcda")],
        &[("ad", "c"), ("c", "aea")],
        &[("d", "d"), ("cac", "d")],
        &[("ada", "ca")],
        &[("ada", "ca"), ("ca", "e")],
        &[("c", "e"), ("d", "c")],
    ] {
        let sides = words(rules);
        let letters = 1 + *sides.iter().flatten().max().expect("some letter");
        let bytes = book(letters, rules);
        let (cuts, words) = (cuts(&sides), Words::of(&sides));
        let bound = longest_tail(&cuts) as u64 + 2;
        let mut all: Vec<Vec<u8>> = vec![vec![]];
        let mut from = 0;
        for _ in 0..(if letters > 3 { 5 } else { 6 }) {
            let to = all.len();
            for i in from..to {
                for letter in 0..letters {
                    all.push([&all[i][..], &[letter]].concat());
                }
            }
            from = to;
        }
        check(&bytes).expect("accepted");
        for u in &all {
            let class = reached(&sides, u, 10_000).expect("few");
            for v in class.iter().chain(all.iter().filter(|v| v.len() == u.len()).step_by(17)) {
                match reference::rows::rounds(&words, u, v, u32::MAX) {
                    reference::rows::Answer::Same(count) => {
                        assert!(class.contains(v), "{u:?} {v:?}");
                        assert!(count <= bound * u.len() as u64);
                    }
                    reference::rows::Answer::Different(_) => assert!(!class.contains(v), "{u:?} {v:?}"),
                    reference::rows::Answer::Spent(_) => panic!("the allowance is never used up"),
                }
            }
        }
    }
}

/// The least word in a buffer of `room` bytes, filled with 170, at an offset; with the whole buffer after it.
fn least_in(bytes: &[u8], run: &[u8], room: usize, offset: usize) -> (Result<u64, Refusal>, Vec<u8>) {
    let mut buffer = vec![170; room];
    let length = least(bytes, run, &mut buffer, offset);
    (length, buffer)
}

/// The least word, in a buffer with room enough.
fn least_of(bytes: &[u8], run: &[u8]) -> Vec<u8> {
    let (length, mut buffer) = least_in(bytes, run, 1_000, 0);
    buffer.truncate(length.expect("room enough") as usize);
    buffer
}

#[test]
fn the_house_table_ranks_cleaning_steps_first() {
    assert_eq!([32, 33, 63, 0, 1, 31].map(rank), [0, 1, 31, 32, 33, 63]);
    assert_eq!(order(&[], &[32]), Less);
    assert_eq!(order(&[0, 32], &[0, 31]), Less);
    assert_eq!(order(&[0], &[63]), Greater);
    assert_eq!(order(&[5, 0], &[5]), Greater);
    assert_eq!(order(&[5, 0, 9], &[5, 0, 9]), Equal);
}

#[test]
fn least_words_of_small_books() {
    // no rules: every word is alone
    for text in ["", "a", "dcba"] {
        assert_eq!(least_of(&head(4), &word(text)), word(text));
    }
    // a = b: every b becomes an a
    assert_eq!(least_of(&book(4, &[("a", "b")]), &word("bcabd")), word("acaad"));
    // Q: cadb becomes abdc; cadbadb, abdcadb and abdabdc are one class
    assert_eq!(least_of(&q(), &word("abdc")), word("abdc"));
    assert_eq!(least_of(&q(), &word("cadb")), word("abdc"));
    for text in ["cadbadb", "abdcadb", "abdabdc"] {
        assert_eq!(least_of(&q(), &word(text)), word("abdabdc"));
    }
    // ba = bcb: one class of four
    for text in ["bacb", "bcbcb", "bcba", "baa"] {
        assert_eq!(least_of(&book(3, &[("ba", "bcb")]), &word(text)), word("baa"));
    }
    // a = bcde: the short side comes first
    let short = book(5, &[("a", "bcde")]);
    assert_eq!(least_of(&short, &word("bcdebcdeabcde")), word("aaaa"));
    // b = acde: the long side comes first
    assert_eq!(least_of(&book(5, &[("b", "acde")]), &word("bab")), word("acdeaacde"));
}

#[test]
fn least_words_at_the_bounds_of_the_table() {
    let pair = |left: u8, right: u8| [head(64), rule(&[left], &[right])].concat();
    // 31 is the last of all and 32 the first
    assert_eq!(least_of(&pair(31, 32), &[31, 32, 31]), [32, 32, 32]);
    assert_eq!(least_of(&pair(32, 33), &[33, 32]), [32, 32]);
    assert_eq!(least_of(&pair(30, 31), &[31, 30]), [30, 30]);
    assert_eq!(least_of(&pair(0, 63), &[0, 63]), [63, 63]);
    assert_eq!(least_of(&pair(0, 31), &[31, 0]), [0, 0]);
}

#[test]
fn least_words_keep_to_their_part_of_the_buffer() {
    let abdc = word("abdc");
    assert_eq!(least_in(&q(), &word("cadb"), 4, 0), (Ok(4), abdc.clone()));
    assert_eq!(least_in(&q(), &word("cadb"), 9, 3), (Ok(4), [&[170; 3][..], &abdc, &[170; 2]].concat()));
    assert_eq!(least_in(&q(), &word("cadb"), 7, 3), (Ok(4), [&[170; 3][..], &abdc].concat()));
    // one byte short, by the buffer and by the offset
    assert_eq!(least_in(&q(), &word("cadb"), 3, 0), (refused(14, 0), vec![170; 3]));
    assert_eq!(least_in(&q(), &word("cadb"), 7, 4), (refused(14, 0), vec![170; 7]));
    assert_eq!(least_in(&q(), &word("cadb"), 7, 8), (refused(14, 0), vec![170; 7]));
    assert_eq!(least_in(&q(), &word("cadb"), 7, usize::MAX), (refused(14, 0), vec![170; 7]));
    // the empty word has room at the end, and none past it
    assert_eq!(least_in(&q(), &[], 0, 0), (Ok(0), vec![]));
    assert_eq!(least_in(&q(), &[], 5, 5), (Ok(0), vec![170; 5]));
    assert_eq!(least_in(&q(), &[], 5, 6), (refused(14, 0), vec![170; 5]));
    assert_eq!(least_in(&q(), &[], 0, 1), (refused(14, 0), vec![]));
    // room is judged by the least word: the word itself would fit, or would not
    assert_eq!(least_in(&book(5, &[("b", "acde")]), &word("b"), 3, 0).0, refused(14, 0));
    assert_eq!(least_in(&book(5, &[("a", "bcde")]), &word("bcde"), 1, 0).0, Ok(1));
}

#[test]
fn least_words_are_refused_in_the_order_of_the_paper() {
    // the book comes first, then the word, and room last
    assert_eq!(least_in(&[], &[9], 0, 1).0, refused(1, 0));
    assert_eq!(least_in(&book(4, &[("a", "aa")]), &[9], 0, 1).0, refused(8, 0));
    assert_eq!(least_in(&q(), &vec![9; 4_097], 0, 1).0, refused(9, 0));
    assert_eq!(least_in(&q(), &[0, 1, 4], 0, 1).0, refused(10, 2));
    assert_eq!(least_in(&q(), &[0, 1, 3], 0, 1).0, refused(14, 0));
    assert_eq!(least_in(&q(), &vec![0; 4_096], 4_096, 0).0, Ok(4_096));
}
