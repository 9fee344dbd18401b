//! What is left of words behind a front: which words are pieces, whole classes of small books, room, and the order of the refusals. The answers are worked out
//! by hand from document 01.

use std::collections::HashSet;

use reference::pieces::pieces;
use reference::{accept, front, least, Refusal};

/// The codes of a word written with the letters from a on.
fn word(text: &str) -> Vec<u8> {
    text.bytes().map(|letter| letter - b'a').collect()
}

/// A book over six letters, its rules written as in the paper.
fn book(rules: &str) -> Vec<u8> {
    let record = |rule: &str| {
        let (left, right) = rule.split_once(" = ").expect("two sides");
        let payload = [vec![left.len() as u8, right.len() as u8], word(left), word(right)].concat();
        [&[payload.len() as u8, 0, 2, 0][..], &payload].concat()
    };
    [vec![1, 0, 1, 0, 6], rules.split(", ").flat_map(record).collect()].concat()
}

fn refused<T>(number: u32, place: u64) -> Result<T, Refusal> {
    Err(Refusal { number, place })
}

/// What is left in a buffer of `room` bytes, filled with 170, at an offset; with the whole buffer after it.
fn front_in(book: &[u8], run: &[u8], piece: &[u8], room: usize, offset: usize) -> (Result<u64, Refusal>, Vec<u8>) {
    let mut buffer = vec![170; room];
    let length = front(book, run, piece, &mut buffer, offset);
    (length, buffer)
}

/// What is left, in a buffer with room enough.
fn front_of(rules: &str, run: &str, piece: &str) -> Result<Vec<u8>, Refusal> {
    let (length, mut buffer) = front_in(&book(rules), &word(run), &word(piece), 100, 0);
    buffer.truncate(length? as usize);
    Ok(buffer)
}

const Q: &str = "abdc = cadb";

/// The front is a piece, and this is left.
fn leaves(rules: &str, run: &str, piece: &str, rest: &str) {
    assert_eq!(front_of(rules, run, piece), Ok(word(rest)), "{piece} of {run} under {rules}");
}

/// The front is a piece, and no chain leads to a word that begins with it.
fn has_none(rules: &str, run: &str, piece: &str) {
    assert_eq!(front_of(rules, run, piece), refused(19, 0), "{piece} of {run} under {rules}");
}

/// Just these and the empty word are pieces of the book. None of the others is, and each is refused by 18 though the word itself begins with it.
fn has_pieces(rules: &str, which: &[&str], others: &[&str]) {
    let sides = accept(&book(rules)).expect("accepted").sides;
    let expected: HashSet<Vec<u8>> = which.iter().map(|text| word(text)).chain([Vec::new()]).collect();
    let found: HashSet<Vec<u8>> = pieces(&sides).into_iter().map(<[u8]>::to_vec).collect();
    assert_eq!(found, expected, "{rules}");
    for other in others {
        assert_eq!(front_of(rules, other, other), refused(18, 0), "{other} under {rules}");
    }
}

#[test]
fn what_is_a_piece() {
    // each letter stands in both sides, and no two of them stand together in both
    has_pieces(Q, &["a", "b", "c", "d"], &["ab", "bd", "dc", "ca", "ad", "db", "abdc", "cadb", "e", "aa"]);
    // c is a whole word on two sides, which is one place
    has_pieces("ad = c, c = aea", &["a"], &["c", "d", "e", "ad", "ae", "ea", "aea", "b"]);
    has_pieces("ba = bcb", &["b"], &["a", "c", "ba", "bc", "cb", "bcb"]);
    has_pieces("ad = de", &["d"], &["a", "e", "ad", "de"]);
    // at the fronts of words alone
    has_pieces("abc = abd", &["a", "b", "ab"], &["c", "d", "bc", "bd", "abc", "abd"]);
    // inside one word alone, at places that overlap
    has_pieces("daaae = c", &["a", "aa"], &["aaa", "d", "e", "c", "daa", "aae"]);
    // one word on both sides of a rule, in which a stands twice
    has_pieces("ab = ab", &[], &["a", "b", "ab"]);
    has_pieces("aba = aba", &["a"], &["b", "ab", "ba", "aba"]);
}

#[test]
fn of_one_rule() {
    // abdc and cadb are a class
    leaves(Q, "abdc", "a", "bdc");
    leaves(Q, "abdc", "c", "adb");
    leaves(Q, "cadb", "a", "bdc");
    leaves(Q, "cadb", "c", "adb");
    has_none(Q, "abdc", "b");
    has_none(Q, "cadb", "d");
    // abdabdc, abdcadb and cadbadb are a class, of which one begins with c
    for run in ["abdabdc", "abdcadb", "cadbadb"] {
        leaves(Q, run, "c", "adbadb");
        leaves(Q, run, "a", "bdabdc");
    }
    // what no side is in front of goes as it is, and the rest is a least word
    leaves(Q, "dcadb", "d", "abdc");
    leaves(Q, "cad", "c", "ad");
    has_none(Q, "cad", "a");
    leaves(Q, "b", "b", "");
    has_none(Q, "", "b");
    // ba = bcb: bacb, bcbcb, bcba and baa are a class
    for run in ["bacb", "bcbcb", "bcba", "baa"] {
        leaves("ba = bcb", run, "b", "aa");
    }
    leaves("ba = bcb", "bcb", "b", "a");
    has_none("ba = bcb", "cba", "b");
}

#[test]
fn whether_there_is_a_front_depends_on_the_last_letter() {
    // aad = ade = dee, and aaaad likewise; aade, which is aaad, as well
    leaves("ad = de", "aad", "d", "ee");
    leaves("ad = de", "aaaad", "d", "eeee");
    leaves("ad = de", "aade", "d", "eee");
    leaves("ad = de", "dd", "d", "d");
    has_none("ad = de", "aa", "d");
    has_none("ad = de", "aaaae", "d");
    has_none("ad = de", "aaaa", "d");
}

#[test]
fn of_a_family_of_three() {
    let rules = "ad = c, c = aea";
    // ad and aea begin with a, and d comes before ea
    for run in ["c", "ad", "aea"] {
        leaves(rules, run, "a", "d");
    }
    // cd, add, aead, aec, aeaea, cea and adea are a class
    for run in ["cd", "add", "aead", "aec", "aeaea", "cea", "adea"] {
        leaves(rules, run, "a", "dd");
    }
    // the rest is any member, of which ad comes first
    leaves(rules, "ac", "a", "ad");
    has_none(rules, "ec", "a");
    // a front of two letters, of which the word has one or none: ad is aaab and aaac
    let rules = "aab = aac, aac = d";
    leaves(rules, "d", "aa", "b");
    leaves(rules, "d", "a", "ab");
    leaves(rules, "ad", "aa", "ab");
    leaves(rules, "ad", "a", "aab");
    leaves(rules, "dd", "aa", "baab");
    leaves(rules, "aa", "aa", "");
    has_none(rules, "a", "aa");
    has_none(rules, "ba", "aa");
}

#[test]
fn fronts_that_stand_in_one_kind_of_place() {
    // at the fronts of words alone
    leaves("abc = abd", "abd", "ab", "c");
    leaves("abc = abd", "abdd", "ab", "cd");
    leaves("abc = abd", "abd", "a", "bc");
    leaves("abc = abd", "babd", "b", "abc");
    leaves("abc = abd", "ab", "ab", "");
    has_none("abc = abd", "abd", "b");
    has_none("abc = abd", "a", "ab");
    // inside one word alone: only where the given word begins with it
    leaves("daaae = c", "adaaae", "a", "c");
    leaves("daaae = c", "aac", "aa", "c");
    leaves("daaae = c", "aac", "a", "ac");
    has_none("daaae = c", "daaae", "a");
    has_none("daaae = c", "c", "aa");
}

#[test]
fn the_rest_is_least_by_the_house_table() {
    // 5 31 6 = 5 32 7: the rests are 31 6 and 32 7
    let bytes = [1, 0, 1, 0, 64, 8, 0, 2, 0, 3, 3, 5, 31, 6, 5, 32, 7];
    for run in [[5, 31, 6], [5, 32, 7]] {
        assert_eq!(front_in(&bytes, &run, &[5], 2, 0), (Ok(2), vec![32, 7]));
    }
}

/// b = a, 62 times c and a, as bytes: a is a piece, and so is c up to 61 times.
fn long_side() -> Vec<u8> {
    [&[1, 0, 1, 0, 3, 67, 0, 2, 0, 1, 64, 1, 0][..], &[2; 62], &[0]].concat()
}

#[test]
fn the_rest_can_be_far_longer_or_far_shorter() {
    let (a, cs) = ([0], [2; 62]);
    let side = [&a[..], &cs, &a].concat();
    assert_eq!(front_in(&long_side(), &[1], &a, 63, 0), (Ok(63), side[1..].to_vec()));
    assert_eq!(front_in(&long_side(), &[1, 1], &a, 127, 0), (Ok(127), [&side[1..], &side].concat()));
    assert_eq!(front_in(&long_side(), &[1, 1], &a, 126, 0), (refused(14, 0), vec![170; 126]));
    // a = b, 62 times c and b: of c c and then that side the first c leaves c a
    let short = [&[1, 0, 1, 0, 3, 67, 0, 2, 0, 1, 64, 0, 1][..], &cs, &[1]].concat();
    let run = [&[2, 2, 1][..], &cs, &[1]].concat();
    assert_eq!(front_in(&short, &run, &[2], 2, 0), (Ok(2), vec![2, 0]));
    assert_eq!(front_in(&short, &run, &[1], 2, 0).0, refused(19, 0));
}

#[test]
fn rests_keep_to_their_part_of_the_buffer() {
    let (run, c, adb) = (word("abdc"), word("c"), word("adb"));
    let bytes = book(Q);
    assert_eq!(front_in(&bytes, &run, &c, 3, 0), (Ok(3), adb.clone()));
    assert_eq!(front_in(&bytes, &run, &c, 8, 3), (Ok(3), [&[170; 3][..], &adb, &[170; 2]].concat()));
    assert_eq!(front_in(&bytes, &run, &c, 6, 3), (Ok(3), [&[170; 3][..], &adb].concat()));
    // one byte short, by the buffer and by the offset
    assert_eq!(front_in(&bytes, &run, &c, 2, 0), (refused(14, 0), vec![170; 2]));
    assert_eq!(front_in(&bytes, &run, &c, 6, 4), (refused(14, 0), vec![170; 6]));
    assert_eq!(front_in(&bytes, &run, &c, 6, 7), (refused(14, 0), vec![170; 6]));
    assert_eq!(front_in(&bytes, &run, &c, 6, usize::MAX), (refused(14, 0), vec![170; 6]));
    // the empty rest has room at the end, and none past it
    assert_eq!(front_in(&bytes, &c, &c, 0, 0), (Ok(0), vec![]));
    assert_eq!(front_in(&bytes, &c, &c, 5, 5), (Ok(0), vec![170; 5]));
    assert_eq!(front_in(&bytes, &c, &c, 5, 6), (refused(14, 0), vec![170; 5]));
    // every other refusal leaves the buffer as well
    assert_eq!(front_in(&bytes, &run, &word("b"), 6, 0), (refused(19, 0), vec![170; 6]));
    assert_eq!(front_in(&bytes, &run, &word("ab"), 6, 0), (refused(18, 0), vec![170; 6]));
}

#[test]
fn the_empty_front_leaves_the_least_word() {
    let runs = ["", "abdc", "cadb", "cadbadb", "dcadb", "bacb", "bcbcb", "cd", "cea", "aad", "e"];
    for rules in [Q, "ad = c, c = aea", "ba = bcb", "ad = de", "daaae = c"] {
        for run in runs {
            for (room, offset) in [(100, 0), (12, 3), (4, 0), (3, 0), (5, 5), (5, 6)] {
                let mut buffer = vec![170; room];
                let length = least(&book(rules), &word(run), &mut buffer, offset);
                assert_eq!(front_in(&book(rules), &word(run), &[], room, offset), (length, buffer), "{run} under {rules}");
            }
        }
    }
    assert_eq!(front_of(Q, "cadbadb", ""), Ok(word("abdabdc")));
}

#[test]
fn fronts_are_refused_in_the_order_of_the_paper() {
    let (q, d) = (book(Q), [3]);
    let answer = |book: &[u8], run: &[u8], piece: &[u8]| front_in(book, run, piece, 0, 1).0;
    // the book comes first, then the word, then the front, and room last
    assert_eq!(answer(&[], &[9], &[9]), refused(1, 0));
    assert_eq!(answer(&book("a = aa"), &[9], &[9]), refused(8, 0));
    assert_eq!(answer(&q, &[9; 4_097], &[9; 65]), refused(9, 0));
    assert_eq!(answer(&q, &[0, 1, 6], &[9; 65]), refused(10, 2));
    assert_eq!(answer(&q, &[0], &[9; 65]), refused(9, 10_000));
    assert_eq!(answer(&q, &[0], &[0, 1, 0, 6]), refused(10, 10_003));
    assert_eq!(answer(&q, &[0], &[255; 64]), refused(10, 10_000));
    // ab is no piece, and no front of c
    assert_eq!(answer(&q, &[2], &[0, 1]), refused(18, 0));
    assert_eq!(answer(&q, &[2], &d), refused(19, 0));
    assert_eq!(answer(&q, &d, &d), refused(14, 0));
}

#[test]
fn fronts_at_their_limits() {
    // 63 times a and b, 63 times a and c: a is a piece up to 63 times
    let sides = [[&[0; 63][..], &[1]].concat(), [&[0; 63][..], &[2]].concat()];
    let bytes = [&[1, 0, 1, 0, 3, 130, 0, 2, 0, 64, 64][..], &sides.concat()].concat();
    assert_eq!(front_in(&bytes, &sides[1], &[0; 63], 1, 0), (Ok(1), vec![1]));
    assert_eq!(front_in(&bytes, &sides[1], &[0; 62], 2, 0), (Ok(2), vec![0, 1]));
    assert_eq!(front_in(&bytes, &[0; 64], &[0; 64], 9, 0).0, refused(18, 0));
    assert_eq!(front_in(&bytes, &[0; 65], &[0; 65], 9, 0).0, refused(9, 10_000));
    assert_eq!(front_in(&bytes, &[0; 62], &[0; 63], 9, 0).0, refused(19, 0));
    let mut run = vec![0; 4_096];
    assert_eq!(front_in(&bytes, &run, &[0; 63], 4_033, 0), (Ok(4_033), vec![0; 4_033]));
    run[4_095] = 2;
    assert_eq!(front_in(&bytes, &run, &[0; 63], 4_033, 0), (Ok(4_033), [&[0; 4_032][..], &[1]].concat()));
    run.push(0);
    assert_eq!(front_in(&bytes, &run, &[0; 63], 4_097, 0).0, refused(9, 0));
}
