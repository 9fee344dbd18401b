//! The cases: worst books for the check, worst words for the comparison, for the least word and for the front, changes of held books, made, proposed and posted, and
//! how the cost grows.

use std::cell::RefCell;

use difftest::entries::{Compared, Entries, Fast, Refused, Rounded};
use difftest::held::{HELD, PREFIX};
use difftest::trial::{LEAST, SHEET, SHEET_SIDE};
use gen::stories::Change;
use gen::{books, inputs, shared, tickets, words, Book, Chance};

/// Something to run with the entries of either; the numbers it gives are only there to be equal for both.
pub struct Case {
    pub group: &'static str,
    pub name: String,
    pub run: Run,
}

pub type Run = Box<dyn Fn(&dyn Entries) -> [u64; 2]>;

/// An answer or a refusal as numbers.
fn numbers<T>(result: Result<T, Refused>, value: impl FnOnce(T) -> u64) -> [u64; 2] {
    match result {
        Ok(answer) => [0, value(answer)],
        Err((number, place)) => [number as u64, place],
    }
}

fn check(group: &'static str, name: impl Into<String>, book: &Book) -> Case {
    let bytes = book.bytes();
    Case { group, name: name.into(), run: Box::new(move |entries| numbers(entries.check(&bytes), |relations| relations)) }
}

/// Comparisons through the program, so that one check serves them all; the same two words as often as fit.
fn compare_many(group: &'static str, name: impl Into<String>, book: &Book, u: &[u8], v: &[u8], most: usize) -> Case {
    let mut input = book.bytes();
    let question = inputs::question(u32::MAX, u, v);
    let count = ((60_000 - input.len()) / question.len()).min(most);
    input.extend(question.repeat(count));
    let name = format!("{}, {count} times", name.into());
    program(group, name, input)
}

fn program(group: &'static str, name: impl Into<String>, input: Vec<u8>) -> Case {
    let output = RefCell::new(Vec::new());
    let run = move |entries: &dyn Entries| {
        let mut output = output.borrow_mut();
        output.resize(entries.output_size(), 0);
        numbers(entries.program(&input, &mut output), |length| length as u64)
    };
    Case { group, name: name.into(), run: Box::new(run) }
}

fn compare(group: &'static str, name: impl Into<String>, book: &Book, u: Vec<u8>, v: Vec<u8>) -> Case {
    let bytes = book.bytes();
    let rounds = |answer| match answer {
        Compared::Same(rounds) => 2 * rounds,
        Compared::Different(rounds) => 2 * rounds + 1,
    };
    Case { group, name: name.into(), run: Box::new(move |entries| numbers(entries.compare(&bytes, &u, &v, u32::MAX), rounds)) }
}

/// One round with the empty mark.
fn round(group: &'static str, name: impl Into<String>, book: &Book, u: Vec<u8>, v: Vec<u8>) -> Case {
    let bytes = book.bytes();
    let run = move |entries: &dyn Entries| {
        let (mut next_u, mut next_v, mut next_p) = ([0; 4_224], [0; 4_224], [0; 64]);
        numbers(entries.round(&bytes, [&u, &v, &[]], [&mut next_u, &mut next_v, &mut next_p]), |rounded| match rounded {
            Rounded::Next([u, v, p]) => u + v + p,
            _ => 0,
        })
    };
    Case { group, name: name.into(), run: Box::new(run) }
}

/// The least word in a buffer that has room for every one.
fn least(group: &'static str, name: impl Into<String>, book: &Book, word: Vec<u8>) -> Case {
    let bytes = book.bytes();
    let buffer = RefCell::new(vec![0; LEAST]);
    let run = move |entries: &dyn Entries| numbers(entries.least(&bytes, &word, &mut buffer.borrow_mut(), 0), |length| length);
    Case { group, name: name.into(), run: Box::new(run) }
}

/// What is left of a word behind a piece, in such a buffer.
fn front(group: &'static str, name: impl Into<String>, book: &Book, word: Vec<u8>, piece: Vec<u8>) -> Case {
    let bytes = book.bytes();
    let buffer = RefCell::new(vec![0; LEAST]);
    let run = move |entries: &dyn Entries| numbers(entries.front(&bytes, &word, &piece, &mut buffer.borrow_mut(), 0), |length| length);
    Case { group, name: name.into(), run: Box::new(run) }
}

/// The cut sheet in a buffer that has room for every one.
fn sheet(group: &'static str, name: impl Into<String>, book: &Book) -> Case {
    let bytes = book.bytes();
    let buffer = RefCell::new([0; SHEET]);
    let run = move |entries: &dyn Entries| {
        let mut sheet = buffer.borrow_mut();
        let result = entries.cut_sheet(&bytes, &mut *sheet);
        numbers(result, |relations| sheet[..2 * SHEET_SIDE * relations as usize].iter().map(|&byte| byte as u64).sum())
    };
    Case { group, name: name.into(), run: Box::new(run) }
}

/// The bytes of the held buffer that an accepted change has a part in, and the sheet, as one number.
fn sum_of(held: &[u8], sheet: &[u8], relations: u64) -> u64 {
    held[..PREFIX].iter().chain(&sheet[..2 * SHEET_SIDE * relations as usize]).map(|&byte| byte as u64).sum()
}

/// A held book as the loading of a book leaves it.
fn loaded(bytes: &[u8]) -> Vec<u8> {
    let mut held = vec![0; HELD];
    Fast.load(bytes, &mut held).expect("an accepted book");
    held
}

/// A change of a held book. Each run begins with the bytes that the loading left: only those that a change can write are put back.
fn change(group: &'static str, name: impl Into<String>, book: &Book, change: Change) -> Case {
    changing(group, name, book, move |entries, held, sheet| match &change {
        Change::Add { record, .. } => entries.add(held, record, sheet),
        Change::Withdraw { relation, .. } => entries.withdraw(held, *relation, sheet),
    })
}

/// The posting of a change's ticket, in the same way.
fn post(group: &'static str, name: impl Into<String>, book: &Book, change: Change) -> Case {
    let ticket = match &change {
        Change::Add { record, .. } => tickets::addition(0, record),
        Change::Withdraw { relation, .. } => tickets::withdrawal(0, 1, *relation as u16),
    };
    changing(group, name, book, move |entries, held, sheet| entries.post(held, &ticket, sheet))
}

/// What changes a held book.
fn changing<F>(group: &'static str, name: impl Into<String>, book: &Book, change: F) -> Case
where
    F: Fn(&dyn Entries, &mut [u8], &mut [u8]) -> Result<u64, Refused> + 'static,
{
    let bytes = book.bytes();
    let loaded = loaded(&bytes);
    let buffers = RefCell::new((loaded.clone(), [0; SHEET]));
    let run = move |entries: &dyn Entries| {
        let (held, sheet) = &mut *buffers.borrow_mut();
        let used = PREFIX + bytes.len();
        held[..used].copy_from_slice(&loaded[..used]);
        numbers(change(entries, held, sheet), |relations| sum_of(held, sheet, relations))
    };
    Case { group, name: name.into(), run: Box::new(run) }
}

/// The proposal of a change, which leaves the held book as it is.
fn propose(group: &'static str, name: impl Into<String>, book: &Book, change: Change) -> Case {
    let held = loaded(&book.bytes());
    let buffers = RefCell::new(([0; SHEET], [0; tickets::ROOM]));
    let run = move |entries: &dyn Entries| {
        let (sheet, ticket) = &mut *buffers.borrow_mut();
        let result = match &change {
            Change::Add { record, .. } => entries.propose_add(&held, record, sheet, ticket),
            Change::Withdraw { relation, .. } => entries.propose_withdraw(&held, *relation, sheet, ticket),
        };
        numbers(result, |relations| sum_of(&held, sheet, relations) + ticket.iter().map(|&byte| byte as u64).sum::<u64>())
    };
    Case { group, name: name.into(), run: Box::new(run) }
}

/// Document 01's book Q.
fn q() -> Book {
    Book::new(4, vec![vec![0, 1, 3, 2], vec![2, 0, 3, 1]])
}

/// The book's sides one after the other, up to n letters.
fn sides(book: &Book, n: usize) -> Vec<u8> {
    book.words.iter().flatten().copied().cycle().take(n).collect()
}

/// The same with every second side exchanged.
fn exchanged_sides(book: &Book, n: usize) -> Vec<u8> {
    let other = book.words.iter().enumerate().flat_map(|(i, word)| if i % 4 < 2 { &book.words[i ^ 1] } else { word });
    other.copied().cycle().take(n).collect()
}

const CHECKS: &str = "the check, full books: 32 relations of 64 and 64 letters";
const GROWTH_OF_CHECK: &str = "the check, by number of relations";
const SHEET_AND_ROUND: &str = "the cut sheet and the single round";
const COMPARISONS: &str = "the comparison alone: many in one input, or far more rounds than letters";
const CALLS: &str = "the comparison as one call, which checks its book";
const GROWTH_BY_LENGTH: &str = "the comparison, by length of words";
const GROWTH_BY_RELATIONS: &str = "the comparison, by number of relations";
const FAMILIES: &str = "relations that share a word: a family of 33 beside 32 pairs, words of 20 and their random exchanges";
const QUIET: &str = "the worst of families: row 4, 32 other members, nothing active";
const CHANGES: &str = "changes of a held book, beside the check of the new book";
const TICKETS: &str = "tickets of a held book, beside the check of the new book";
const LEASTS: &str = "the least word as one call, which checks its book";
const GROWTH_OF_LEAST: &str = "the least word, by length of words";
const FRONTS: &str = "the front as one call, beside the least word of the same word, and that beside the check";
const GROWTH_OF_FRONT: &str = "the front, by length of words";
const PROGRAM: &str = "the program on 60,000 bytes";

pub fn all() -> Vec<Case> {
    let mut chance = Chance::new(2_026);
    let mut all = Vec::new();
    checks(&mut all, &mut chance);
    sheet_and_round(&mut all, &mut chance);
    comparisons(&mut all, &mut chance);
    growth(&mut all, &mut chance);
    families(&mut all, &mut chance);
    least_words(&mut all, &mut chance);
    programs(&mut all, &mut chance);
    changes(&mut all, &mut chance);
    fronts(&mut all, &mut chance);
    all
}

fn checks(all: &mut Vec<Case>, chance: &mut Chance) {
    all.push(check(CHECKS, "random, 64 letters", &books::full_random(chance, 64)));
    all.push(check(CHECKS, "random, 3 letters", &books::full_random(chance, 3)));
    all.push(check(CHECKS, "random, 2 letters", &books::full_random(chance, 2)));
    all.push(check(CHECKS, "periodic, period 1", &books::full_periodic(&[0])));
    all.push(check(CHECKS, "periodic, period 5", &books::full_periodic(&[0, 1, 0, 0, 1])));
    all.push(check(CHECKS, "a front of 60 letters shared by all", &books::full_shared_fronts(chance)));
    all.push(check(CHECKS, "long middles", &books::long_middles(chance)));
    for relations in [1, 2, 4, 8, 16, 32] {
        all.push(check(GROWTH_OF_CHECK, format!("{relations} relations of 64 and 64 letters"), &books::long_random(chance, relations)));
    }
    all.push(check(GROWTH_OF_CHECK, "1 relation, sides alike but for their last letters", &books::longest_search()));
    all.push(check(GROWTH_OF_CHECK, "book Q", &q()));
}

fn sheet_and_round(all: &mut Vec<Case>, chance: &mut Chance) {
    let book = books::full_random(chance, 64);
    for (name, book) in [("a full random book", &book), ("a full book of 64 pieces a side", &books::full_letter_by_letter()), ("book Q", &q())] {
        all.push(check(SHEET_AND_ROUND, format!("for measure: the check of {name} alone"), book));
        all.push(sheet(SHEET_AND_ROUND, format!("cut sheet of {name}"), book));
    }
    for (name, book) in [("a full random book", book), ("book Q", q())] {
        let word = sides(&book, 4_160);
        all.push(round(SHEET_AND_ROUND, format!("one round under {name}, words of 4,160"), &book, word.clone(), word));
    }
}

fn comparisons(all: &mut Vec<Case>, chance: &mut Chance) {
    let most = books::most_rounds();
    let word = books::most_rounds_word(4_096);
    all.push(compare_many(COMPARISONS, "most rounds: 262,144 from words of 4,096", &most, &word, &word, 7));
    let periodic = books::full_periodic(&[0]);
    let word = sides(&periodic, 4_096);
    all.push(compare_many(COMPARISONS, "longest overlaps: sides of period 1, equal words of 4,096", &periodic, &word, &word, 7));
    let other = exchanged_sides(&periodic, 4_096);
    all.push(compare_many(COMPARISONS, "longest overlaps: sides of period 1, exchanged", &periodic, &word, &other, 7));
    let zeros = vec![0; 4_096];
    all.push(compare_many(COMPARISONS, "longest overlaps: one letter over and over, no front", &periodic, &zeros, &zeros, 7));
    let fronts = books::full_shared_fronts(chance);
    let word = sides(&fronts, 4_096);
    let other = exchanged_sides(&fronts, 4_096);
    all.push(compare_many(COMPARISONS, "sides that share a front of 60, exchanged", &fronts, &word, &other, 7));
    let random = books::full_random(chance, 64);
    let (word, other) = (sides(&random, 4_096), exchanged_sides(&random, 4_096));
    all.push(compare_many(COMPARISONS, "random sides, exchanged", &random, &word, &other, 7));
    let (word, other) = (sides(&q(), 4_096), exchanged_sides(&q(), 4_096));
    all.push(compare_many(COMPARISONS, "book Q, sides exchanged", &q(), &word, &other, 7));

    let word = books::most_rounds_word(4_096);
    all.push(compare(CALLS, "most rounds", &most, word.clone(), word));
    let (word, other) = (sides(&periodic, 4_096), exchanged_sides(&periodic, 4_096));
    all.push(compare(CALLS, "longest overlaps, words of 4,096", &periodic, word, other));
    all.push(compare(CALLS, "book Q, words of 4", &q(), vec![0, 1, 3, 2], vec![2, 0, 3, 1]));
}

fn growth(all: &mut Vec<Case>, chance: &mut Chance) {
    let most = books::most_rounds();
    let periodic = books::full_periodic(&[0]);
    for n in [64, 256, 1_024, 4_096] {
        let word = books::most_rounds_word(n);
        all.push(compare_many(GROWTH_BY_LENGTH, format!("most rounds, {n} letters"), &most, &word, &word, 7));
        let (word, other) = (sides(&periodic, n), exchanged_sides(&periodic, n));
        all.push(compare_many(GROWTH_BY_LENGTH, format!("longest overlaps, {n} letters"), &periodic, &word, &other, 7));
    }
    for relations in [1, 2, 4, 8, 16, 32] {
        let book = books::long_random(chance, relations);
        let (word, other) = (sides(&book, 4_096), exchanged_sides(&book, 4_096));
        all.push(compare_many(GROWTH_BY_RELATIONS, format!("{relations} relations, words of 4,096"), &book, &word, &other, 7));
    }
}

/// A family of 33 and pairs under the same words: the check, a round, comparisons, the least word; and the worst that a family can do to row 4.
fn families(all: &mut Vec<Case>, chance: &mut Chance) {
    let kinds = [
        ("32 pairs", shared::random_pairs(chance, 20)),
        ("33 in a chain", shared::random_family(chance, 20, shared::Shape::Chain)),
        ("33 in a star", shared::random_family(chance, 20, shared::Shape::Star)),
        ("33 in a tree", shared::random_family(chance, 20, shared::Shape::Tree)),
    ];
    for (name, book) in &kinds {
        let word = sides(book, 4_000);
        let [u, v] = [(); 2].map(|_| words::exchanged(chance, book, &word, 2_000, 4_096));
        all.push(check(FAMILIES, format!("for measure: the check alone, {name}"), book));
        all.push(round(FAMILIES, format!("one round, {name}"), book, u.clone(), v.clone()));
        all.push(compare_many(FAMILIES, format!("comparison of 4,000, {name}"), book, &u, &v, 7));
        all.push(least(FAMILIES, format!("least word of 4,000, {name}"), book, u));
    }
    let tails = shared::quiet_tails(chance);
    let letters = vec![shared::QUIET_LETTER; 4_096];
    all.push(check(QUIET, "for measure: the check alone, tails of 63", &tails));
    all.push(round(QUIET, "one round, tails of 63, words of 4,096", &tails, letters.clone(), letters.clone()));
    for n in [64, 4_096] {
        all.push(compare_many(QUIET, format!("tails of 63, a member of one letter {n} times"), &tails, &letters[..n], &letters[..n], 7));
    }
    all.push(compare_many(QUIET, "tails of 63, members of 64, 4,096 letters", &tails, &long_members(&tails), &long_members(&tails), 7));
    all.push(least(QUIET, "least word, tails of 63, a member of one letter 4,096 times", &tails, letters));
    let overlaps = shared::quiet_overlaps(chance);
    let letters: Vec<u8> = [shared::QUIET_LETTER, shared::STRANGE_LETTER].repeat(2_048);
    all.push(check(QUIET, "for measure: the check alone, tails of period 1", &overlaps));
    for n in [64, 4_096] {
        all.push(compare_many(QUIET, format!("tails of period 1, a member of one letter, {n} letters"), &overlaps, &letters[..n], &letters[..n], 7));
    }
    all.push(least(QUIET, "least word, tails of period 1, 4,096 letters", &overlaps, letters));
}

/// The members of 64 letters one after the other, 4,096 letters.
fn long_members(book: &Book) -> Vec<u8> {
    book.words.iter().filter(|word| word.len() == 64).flatten().copied().cycle().take(4_096).collect()
}

fn least_words(all: &mut Vec<Case>, chance: &mut Chance) {
    all.push(least(LEASTS, "book Q, a word of 4", &q(), vec![2, 0, 3, 1]));
    all.push(least(LEASTS, "book Q, sides one after the other, 4,096 letters", &q(), sides(&q(), 4_096)));
    all.push(least(LEASTS, "the longest: 262,144 letters from 4,096", &books::longest_least(), vec![books::LONGEST_LEAST_LETTER; 4_096]));
    all.push(least(LEASTS, "ad = de among 32 relations, a repeated 4,096 times", &books::far_sight(), vec![books::FAR_SIGHT_LETTER; 4_096]));
    let most = books::most_rounds();
    all.push(least(LEASTS, "the letters of most rounds, 4,096", &most, books::most_rounds_word(4_096)));
    all.push(least(LEASTS, "the sides of most rounds, 4,096 letters", &most, sides(&most, 4_096)));
    let periodic = books::full_periodic(&[0]);
    all.push(least(LEASTS, "longest overlaps: sides of period 1, 4,096 letters", &periodic, sides(&periodic, 4_096)));
    let random = books::full_random(chance, 64);
    all.push(least(LEASTS, "random sides, 4,096 letters", &random, sides(&random, 4_096)));
    all.push(check(GROWTH_OF_LEAST, "for measure: the check of ad = de among 32 relations alone", &books::far_sight()));
    for n in [64, 256, 1_024, 4_096] {
        all.push(least(
            GROWTH_OF_LEAST,
            format!("ad = de among 32 relations, a repeated {n} times"),
            &books::far_sight(),
            vec![books::FAR_SIGHT_LETTER; n],
        ));
    }
    for n in [64, 256, 1_024, 4_096] {
        let word = vec![books::LONGEST_LEAST_LETTER; n];
        all.push(least(GROWTH_OF_LEAST, format!("the longest: {} letters from {n}", 64 * n), &books::longest_least(), word));
    }
}

fn programs(all: &mut Vec<Case>, chance: &mut Chance) {
    let full = books::full_random(chance, 64);
    all.push(check(PROGRAM, "for measure: the check of a full random book alone", &full));
    let mut input = full.bytes();
    while input.len() < 59_900 {
        let (u, v) = words::pair(chance, &full, 8);
        input.extend(inputs::question(u32::MAX, &u, &v));
    }
    all.push(program(PROGRAM, "that book, thousands of comparisons of up to 8 letters", input));
    let empty = inputs::question(0, &[], &[]);
    let input = [books::head(64), empty.repeat(59_995 / empty.len())].concat();
    all.push(program(PROGRAM, "no relations, 4,999 comparisons of empty words", input));
    let stranger = inputs::question(0, &[], &[255]);
    let input = [books::head(64), stranger.repeat(59_995 / stranger.len())].concat();
    all.push(program(PROGRAM, "no relations, 4,615 strangers: the longest output", input));
    all.push(program(PROGRAM, "60,001 bytes, refused by 13", vec![0; 60_001]));
}

/// A change by its name, with the book before it and the one after it.
struct Step {
    name: &'static str,
    old: Book,
    change: Change,
    new: Book,
}

impl Step {
    /// The last relation of a book is added to the others.
    fn adding(name: &'static str, new: Book) -> Step {
        let (old, last) = new.words.split_at(new.words.len() - 2);
        let change = Change::Add { record: books::rule(&last[0], &last[1]), size: SHEET };
        Step { name, old: Book::new(new.letters, old.to_vec()), change, new }
    }

    /// A relation of a book is withdrawn.
    fn withdrawing(name: &'static str, old: Book, relation: usize) -> Step {
        let words = [&old.words[..2 * relation], &old.words[2 * relation + 2..]].concat();
        Step { name, change: Change::Withdraw { relation, size: SHEET }, new: Book::new(old.letters, words), old }
    }
}

/// A change is to cost one check of the new book and a move of its bytes, whether it is made or posted; a proposal one check.
fn changes(all: &mut Vec<Case>, chance: &mut Chance) {
    let random = books::full_random(chance, 64);
    let twice_q = Book::new(4, [q().words, q().words].concat());
    let pairs = Book::new(64, (0..64).map(|letter| vec![letter]).collect());
    let steps = [
        Step::adding("add to a full book less one", random.clone()),
        Step::withdrawing("withdraw from a full book", random, 15),
        Step::adding("add to book Q", twice_q.clone()),
        Step::withdrawing("withdraw from book Q and itself again", twice_q, 0),
        Step::adding("add to 31 relations of 1 and 1 letter", pairs),
        Step::withdrawing("withdraw from a family of 33 in a chain", shared::random_family(chance, 64, shared::Shape::Chain), 15),
    ];
    for Step { name, old, change: step, new } in &steps {
        all.push(check(CHANGES, format!("check: {name}"), new));
        all.push(change(CHANGES, format!("change: {name}"), old, step.clone()));
    }
    for Step { name, old, change: step, new } in &steps {
        all.push(check(TICKETS, format!("check: proposal, {name}"), new));
        all.push(propose(TICKETS, format!("propose: proposal, {name}"), old, step.clone()));
        all.push(check(TICKETS, format!("check: posting, {name}"), new));
        all.push(post(TICKETS, format!("post: posting, {name}"), old, step.clone()));
    }
}

/// Under `far_sight`, letters that are exchanged one after the other from the last on, so that the word can begin with the piece d; and the piece.
fn far_front(n: usize) -> (Vec<u8>, Vec<u8>) {
    let d = books::far_sight().words[1][0];
    ([vec![books::FAR_SIGHT_LETTER; n - 1], vec![d]].concat(), vec![d])
}

/// A front is to cost a least word and little more; the worst kind is where whether there is one depends on the last letter of the word.
fn fronts(all: &mut Vec<Case>, chance: &mut Chance) {
    let (far, d) = far_front(4_096);
    let most = books::most_rounds();
    let tail = most.words[1][1..].to_vec();
    let longest = books::longest_least();
    let in_front = longest.words[1][1];
    let shared_fronts = books::full_shared_fronts(chance);
    let random = books::full_random(chance, 64);
    let family = shared::random_family(chance, 20, shared::Shape::Chain);
    let steps = [
        ("book Q, c off abdc", q(), vec![0, 1, 3, 2], vec![2]),
        ("book Q, c off 4,096 letters that begin with abdc", q(), sides(&q(), 4_096), vec![2]),
        ("262,080 letters behind one of 4,096", longest, [vec![in_front], vec![books::LONGEST_LEAST_LETTER; 4_095]].concat(), vec![in_front]),
        ("ad = de, d off a repeated 4,095 times and d", books::far_sight(), far, d.clone()),
        ("ad = de, d off a repeated 4,096 times: none", books::far_sight(), vec![books::FAR_SIGHT_LETTER; 4_096], d),
        ("63 letters off those of most rounds", most, [tail.clone(), books::most_rounds_word(4_033)].concat(), tail),
        ("60 letters that all sides begin with", shared_fronts.clone(), sides(&shared_fronts, 4_096), shared_fronts.words[1][..60].to_vec()),
        ("random sides, the other side's first letter", random.clone(), sides(&random, 4_096), random.words[1][..1].to_vec()),
        ("33 in a chain, the last one's first letter", family.clone(), sides(&family, 4_000), family.words[63][..1].to_vec()),
    ];
    for (name, book, word, piece) in steps {
        all.push(check(FRONTS, format!("check: {name}"), &book));
        all.push(least(FRONTS, format!("least: {name}"), &book, word.clone()));
        all.push(front(FRONTS, format!("front: {name}"), &book, word, piece));
    }
    for n in [64, 256, 1_024, 4_096] {
        let (word, piece) = far_front(n);
        all.push(front(GROWTH_OF_FRONT, format!("ad = de among 32 relations, d off {n} letters, d the last"), &books::far_sight(), word, piece));
    }
}
