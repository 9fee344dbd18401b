//! The rows that the command finds, against the reference's rows and the proved library's single round, on seeded books, runs and marks; and that the reason it gives is true.

mod support;

use cli::rows::{self, Outcome, Reason, Round, Word, Words};
use gen::{books, shared, words, Book, Chance};
use reference::rows::{clean_front, is_active, member_in_front, row, Next};
use reference::Accepted;
use support::Tally;

/// What makes books of one kind.
type Make = fn(&mut Chance) -> Book;

const KINDS: [Make; 10] = [
    books::any,
    books::few_letters,
    books::overlapping,
    books::linked,
    books::marked,
    books::tangled,
    shared::any,
    shared::linked,
    shared::apart,
    shared::large,
];

/// What a round begins with: u, v and the mark.
type State = [Vec<u8>; 3];

/// A book that is accepted: its bytes, what the reference makes of it, and what the command does.
struct Known {
    book: Book,
    bytes: Vec<u8>,
    accepted: Accepted,
    words: Words,
}

impl Known {
    /// None of a book that the reference refuses.
    fn new(book: Book) -> Option<Known> {
        let bytes = book.bytes();
        let accepted = reference::accept(&bytes).ok()?;
        let cuts = vanecitron::cut_sheet(&bytes).expect("a book that the reference accepts");
        let sides: Vec<&[u8]> = book.words.iter().map(|side| &side[..]).collect();
        let words = Words::new(&sides, &cuts);
        Some(Known { book, bytes, accepted, words })
    }

    /// A book of one kind.
    fn any(chance: &mut Chance, make: Make) -> Known {
        std::iter::repeat_with(|| Known::new(make(chance))).flatten().next().expect("some book is accepted")
    }
}

/// Runs that exchanges join, or nearly join, or runs made for one of the rows; and a mark.
fn state(chance: &mut Chance, known: &Known) -> State {
    let book = &known.book;
    if book.words.is_empty() || chance.once_in(2) {
        let (u, v) = words::pair(chance, book, 60);
        return [u, v, if chance.once_in(2) { Vec::new() } else { words::mark(chance, book) }];
    }
    if chance.once_in(6) {
        return halved(chance, known);
    }
    let cuts = known.accepted.sides.iter().map(|side| known.accepted.words.cut_of(side));
    let lengths: Vec<[usize; 3]> = cuts.map(|cut| [cut.x().len(), cut.y().len(), cut.z().len()]).collect();
    words::shaped(chance, book, &lengths)
}

/// Runs made for row 8: two words of one family, each without the last steps of its tail, often without those alone that both tails end with, and something behind.
fn halved(chance: &mut Chance, known: &Known) -> State {
    let words = &known.accepted.words;
    let one = chance.below(words.cuts.len());
    let other = *chance.pick(&words.families[one]);
    let tails = [one, other].map(|number| words.cuts[number].z());
    let common = tails[0].iter().rev().zip(tails[1].iter().rev()).take_while(|(a, b)| a == b).count();
    let begun = |chance: &mut Chance, number: usize| {
        let word = words.cuts[number].xyz();
        let tail = words.cuts[number].z().len();
        let gone = if chance.once_in(2) { common } else { chance.between(tail.min(1), tail) };
        [&word[..word.len() - gone], &words::of_sides(chance, &known.book, 6)].concat()
    };
    [begun(chance, one), begun(chance, other), Vec::new()]
}

/// One round in three ways: they agree, the reason is true, and what was met is counted. Gives what the round goes on with.
fn check_round(known: &Known, state: &State, tally: &mut Tally) -> Option<State> {
    let [u, v, p] = state;
    let found = known.words.round(&rows::State { u: u.clone(), v: v.clone(), p: p.clone() });
    let what = format!("{found:?} of {u:?}, {v:?}, {p:?} under {:?}", known.book);

    let (number, next) = row(&known.accepted.words, u, v, p);
    let expected = match next {
        Next::Same => Outcome::Same,
        Next::Different => Outcome::Different,
        Next::Go { u, v, p } => Outcome::Next(rows::State { u, v, p }),
    };
    assert_eq!((usize::from(found.row), &found.outcome), (number, &expected), "the reference: {what}");

    let proved = match vanecitron::round(&known.bytes, u, v, p).unwrap_or_else(|refusal| panic!("{refusal}: {what}")) {
        vanecitron::Round::Same => Outcome::Same,
        vanecitron::Round::Different => Outcome::Different,
        vanecitron::Round::Next { u, v, p } => Outcome::Next(rows::State { u, v, p }),
    };
    assert_eq!(found.outcome, proved, "the library: {what}");

    let kind = check_reason(known, state, &found).unwrap_or_else(|fault| panic!("{fault}: {what}"));
    tally.meet(format!("{number} {kind}"));
    match expected {
        Outcome::Next(rows::State { u, v, p }) => Some([u, v, p]),
        _ => None,
    }
}

/// The reason is the true one of its row and outcome; says which kind of round it is, or what is untrue.
fn check_reason(known: &Known, [u, v, p]: &State, found: &Round) -> Result<&'static str, &'static str> {
    let next = match &found.outcome {
        Outcome::Next(rows::State { u, v, p }) => Some([u, v, p]),
        _ => None,
    };
    let is = |row: u8, goes_on: bool| truth(found.row == row && next.is_some() == goes_on, "the reason is one of another row or outcome");
    match &found.reason {
        Reason::AllEmpty => {
            is(1, false)?;
            truth(found.outcome == Outcome::Same && u.is_empty() && v.is_empty() && p.is_empty(), "not all are empty")?;
            Ok("same")
        }
        Reason::OneEmpty => {
            is(1, false)?;
            match (u.is_empty(), v.is_empty(), p.is_empty()) {
                (true, true, false) => Ok("a mark is left"),
                (true, false, _) => Ok("u alone is empty"),
                (false, true, _) => Ok("v alone is empty"),
                _ => Err("neither is empty, or all are"),
            }
        }
        Reason::Dropped => {
            is(2, true)?;
            truth(clean_front(&known.accepted.words.cuts, u).is_none(), "u has a clean front")?;
            truth(v[0] == u[0] && p.first().is_none_or(|first| *first == u[0]), "another step goes")?;
            Ok(if p.is_empty() { "dropped without a mark" } else { "dropped with a mark" })
        }
        Reason::FirstStepsDiffer => {
            is(2, false)?;
            truth(clean_front(&known.accepted.words.cuts, u).is_none() && u[0] != v[0], "they begin alike")?;
            Ok("first steps differ")
        }
        Reason::MarkDiffers => {
            is(2, false)?;
            truth(clean_front(&known.accepted.words.cuts, u).is_none(), "u has a clean front")?;
            truth(u[0] == v[0] && p.first().is_some_and(|first| *first != u[0]), "the mark begins alike")?;
            Ok("the mark differs")
        }
        Reason::MarkMissing(word) => {
            is(3, false)?;
            let members = family(known, word)?;
            truth(is_clean(known, word, u) && !members.iter().any(|member| member.x().starts_with(p)), "the mark begins the X of a member")?;
            Ok("the mark is missing")
        }
        Reason::NoMember(word) => {
            is(3, false)?;
            let members = family(known, word)?;
            truth(is_clean(known, word, u) && members.iter().any(|member| member.x().starts_with(p)), "the mark begins no X")?;
            truth(!members.iter().any(|member| v.starts_with(member.xy())), "v begins with a member")?;
            Ok("no member")
        }
        Reason::Exchanged { of_u, of_v, to } => {
            truth((4..=7).contains(&found.row), "another row")?;
            let [next_u, next_v, next_p] = next.ok_or("it does not go on")?;
            check_members(known, [of_u, of_v], [u, v])?;
            truth(family(known, of_u)?.contains(to), "it becomes a word of another family")?;
            truth(behind_exchange(u, of_u, to).as_ref() == Some(next_u), "the exchange in u leaves something else")?;
            truth(behind_exchange(v, of_v, to).as_ref() == Some(next_v), "the exchange in v leaves something else")?;
            exchange_kind(known, found.row, [of_u, of_v, to], next_u, next_p)
        }
        Reason::Halved { of_u, of_v, from_u, from_v } => {
            is(8, true)?;
            let [next_u, next_v, next_p] = next.ok_or("it does not go on")?;
            check_members(known, [of_u, of_v], [u, v])?;
            truth([from_u, next_u].map(|part| &part[..]).concat() == *u, "what goes from u and what stays are not u")?;
            truth([from_v, next_v].map(|part| &part[..]).concat() == *v, "what goes from v and what stays are not v")?;
            truth([from_u, next_p].map(|part| &part[..]).concat() == of_u.steps, "what goes from u and the mark are not its word")?;
            truth([from_v, next_p].map(|part| &part[..]).concat() == of_v.steps, "what goes from v and the mark are not its word")?;
            truth(!next_p.is_empty() && of_u != of_v, "there is no mark")?;
            Ok("goes on")
        }
        Reason::RestsDiffer { of_u, of_v, rest_u, rest_v } => {
            is(8, false)?;
            check_members(known, [of_u, of_v], [u, v])?;
            check_halves(of_u.z(), of_v.z(), rest_u, rest_v)?;
            let goes_on = |run: &[u8], word: &Word, rest: &[u8]| run[word.xy().len()..].starts_with(rest);
            match (goes_on(u, of_u, rest_u), goes_on(v, of_v, rest_v)) {
                (true, true) => Err("both go on as their words do"),
                (false, true) => Ok("u goes on otherwise"),
                (true, false) => Ok("v goes on otherwise"),
                (false, false) => Ok("both go on otherwise"),
            }
        }
    }
}

fn truth(holds: bool, fault: &'static str) -> Result<(), &'static str> {
    holds.then_some(()).ok_or(fault)
}

/// The word is the one whose XY is a clean front of u.
fn is_clean(known: &Known, word: &Word, u: &[u8]) -> bool {
    let cuts = &known.accepted.words.cuts;
    clean_front(cuts, u).is_some_and(|number| cuts[number].xyz() == word.steps)
}

/// The number of a word among the reference's distinct words.
fn number_of(known: &Known, word: &Word) -> Result<usize, &'static str> {
    known.accepted.words.cuts.iter().position(|cut| cut.xyz() == word.steps).ok_or("the word is no side")
}

/// The members of a word's family, which are the reference's, in its order, and cut as it cuts them.
fn family<'a>(known: &'a Known, word: &'a Word) -> Result<Vec<&'a Word>, &'static str> {
    let members: Vec<&Word> = known.words.family(word).collect();
    let words = &known.accepted.words;
    let expected: Vec<_> = words.families[number_of(known, word)?].iter().map(|&number| &words.cuts[number]).collect();
    let agrees = |(member, cut): (&&Word, &&reference::pieces::Cut)| {
        member.steps == cut.xyz() && member.x() == cut.x() && member.xy() == cut.xy() && member.z() == cut.z()
    };
    truth(members.len() == expected.len() && members.iter().zip(&expected).all(agrees), "another family, or cut otherwise")?;
    Ok(members)
}

/// u begins cleanly with the XY of its word, and v with that of its own, which is of the same family.
fn check_members(known: &Known, [of_u, of_v]: [&Word; 2], [u, v]: [&[u8]; 2]) -> Result<(), &'static str> {
    truth(is_clean(known, of_u, u), "the word of u is another one")?;
    truth(family(known, of_u)?.contains(&of_v), "the word of v is of another family")?;
    let words = &known.accepted.words;
    let in_front = member_in_front(words, &words.families[number_of(known, of_u)?], v);
    truth(in_front == Some(number_of(known, of_v)?), "the word of v is another one")
}

/// What is left of a run once its word has become another, where it does, and that one's XY is taken off. None where it cannot be done.
fn behind_exchange(run: &[u8], from: &Word, to: &Word) -> Option<Vec<u8>> {
    let exchanged = if from == to { run.to_vec() } else { [&to.steps, run.strip_prefix(&from.steps[..])?].concat() };
    exchanged.strip_prefix(to.xy()).map(<[u8]>::to_vec)
}

/// Which kind of rows 4 to 7 it is. In row 4 the rest of u decides which tail is taken.
fn exchange_kind(known: &Known, row: u8, [of_u, of_v, to]: [&Word; 3], next_u: &[u8], next_p: &[u8]) -> Result<&'static str, &'static str> {
    truth(row == 5 || next_p.is_empty(), "a mark comes of no row but 5 and 8")?;
    match row {
        4 => {
            let rest = next_u.strip_prefix(to.z()).ok_or("the tail is not put back")?;
            let active = |word: &Word| is_active(&known.accepted.words.cuts, word.z(), rest);
            let others: Vec<&Word> = family(known, of_u)?.into_iter().filter(|member| *member != of_u).collect();
            match others.iter().position(|member| active(member)) {
                _ if active(of_u) => truth(to == of_u, "its own tail is active").and(Ok("own tail")),
                Some(0) => truth(to == others[0], "the first other is active").and(Ok("the first other is active")),
                Some(later) => truth(to == others[later], "a later other is active").and(Ok("a later other is active")),
                None if others.is_empty() => truth(to == of_u, "there is no other").and(Ok("no other")),
                None => truth(to == others[0], "none is active").and(Ok("the first other, not active")),
            }
        }
        5 => {
            truth(of_u == of_v && to == of_u, "an exchange in row 5")?;
            truth(next_p.is_empty() || next_p == of_u.z(), "the mark is not Z")?;
            Ok(if next_p.is_empty() { "no mark" } else { "the mark is Z" })
        }
        6 => truth(to == of_u && of_u != of_v, "row 6 exchanges in v alone").and(Ok("in v")),
        _ => truth(to == of_v && of_u != of_v, "row 7 exchanges in u alone").and(Ok("in u")),
    }
}

/// Two tails are these fronts, and behind each the longest end that they have in common.
fn check_halves(z: &[u8], z_: &[u8], e: &[u8], f: &[u8]) -> Result<(), &'static str> {
    let common = z.strip_prefix(e).ok_or("the rest of u is no front of its tail")?;
    truth(z_.strip_prefix(f) == Some(common), "the ends are not the same")?;
    truth(e.last() != f.last() || e.is_empty(), "a longer end is common")
}

#[test]
fn the_rows_are_those_of_the_reference_and_of_the_library() {
    let mut tally = Tally::default();
    for seed in 0..4_000 {
        let mut chance = Chance::new(seed);
        let known = Known::any(&mut chance, KINDS[seed as usize % KINDS.len()]);
        for _ in 0..6 {
            let mut state = state(&mut chance, &known);
            for _ in 0..10 {
                let Some(next) = check_round(&known, &state, &mut tally) else { break };
                state = next;
                if chance.once_in(6) {
                    state[2] = words::mark(&mut chance, &known.book);
                }
            }
        }
    }
    tally.expect(&[
        ("1 same", 1_000),
        ("1 a mark is left", 100),
        ("1 u alone is empty", 100),
        ("1 v alone is empty", 100),
        ("2 dropped without a mark", 1_000),
        ("2 dropped with a mark", 500),
        ("2 first steps differ", 500),
        ("2 the mark differs", 500),
        ("3 the mark is missing", 500),
        ("3 no member", 500),
        ("4 own tail", 500),
        ("4 the first other is active", 200),
        ("4 a later other is active", 200),
        ("4 the first other, not active", 500),
        ("4 no other", 100),
        ("5 no mark", 500),
        ("5 the mark is Z", 100),
        ("6 in v", 500),
        ("7 in u", 500),
        ("8 goes on", 200),
        ("8 u goes on otherwise", 20),
        ("8 v goes on otherwise", 20),
        ("8 both go on otherwise", 100),
    ]);
}

#[test]
fn the_rows_of_runs_at_their_limit() {
    let mut tally = Tally::default();
    for number in 0..books::AT_THE_LIMITS {
        let mut chance = Chance::new(number as u64);
        let known = Known::new(books::at_the_limits(&mut chance, number)).expect("books at the limits are accepted");
        let mut u = words::linked(&mut chance, &known.book, 8_000);
        u.resize(4_096, 0);
        let v = words::exchanged(&mut chance, &known.book, &u, 6, 4_096);
        let mut state = [u, v, Vec::new()];
        for _ in 0..12 {
            let Some(next) = check_round(&known, &state, &mut tally) else { break };
            tally.meet("goes on");
            state = next;
        }
    }
    let known = Known::new(books::most_rounds()).expect("accepted");
    let word = books::most_rounds_word(4_096);
    let next = check_round(&known, &[word.clone(), word, Vec::new()], &mut tally).expect("a round is due");
    assert_eq!(next.map(|run| run.len()), [4_158, 4_158, 0]);
    tally.expect(&[("goes on", 60)]);
}
