//! The command's answers are those of the library called on the bytes that the text stands for, with the places of the text; and `explain` tells of each line of the program's output what
//! that line is of.

mod support;

use std::path::Path;

use booktext::run_text;
use gen::fronts::Fronts;
use gen::{books, shared, words, Book, Chance};
use reference::rows::{row, Next};
use support::json::Json;
use support::texts::{bytes, spelled, written, written_runs, Question, Spots, Written};
use support::{call, directory, Called, Tally};
use vanecitron::{Comparison, Place, Refusal, Run};

/// What makes books of one kind.
type Make = fn(&mut Chance) -> Book;

const KINDS: [Make; 8] =
    [books::any, books::few_letters, books::linked, books::marked, books::overlapping, shared::any, shared::linked, shared::apart];

/// A book that is accepted.
fn accepted(chance: &mut Chance, make: Make) -> Book {
    std::iter::repeat_with(|| make(chance)).find(|book| vanecitron::check(&book.bytes()).is_ok()).expect("some book is accepted")
}

/// A file of a test, and its name.
fn file(directory: &Path, name: &str, content: &[u8]) -> String {
    let file = directory.join(name);
    std::fs::write(&file, content).expect("a file is written");
    file.to_str().expect("a name in characters").to_string()
}

/// The object is this refusal.
fn check_refused(called: &Called, object: &Json, refusal: Refusal, what: &str) {
    let numbers = (object["number"].number() as u32, object["place"].number() as u64);
    assert_eq!((called.status, object.answer(), numbers), (2, "refused", (refusal.reason.number(), refusal.place.number())), "{what}");
    assert_eq!(object["word"].text(), refusal.reason.word(), "{what}");
}

/// Where a refusal by 9 or 10 is: where the run begins, or its step at fault.
fn spot_of(place: Place, runs: [Option<&Spots>; 3]) -> Option<[usize; 2]> {
    match place {
        Place::Run(run) => runs[run as usize].map(|spots| spots.0),
        Place::Step { run, position } => runs[run as usize].map(|spots| spots.1[position]),
        _ => None,
    }
}

fn spot(object: &Json) -> Option<[usize; 2]> {
    Some([object.get("line")?.number(), object.get("column")?.number()])
}

/// An answer of the library, its status, and the line of the program.
fn compared(answer: Comparison) -> (&'static str, u64, u8) {
    match answer {
        Comparison::Same { rounds } => ("same", rounds, 0),
        Comparison::Different { rounds } => ("different", rounds, 1),
    }
}

#[test]
fn two_runs_are_compared_as_the_library_does() {
    let mut tally = Tally::default();
    let directory = directory("compared");
    for seed in 0..1_500 {
        let mut chance = Chance::new(seed);
        let book = KINDS[seed as usize % KINDS.len()](&mut chance);
        let text = written(&mut chance, &book, &[]).text;
        let Question { mut runs, allowance } = Question::any(&mut chance, &book, 40);
        if chance.once_in(20) {
            runs[chance.below(2)] = vec![0; chance.between(4_095, 4_098)];
        }
        let allowance = if chance.once_in(4) { chance.below(4) as u32 } else { allowance };
        let expected = vanecitron::compare(&book.bytes(), &runs[0], &runs[1], allowance);
        let limit = format!("--allowance={allowance}");

        // both runs as arguments, in a file, or on standard input; or the first as an argument and the second in a file
        let way = *chance.pick(&["arguments", "file", "standard input", "one and one"]);
        let in_file = if way == "one and one" { &runs[1..] } else { &runs };
        let (lines, spots) = written_runs(&mut chance, in_file);
        let items = runs.each_ref().map(|run| spelled(&mut chance, run));
        let called = match way {
            "arguments" => call(&["compare", "-", &items[0], "--json", &items[1], &limit], text.as_bytes()),
            "file" => call(&["compare", "-", "--json", &format!("@{}", file(&directory, "runs", lines.as_bytes())), &limit], text.as_bytes()),
            "one and one" => {
                call(&["compare", "-", "--json", &items[0], &format!("@{}", file(&directory, "runs", lines.as_bytes())), &limit], text.as_bytes())
            }
            _ => call(&["compare", "--json", &limit, &file(&directory, "book", text.as_bytes()), "@-"], lines.as_bytes()),
        };
        let object = called.object();
        let what = format!("seed {seed}: {object:?}");
        match expected {
            Ok(answer) => {
                let (name, rounds, status) = compared(answer);
                assert_eq!((called.status, object.answer(), object["rounds"].number() as u64), (status, name, rounds), "{what}");
                assert_eq!(
                    (object["u"].run(), object["v"].run(), object["allowance"].number()),
                    (runs[0].clone(), runs[1].clone(), allowance as usize),
                    "{what}"
                );
                tally.meet(name);
                tally.meet(format!("{name}, {way}"));
            }
            Err(refusal) => {
                check_refused(&called, &object, refusal, &what);
                let arguments = items.each_ref().map(|item| spots_in(item));
                let [u, v] = match way {
                    "arguments" => [(&arguments[0], false), (&arguments[1], false)],
                    "one and one" => [(&arguments[0], false), (&spots[0], true)],
                    _ => [(&spots[0], true), (&spots[1], true)],
                };
                check_place(&object, refusal, [u, v]);
                tally.meet(format!("refused {}", refusal.reason.number()));
            }
        }
        let plain = call(&["compare", "-", &items[0], &items[1], &limit], text.as_bytes());
        assert_eq!((plain.status, plain.faults()), (called.status, String::new()), "{what}");
        match object.answer() {
            "refused" => assert!(plain.text().contains(&format!("refused {} {}: ", object["number"].number(), object["place"].number())), "{what}"),
            answer => assert!(plain.text().starts_with(&format!("{answer}: ")) && plain.text().lines().count() == 1, "{what}"),
        }
    }
    tally.expect(&[
        ("same", 200),
        ("same, file", 50),
        ("same, standard input", 50),
        ("same, arguments", 50),
        ("same, one and one", 50),
        ("different", 200),
        ("refused 8", 100),
        ("refused 9", 10),
        ("refused 10", 50),
        ("refused 11", 100),
    ]);
}

/// A refusal by 9 or 10 names the run, and is told by the line and the column of its file, or by the argument and its column. Of each run it is given where it stands, and
/// whether that is in a file.
fn check_place(object: &Json, refusal: Refusal, [u, v]: [(&Spots, bool); 2]) {
    let Some([line, column]) = spot_of(refusal.place, [Some(u.0), Some(v.0), None]) else { return };
    let second = matches!(refusal.place, Place::Run(Run::V) | Place::Step { run: Run::V, .. });
    let (name, in_file) = if second { ("the second run", v.1) } else { ("the first run", u.1) };
    assert!(object["meaning"].text().starts_with(&format!("{name} has ")), "{object:?}");
    match in_file {
        true => assert_eq!(spot(object), Some([line, column]), "{object:?}"),
        false => assert_eq!((object["argument"].text(), object["column"].number()), (name, column), "{object:?}"),
    }
}

/// Where a run that is an argument begins, and where its steps do.
fn spots_in(item: &str) -> Spots {
    let column = |index: usize| [1, index + 1];
    let spots = match item {
        "-" => Vec::new(),
        _ if item.contains(|letter: char| letter.is_ascii_lowercase()) => (0..item.len()).map(column).collect(),
        _ => (0..item.len()).filter(|&at| at == 0 || item.as_bytes()[at - 1] == b'.').map(column).collect(),
    };
    (column(0), spots)
}

#[test]
fn least_runs_and_fronts_are_the_librarys() {
    let mut tally = Tally::default();
    for seed in 0..1_000 {
        let mut chance = Chance::new(seed);
        let book = accepted(&mut chance, KINDS[seed as usize % KINDS.len()]);
        let text = written(&mut chance, &book, &[]).text;
        let fronts = Fronts::new(&book);

        let runs: Vec<Vec<u8>> = (0..chance.between(1, 5)).map(|_| Question::any(&mut chance, &book, 30).runs[0].clone()).collect();
        let items: Vec<String> = runs.iter().map(|run| spelled(&mut chance, run)).collect();
        let arguments: Vec<&str> = ["least", "--json", "-"].into_iter().chain(items.iter().map(String::as_str)).collect();
        let called = call(&arguments, text.as_bytes());
        let objects = called.objects();
        assert_eq!(objects.len(), runs.len());
        let mut status = 0;
        for (object, run) in objects.iter().zip(&runs) {
            match vanecitron::least(&book.bytes(), run) {
                Ok(least) => {
                    assert_eq!(
                        (object.answer(), object["run"].run(), object["least"].run(), object["length"].number()),
                        ("least", run.clone(), least.clone(), least.len())
                    );
                    tally.meet("least");
                }
                Err(refusal) => {
                    check_refused(&called, object, refusal, &format!("{object:?}"));
                    status = 2;
                    tally.meet("least refused");
                }
            }
        }
        assert_eq!(called.status, status);

        let piece = fronts.any(&mut chance);
        let run = fronts.word(&mut chance, &piece, 30);
        let items = [&run, &piece].map(|run| spelled(&mut chance, run));
        let called = call(&["front", "-", &items[0], &items[1], "--json"], text.as_bytes());
        let object = called.object();
        match vanecitron::front(&book.bytes(), &run, &piece) {
            Ok(rest) => {
                assert_eq!(
                    (called.status, object.answer(), object["rest"].run(), object["length"].number()),
                    (0, "front", rest.clone(), rest.len()),
                    "seed {seed}"
                );
                tally.meet("front");
            }
            Err(refusal) => {
                check_refused(&called, &object, refusal, &format!("seed {seed}"));
                tally.meet(format!("front refused {}", refusal.reason.number()));
            }
        }
    }
    tally.expect(&[
        ("least", 1_000),
        ("least refused", 100),
        ("front", 300),
        ("front refused 9", 5),
        ("front refused 18", 50),
        ("front refused 19", 50),
    ]);
}

#[test]
fn traces_are_the_rows_of_the_reference_up_to_the_librarys_answer() {
    let mut tally = Tally::default();
    for seed in 0..500 {
        let mut chance = Chance::new(seed);
        let book = accepted(&mut chance, KINDS[seed as usize % KINDS.len()]);
        let text = written(&mut chance, &book, &[]).text;
        let (u, v) = words::pair(&mut chance, &book, 30);
        let items = [&u, &v].map(|run| spelled(&mut chance, run));
        let called = call(&["trace", "--json", "-", &items[0], &items[1]], text.as_bytes());
        let objects = called.objects();
        let (last, rounds) = objects.split_last().expect("an answer");
        let (name, count, status) = compared(vanecitron::compare(&book.bytes(), &u, &v, u32::MAX).expect("no refusal"));
        assert_eq!((called.status, last.answer(), last["rounds"].number() as u64), (status, name, count), "seed {seed}");
        assert_eq!((last["u"].run(), last["v"].run()), (u.clone(), v.clone()), "seed {seed}");
        assert_eq!(rounds.len() as u64, count + 1, "seed {seed}");

        let words = reference::accept(&book.bytes()).expect("accepted").words;
        let mut state = [u, v, Vec::new()];
        for (index, object) in rounds.iter().enumerate() {
            let what = format!("seed {seed}: {object:?}");
            let [u, v, p] = &state;
            let (number, next) = row(&words, u, v, p);
            assert_eq!([&object["u"].run(), &object["v"].run(), &object["p"].run()], [u, v, p], "{what}");
            assert_eq!(object["row"].number(), number, "{what}");
            let done = object["done"].text();
            assert!(!done.is_empty() && !done.contains("does not find"), "{what}");
            tally.meet(format!("row {number}"));
            match next {
                Next::Go { u, v, p } => {
                    assert_eq!((object.answer(), object["round"].number()), ("round", index + 1), "{what}");
                    if u.len().max(v.len()) <= 24 {
                        // runs that are short enough are shown whole
                        assert!(done.contains(&format!("; {} and {} stay", run_text(&u), run_text(&v))), "{what}");
                        tally.meet("what stays");
                    }
                    state = [u, v, p];
                }
                end => {
                    assert_eq!((object.answer(), object.get("round"), index + 1), ("end", None, rounds.len()), "{what}");
                    assert!(done.ends_with(if end == Next::Same { ": same" } else { ": different" }), "{what}");
                }
            }
        }

        let plain = call(&["trace", "-", &items[0], &items[1], "--width", "1000"], text.as_bytes());
        let plain_text = plain.text();
        let lines: Vec<&str> = plain_text.lines().collect();
        assert_eq!(
            (plain.status, lines.len()),
            (status, 1 + rounds.len() + 3),
            "seed {seed}: a head, the rounds, and a line between them and the answer"
        );
        assert!(lines[rounds.len() + 2].starts_with(&format!("{name}: ")), "seed {seed}");
    }
    tally.expect(&[
        ("row 1", 100),
        ("row 2", 500),
        ("row 3", 30),
        ("row 4", 200),
        ("row 5", 50),
        ("row 6", 10),
        ("row 7", 10),
        ("row 8", 10),
        ("what stays", 500),
    ]);
}

#[test]
fn the_comparisons_of_a_text_are_answered_and_explained_as_the_program_answers_them() {
    let mut tally = Tally::default();
    let directory = directory("program");
    for seed in 0..800 {
        let mut chance = Chance::new(seed);
        let make = KINDS[seed as usize % KINDS.len()];
        let book = if chance.once_in(4) { make(&mut chance) } else { accepted(&mut chance, make) };
        let mut questions: Vec<Question> = (0..chance.between(1, 6)).map(|_| Question::any(&mut chance, &book, 30)).collect();
        if chance.once_in(10) {
            questions.push(Question { runs: [vec![0], vec![0; 4_097]], allowance: 7 });
        }
        let written = written(&mut chance, &book, &questions);
        let output = String::from_utf8(vanecitron::program(&bytes(&book, &questions)).expect("there is room")).expect("lines");
        let called = call(&["compare", "--json", "-"], written.text.as_bytes());
        check_comparisons(&called, &output, &written, &questions, &mut tally);

        let file = file(&directory, "book.txt", written.text.as_bytes());
        let explained = call(&["explain", "--json", &file], output.as_bytes());
        assert_eq!(explained.status, 0);
        check_explained(&explained.objects(), &output, &written, &file, &mut tally);
    }
    tally.expect(&[
        ("book", 300),
        ("same", 200),
        ("different", 200),
        ("refused 8", 50),
        ("refused 9", 20),
        ("refused 10", 100),
        ("refused 11", 100),
        ("explained comparison", 1_000),
        ("explained place", 100),
    ]);
}

/// Each object is the line of its comparison.
fn check_comparisons(called: &Called, output: &str, written: &Written, questions: &[Question], tally: &mut Tally) {
    let objects = called.objects();
    let line = |object: &Json| match object.answer() {
        "refused" => format!("refused {} {}", object["number"].number(), object["place"].number()),
        answer => format!("{answer} {}", object["rounds"].number()),
    };
    let of_book = output.starts_with("book ");
    let expected: Vec<&str> = output.lines().skip(of_book.into()).collect();
    assert_eq!(objects.iter().map(line).collect::<Vec<_>>(), expected, "{}", written.text);
    let status = |line: &str| match line.split(' ').next() {
        Some("same") => 0,
        Some("different") => 1,
        _ => 2,
    };
    assert_eq!(called.status, expected.iter().map(|line| status(line)).max().unwrap_or(0), "{}", written.text);
    tally.meet(if of_book { "book".into() } else { format!("refused {}", objects[0]["number"].number()) });
    if !of_book {
        return;
    }
    for (index, object) in objects.iter().enumerate() {
        let [u, v] = &written.questions[index];
        assert_eq!(object["line"].number(), u.0[0], "{}", written.text);
        if object.answer() != "refused" {
            let question = &questions[index];
            assert_eq!([object["u"].run(), object["v"].run()], question.runs);
            assert_eq!(object["allowance"].number(), question.allowance as usize);
            tally.meet(object.answer());
            continue;
        }
        let refusal = refusal_of(expected[index]);
        assert_eq!(object.get("column").and(spot(object)), spot_of(refusal.place, [Some(u), Some(v), None]), "{}", written.text);
        tally.meet(format!("refused {}", refusal.reason.number()));
    }
}

/// The refusal of a line.
fn refusal_of(line: &str) -> Refusal {
    let numbers: Vec<u64> = line.split(' ').skip(1).map(|number| number.parse().expect("a number")).collect();
    let reason = vanecitron::Reason::from_number(numbers[0] as u32);
    Refusal { reason, place: Place::from_number(reason, numbers[1]) }
}

/// Each line of the output has its explanation, of its own comparison and of no other, with the place in the text.
fn check_explained(objects: &[Json], output: &str, written: &Written, file: &str, tally: &mut Tally) {
    let lines: Vec<&str> = output.lines().collect();
    assert_eq!(objects.iter().map(|object| object["line"].text()).collect::<Vec<_>>(), lines);
    for (index, object) in objects.iter().enumerate() {
        let meaning = object["meaning"].text();
        let what = format!("{:?}: {meaning}", lines[index]);
        if !output.starts_with("book ") || index == 0 {
            assert!(!meaning.contains("comparison"), "{what}");
            continue;
        }
        let [u, v] = &written.questions[index - 1];
        let of = format!("comparison {index} on line {}: ", u.0[0]);
        assert!(meaning.starts_with(&of) && !meaning[of.len()..].contains("comparison"), "{what}");
        tally.meet("explained comparison");
        let says = match lines[index].split(' ').next() {
            Some("same") => "a chain of exchanges joins the two runs",
            Some("different") => "no chain of exchanges, however long, joins the two runs",
            _ => refusal_of(lines[index]).reason.word(),
        };
        assert!(meaning[of.len()..].starts_with(says), "{what}");
        if lines[index].starts_with("refused") {
            if let Some([line, column]) = spot_of(refusal_of(lines[index]).place, [Some(u), Some(v), None]) {
                assert!(meaning.ends_with(&format!(" ({file}:{line}:{column})")), "{what}");
                tally.meet("explained place");
            }
        }
    }
}

#[test]
fn texts_become_their_bytes_and_bytes_their_texts() {
    let directory = directory("bytes");
    for seed in 0..400 {
        let mut chance = Chance::new(seed);
        let book = KINDS[seed as usize % KINDS.len()](&mut chance);
        let questions: Vec<Question> = (0..chance.below(4)).map(|_| Question::any(&mut chance, &book, 30)).collect();
        let text = written(&mut chance, &book, &questions).text;
        let expected = bytes(&book, &questions);

        let called = call(&["encode", "-"], text.as_bytes());
        assert_eq!((called.status, &called.output), (0, &expected), "{text}");
        let object = call(&["encode", "--json", "-"], text.as_bytes()).object();
        let digits: String = expected.iter().map(|byte| format!("{byte:02x}")).collect();
        assert_eq!((object["length"].number(), object["bytes"].text()), (expected.len(), &digits[..]), "{text}");
        let file = directory.join("made");
        let made = call(&["encode".as_ref(), "-".as_ref(), "-o".as_ref(), file.as_os_str()], text.as_bytes());
        assert_eq!((made.status, made.output, std::fs::read(&file).expect("a file")), (0, Vec::new(), expected.clone()), "{text}");

        let decoded = call(&["decode", "-"], &expected);
        assert_eq!((decoded.status, call(&["encode", "-"], &decoded.output).output), (0, expected.clone()), "{text}");
        assert_eq!(decoded.text().lines().count(), 1 + book.words.len() / 2 + questions.len(), "{text}");
        assert_eq!(call(&["decode", "--json", "-"], &expected).object()["text"].text(), decoded.text(), "{text}");
    }
}

#[test]
fn a_book_that_is_refused_is_told_where_its_fault_stands() {
    let mut tally = Tally::default();
    for seed in 0..1_500 {
        let mut chance = Chance::new(seed);
        let book = spoiled(&mut chance);
        let written = written(&mut chance, &book, &[]);
        let Err(refusal) = vanecitron::check(&book.bytes()) else { continue };
        if refusal.reason.number() == 8 {
            continue;
        }
        let called = call(&["check", "--json", "-"], written.text.as_bytes());
        let object = called.object();
        let what = format!("{object:?}: {}", written.text);
        check_refused(&called, &object, refusal, &what);
        let (kind, expected) = fault(&book, &written, refusal);
        assert_eq!((object["file"].text(), spot(&object)), ("standard input", Some(expected)), "{kind}: {what}");
        tally.meet(kind);
    }
    tally.expect(&[
        ("letters", 100),
        ("an empty left side", 20),
        ("an empty right side", 20),
        ("a long left side", 20),
        ("a long right side", 20),
        ("an unknown step on the left", 50),
        ("an unknown step on the right", 50),
        ("a rule too many", 50),
    ]);
}

/// A book with a fault, or several: too few or too many letters, sides without steps or with too many, unknown steps, a rule too many.
fn spoiled(chance: &mut Chance) -> Book {
    let mut book = books::any(chance);
    if book.words.is_empty() {
        book.words = vec![vec![0], vec![0]];
    }
    for _ in 0..*chance.pick(&[1, 1, 1, 2]) {
        let side = chance.below(book.words.len());
        match chance.below(5) {
            0 => book.letters = *chance.pick(&[0, 65, 70, 255]),
            1 => book.words[side] = Vec::new(),
            2 => book.words[side] = vec![0; *chance.pick(&[65, 66, 100, 254])],
            3 => {
                let at = chance.below(book.words[side].len() + 1);
                book.words[side].insert(at, chance.between(book.letters.into(), 255) as u8);
            }
            _ => {
                let rule = [book.words[side].clone(), book.words[side].clone()];
                let rules = chance.between(32, 35);
                while book.words.len() < 2 * rules {
                    book.words.extend(rule.clone());
                }
            }
        }
    }
    book
}

/// Which fault a refusal by 4, 5 or 6 is of, and where it stands: the first in the record that it names.
fn fault(book: &Book, written: &Written, refusal: Refusal) -> (&'static str, [usize; 2]) {
    // the bytes of the head and of each rule before the one that is refused
    let sizes = book.words.chunks(2).scan(5, |at, rule| {
        let begins = *at;
        *at += 6 + rule[0].len() + rule[1].len();
        Some(begins as u64)
    });
    let place = refusal.place.number();
    let Some(rule) = sizes.collect::<Vec<_>>().iter().position(|&begins| begins == place) else {
        assert_eq!((refusal.reason.number(), place), (4, 0), "{book:?}");
        return ("letters", written.head);
    };
    let [left, right] = [2 * rule, 2 * rule + 1];
    let out_of_range = |side: usize| !(1..=64).contains(&book.words[side].len());
    let unknown = |side: usize| book.words[side].iter().position(|&code| code >= book.letters);
    match refusal.reason.number() {
        4 if book.words[left].is_empty() => ("an empty left side", written.sides[left].0),
        4 if out_of_range(left) => ("a long left side", written.sides[left].0),
        4 if book.words[right].is_empty() => ("an empty right side", written.sides[right].0),
        4 => ("a long right side", written.sides[right].0),
        5 => match (unknown(left), unknown(right)) {
            (Some(position), _) => ("an unknown step on the left", written.sides[left].1[position]),
            (None, Some(position)) => ("an unknown step on the right", written.sides[right].1[position]),
            _ => panic!("{refusal} of {book:?}"),
        },
        6 => ("a rule too many", written.sides[left].0),
        other => panic!("refused by {other}: {book:?}"),
    }
}
