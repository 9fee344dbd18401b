//! What the command finds of pieces, as its objects tell it: which make a side up, which step stands nowhere else, and where else each piece of a loose side stands. The
//! number of pieces is the library's and the reference's; the places are counted here.

mod support;

use std::collections::HashSet;

use gen::fronts::Fronts;
use gen::{books, shared, Book, Chance};
use reference::pieces::{fewest_pieces, first_loose, pieces};
use support::json::Json;
use support::texts::{spelled, written, Written};
use support::{call, Tally};

/// What makes books of one kind.
type Make = fn(&mut Chance) -> Book;

const KINDS: [Make; 9] = [
    books::any,
    books::of_many_numbers,
    books::of_three_parts,
    books::small,
    books::marked,
    books::overlapping,
    shared::any,
    shared::loose,
    shared::small,
];

/// The distinct sides, each by its lowest number.
fn distinct(book: &Book) -> Vec<(usize, &[u8])> {
    let is_new = |side: &usize| !book.words[..*side].contains(&book.words[*side]);
    (0..book.words.len()).filter(is_new).map(|side| (side, &book.words[side][..])).collect()
}

/// All places of a run in the distinct sides: side and position.
fn places(book: &Book, run: &[u8]) -> Vec<(usize, usize)> {
    let of = |(number, side): (usize, &[u8])| -> Vec<(usize, usize)> {
        (0..side.len()).filter(|&at| side[at..].starts_with(run)).map(|at| (number, at)).collect()
    };
    distinct(book).into_iter().flat_map(of).collect()
}

/// The line and the column of an object.
fn spot(object: &Json) -> [usize; 2] {
    [object["line"].number(), object["column"].number()]
}

/// An accepted book: every side with its place, its cut and its number, and what it is made of, or a step that stands nowhere else.
fn check_accepted(book: &Book, written: &Written, object: &Json, tally: &mut Tally) {
    let accepted = reference::accept(&book.bytes()).unwrap_or_else(|refusal| panic!("{refusal:?} of {book:?}"));
    let cuts = vanecitron::cut_sheet(&book.bytes()).expect("accepted");
    let found = pieces(&book.words);
    let k = cuts.iter().map(|cut| usize::from(cut.z)).max().unwrap_or(0);
    assert_eq!([object["rules"].number(), object["letters"].number()], [book.words.len() / 2, book.letters.into()], "{book:?}");
    assert_eq!([object["k"].number(), object["allowance"].number()], [k, (k + 1) * 4_096], "{book:?}");
    let sides = object["sides"].list();
    assert_eq!(sides.len(), book.words.len());
    for (number, side) in sides.iter().enumerate() {
        let what = format!("{side:?} of {book:?}");
        let steps = &book.words[number];
        assert_eq!((side["side"].number(), &side["run"].run(), spot(side)), (number, steps, written.sides[number].0), "{what}");
        let numbers = ["x", "y", "z", "pieces"].map(|key| side[key].number() as u8);
        assert_eq!(numbers, accepted.sheet()[4 * number..][..4], "{what}");
        match (side.get("made_of"), side.get("alone")) {
            (Some(made_of), None) => {
                let parts: Vec<Vec<u8>> = made_of.list().iter().map(Json::run).collect();
                assert_eq!(parts.concat(), *steps, "{what}");
                assert_eq!((parts.len(), Some(parts.len())), (cuts[number].pieces.number().into(), fewest_pieces(steps, &found)), "{what}");
                assert!(parts.iter().all(|part| !part.is_empty() && found.contains(&part[..])), "{what}");
                tally.meet(if parts.len() == 4 { "made of 4" } else { "made of more" });
            }
            (None, Some(alone)) => {
                let code = alone.number() as u8;
                let stand: usize = distinct(book).iter().map(|(_, side)| side.iter().filter(|&&step| step == code).count()).sum();
                assert!(stand == 1 && steps.contains(&code), "{what}");
                assert_eq!((cuts[number].pieces.number(), fewest_pieces(steps, &found)), (255, None), "{what}");
                tally.meet("alone");
                if steps.iter().position(|&step| step == code) != Some(0) {
                    tally.meet("alone behind others");
                }
            }
            _ => panic!("what it is made of, or what stands alone, and not both: {what}"),
        }
    }
}

/// A loose book: the pieces make the side up, as few as can be, and of each just those places are told where else it stands, with line and column.
fn check_loose(book: &Book, written: &Written, object: &Json, tally: &mut Tally) {
    let what = format!("{object:?} of {book:?}");
    let found = pieces(&book.words);
    let side = first_loose(&book.words, &found).expect("a loose side");
    let steps = &book.words[side];
    assert_eq!([object["number"].number(), object["place"].number(), object["side"].number()], [8, side, side], "{what}");
    assert_eq!(spot(object), written.sides[side].0, "{what}");
    let parts = object["pieces"].list();
    assert_eq!(Some(parts.len()), fewest_pieces(steps, &found), "{what}");
    assert!((1..=3).contains(&parts.len()), "{what}");
    let mut at = 0;
    for part in parts {
        let piece = part["piece"].run();
        assert_eq!(part["position"].number(), at, "{what}");
        assert!(!piece.is_empty() && steps[at..].starts_with(&piece), "{what}");
        let elsewhere: Vec<(usize, usize)> =
            part["elsewhere"].list().iter().map(|place| (place["side"].number(), place["position"].number())).collect();
        let expected: Vec<(usize, usize)> = places(book, &piece).into_iter().filter(|place| *place != (side, at)).collect();
        assert!(!expected.is_empty(), "{what}");
        assert_eq!(HashSet::<_>::from_iter(&elsewhere), HashSet::from_iter(&expected), "{what}");
        assert_eq!(elsewhere.len(), expected.len(), "{what}");
        for (place, (side, position)) in part["elsewhere"].list().iter().zip(&elsewhere) {
            assert_eq!(spot(place), written.sides[*side].1[*position], "{what}");
            check_step(&written.text, spot(place), piece[0]);
        }
        tally.meet(if elsewhere.iter().any(|(other, _)| *other == side) { "elsewhere in the side itself" } else { "elsewhere in other sides" });
        if elsewhere.len() > 3 {
            tally.meet("at many places");
        }
        at += piece.len();
    }
    assert_eq!(at, steps.len(), "{what}");
    tally.meet(format!("loose by {}", parts.len()));
    if side > 1 {
        tally.meet("a later rule is loose");
    }
}

/// The step stands at a line and a column of the text.
fn check_step(text: &str, [line, column]: [usize; 2], step: u8) {
    let line = text.strip_prefix('\u{feff}').unwrap_or(text).split('\n').nth(line - 1).expect("such a line");
    let rest: String = line.chars().skip(column - 1).collect();
    let digits: String = rest.chars().take_while(char::is_ascii_digit).collect();
    let stands = match digits.parse::<u8>() {
        Ok(code) => code == step,
        Err(_) => rest.starts_with(char::from(b'a' + step)),
    };
    assert!(stands, "{step} is not what {rest:?} begins with");
}

#[test]
fn where_a_run_stands_that_is_no_piece() {
    let mut tally = Tally::default();
    for seed in 0..1_000 {
        let mut chance = Chance::new(seed);
        let book = KINDS[seed as usize % KINDS.len()](&mut chance);
        if vanecitron::check(&book.bytes()).is_err() {
            continue;
        }
        let written = written(&mut chance, &book, &[]);
        let fronts = Fronts::new(&book);
        for _ in 0..4 {
            let piece = fronts.any(&mut chance);
            let run = fronts.word(&mut chance, &piece, 20);
            let [run, item] = [&run, &piece].map(|run| spelled(&mut chance, run));
            let object = call(&["front", "--json", "-", &run, &item], written.text.as_bytes()).object();
            if object.get("number") != Some(&Json::Number(18)) {
                continue;
            }
            let stands = match places(&book, &piece)[..] {
                [] => "in no side".to_string(),
                [(side, position)] => {
                    let [line, column] = written.sides[side].1[position];
                    format!("in rule {}, {} side (at {line}:{column}) alone", side / 2 + 1, ["left", "right"][side % 2])
                }
                _ => panic!("{piece:?} is a piece of {book:?}"),
            };
            assert!(object["meaning"].text().ends_with(&format!("This command finds it {stands}")), "{object:?} of {piece:?} under {book:?}");
            tally.meet(if stands == "in no side" { "nowhere" } else { "at one place" });
        }
    }
    tally.expect(&[("nowhere", 100), ("at one place", 100)]);
}

#[test]
fn what_sides_are_made_of_and_where_else_pieces_stand() {
    let mut tally = Tally::default();
    for seed in 0..1_800 {
        let mut chance = Chance::new(seed);
        let book = KINDS[seed as usize % KINDS.len()](&mut chance);
        let written = written(&mut chance, &book, &[]);
        let called = call(&["check", "--json", "-"], written.text.as_bytes());
        let object = called.object();
        match object.answer() {
            "accepted" => {
                assert_eq!((called.status, vanecitron::check(&book.bytes())), (0, Ok(book.words.len() / 2)), "{book:?}");
                check_accepted(&book, &written, &object, &mut tally);
                tally.meet("accepted");
                let sheet = call(&["sheet", "-", "--json"], written.text.as_bytes()).object();
                assert_eq!((sheet.answer(), &sheet["sides"]), ("sheet", &object["sides"]), "{book:?}");
            }
            "refused" => {
                let refusal = vanecitron::check(&book.bytes()).expect_err("a book that the command refuses");
                assert_eq!((called.status, refusal.reason.number(), refusal.place.number() as usize), (2, 8, object["side"].number()), "{book:?}");
                check_loose(&book, &written, &object, &mut tally);
                for arguments in [
                    &["sheet", "-"][..],
                    &["compare", "-"],
                    &["compare", "-", "-", "-"],
                    &["trace", "-", "-", "-"],
                    &["least", "-", "-"],
                    &["change", "-", "drop 1"],
                ] {
                    let again = call(&[arguments, &["--json"]].concat(), written.text.as_bytes());
                    assert_eq!((again.status, again.object()), (2, object.clone()), "{arguments:?}");
                }
            }
            other => panic!("{other} of {book:?}"),
        }
    }
    tally.expect(&[
        ("accepted", 500),
        ("made of 4", 100),
        ("made of more", 300),
        ("alone", 1_000),
        ("alone behind others", 1_000),
        ("loose by 1", 100),
        ("loose by 2", 200),
        ("loose by 3", 200),
        ("a later rule is loose", 100),
        ("elsewhere in the side itself", 200),
        ("elsewhere in other sides", 500),
        ("at many places", 200),
    ]);
}
