//! `check` and `sheet`: whether a book is accepted, and the cut of each of its sides.

use vanecitron::{Cut, PieceCount, RUN};

use crate::book::{drawn_cut, left_or_right, longest_tail, Book, Rules, Side};
use crate::json::Object;
use crate::pieces::Pieces;
use crate::refusal::located;
use crate::show::{count, grouped, parts_text, table};
use crate::words::{told, Answered};
use crate::Desk;

/// Accepted, with the sheet, k and an allowance that always suffices; or refused.
pub fn check(desk: &mut Desk) -> Answered {
    let book = desk.book()?;
    match vanecitron::cut_sheet(&book.bytes) {
        Err(refusal) => desk.refuse(&told(&book, [None; 3], refusal)),
        Ok(cuts) => desk.say(accepted(&book, &cuts), || accepted_object(&book, &cuts)),
    }
}

/// The sheet alone.
pub fn sheet(desk: &mut Desk) -> Answered {
    let book = desk.book()?;
    match vanecitron::cut_sheet(&book.bytes) {
        Err(refusal) => desk.refuse(&told(&book, [None; 3], refusal)),
        Ok(cuts) => desk.say(sheet_lines(&book.rules, &cuts), || Object::new("sheet").objects("sides", side_objects(&book.rules, &cuts))),
    }
}

/// An allowance that suffices for every two runs: the rounds are at most (k + 1) times the length of either.
fn ample(k: usize) -> usize {
    (k + 1) * RUN
}

fn accepted(book: &Book, cuts: &[Cut]) -> Vec<String> {
    let (rules, letters, k) = (cuts.len() / 2, usize::from(book.text.head.letters), longest_tail(cuts));
    let meet = if rules == 1 { "meets" } else { "meet" };
    let mut lines = vec![format!("{}: accepted: {} over {}, which {meet} C(4)", book.file(), count(rules, "rule"), count(letters, "letter"))];
    if rules > 0 {
        lines.push(String::new());
        lines.extend(sheet_lines(&book.rules, cuts));
        lines.push(String::new());
        lines.push(
            "A cut is X|Y|Z: X is the longest front that is a piece, Z the longest end that is one. A side of fewer than 4 pieces would be refused."
                .into(),
        );
    }
    let suffices = format!("{} times the length of the shorter run always suffices, {} for every two runs", k + 1, grouped(ample(k) as u64));
    lines.push(format!("k, the length of the longest Z, is {k}. An allowance of {suffices}."));
    if rules > 0 {
        lines.push("These are the library's answers; what a side is made of is found by this command.".into());
    }
    lines
}

fn accepted_object(book: &Book, cuts: &[Cut]) -> Object {
    let k = longest_tail(cuts);
    let object = Object::new("accepted").number("rules", cuts.len() / 2).number("letters", book.text.head.letters);
    object.number("k", k).number("allowance", ample(k)).objects("sides", side_objects(&book.rules, cuts))
}

/// The table of the sides.
pub fn sheet_lines(rules: &Rules, cuts: &[Cut]) -> Vec<String> {
    let made_of = made_of(rules, cuts);
    let row = |(number, (cut, made)): (usize, (&Cut, String))| {
        let steps = &rules.sides[number].run.steps;
        let pieces = match cut.pieces {
            PieceCount::Pieces(pieces) => pieces.to_string(),
            PieceCount::NoProduct => "none".to_string(),
        };
        [(number / 2 + 1).to_string(), left_or_right(number).to_string(), rules.at(number, 0).within(), drawn_cut(steps, cut), pieces, made]
    };
    let rows: Vec<_> = cuts.iter().zip(made_of).enumerate().map(row).collect();
    table(["rule", "side", "at", "cut", "pieces", "made of"], &rows)
}

/// What each side is made of: its pieces, or the first step that stands nowhere else.
fn made_of(rules: &Rules, cuts: &[Cut]) -> Vec<String> {
    let told = |(side, found): (&Side, Found)| match found {
        Found::Pieces(pieces) => parts_text(&pieces).join(", "),
        Found::Alone(code) => format!("{} stands nowhere else", parts_text(&[&[code], &side.run.steps])[0]),
        Found::Nothing => String::new(),
    };
    rules.sides.iter().zip(found(rules, cuts)).map(told).collect()
}

/// What this command finds of a side, where it agrees with the library.
enum Found<'a> {
    Pieces(Vec<&'a [u8]>),
    Alone(u8),
    Nothing,
}

fn found<'a>(rules: &'a Rules, cuts: &[Cut]) -> Vec<Found<'a>> {
    let runs = rules.runs();
    let pieces = Pieces::new(&runs);
    let of = |(number, cut): (usize, &Cut)| {
        let steps = runs[number];
        let parts = pieces.fewest(&runs, number);
        match (cut.pieces, parts) {
            (PieceCount::Pieces(count), Some(parts)) if parts.len() == usize::from(count) => {
                Found::Pieces(parts.iter().map(|part| &steps[part.position..part.position + part.length]).collect())
            }
            (PieceCount::NoProduct, None) => {
                let alone = steps.iter().copied().find(|&code| pieces.places(&[code]).len() == 1);
                alone.map_or(Found::Nothing, Found::Alone)
            }
            _ => Found::Nothing,
        }
    };
    cuts.iter().enumerate().map(of).collect()
}

/// An object for each side.
fn side_objects(rules: &Rules, cuts: &[Cut]) -> Vec<Object> {
    let object = |(number, (cut, found)): (usize, (&Cut, Found))| {
        let object = Object::part().number("side", number).run("run", &rules.sides[number].run.steps);
        let object = sheet_numbers(located(object, &rules.at(number, 0)), cut);
        match found {
            Found::Pieces(pieces) => object.runs("made_of", pieces),
            Found::Alone(code) => object.number("alone", code),
            Found::Nothing => object,
        }
    };
    cuts.iter().zip(found(rules, cuts)).enumerate().map(object).collect()
}

/// The four numbers of a side on the sheet.
pub fn sheet_numbers(object: Object, cut: &Cut) -> Object {
    object.number("x", cut.x).number("y", cut.y).number("z", cut.z).number("pieces", cut.pieces.number())
}
