//! `change`: changes of a held book, each proposed, shown, and posted; and the new book as text.

use std::ffi::OsStr;
use std::fmt;

use booktext::{Record, Rule, Text};
use vanecitron::{rule_record, Cut, HeldBook, Reason, Refusal};

use crate::book::{drawn_cut, longest_tail, side_name, Book, Rules, Side};
use crate::call;
use crate::failure::Failure;
use crate::json::{hex, Object};
use crate::refusal::{About, Told};
use crate::show::count;
use crate::words::check::sheet_numbers;
use crate::words::{told, Answered};
use crate::Desk;

/// The most bytes of the record of a rule that a text can say.
const RECORD: usize = 6 + 2 * 255;

/// A change as it is given.
enum Change {
    /// a rule is put behind the others
    Add(Rule),
    /// the rule of this index, from 0, is withdrawn
    Drop(usize),
}

impl fmt::Display for Change {
    fn fmt(&self, f: &mut fmt::Formatter<'_>) -> fmt::Result {
        match self {
            Change::Add(rule) => write!(f, "add {} = {}", rule.sides[0], rule.sides[1]),
            Change::Drop(rule) => write!(f, "drop {}", rule + 1),
        }
    }
}

/// A book while it is changed: held by the library, and as its author wrote it.
struct Changing {
    held: HeldBook,
    cuts: Vec<Cut>,
    rules: Rules,
    text: Lines,
}

/// A side before and after a change, by its number then; one that is new has none before.
struct Moved {
    before: Option<usize>,
    after: usize,
}

/// Makes each change in turn; the first that is refused ends it, and then no book is printed.
pub fn change(desk: &mut Desk) -> Answered {
    let call = desk.call;
    let changes: Vec<Change> = call.arguments[1..].iter().enumerate().map(|(index, text)| read(text, index + 1)).collect::<Result<_, _>>()?;
    let book = desk.book()?;
    let mut changing = match begin(&book) {
        Err(refusal) => return desk.refuse(&told(&book, [None; 3], refusal)),
        Ok(changing) => changing,
    };
    for (index, change) in changes.iter().enumerate() {
        let (name, before) = (format!("change {}, {change}", index + 1), changing.cuts.clone());
        match changing.make(change, index + 1) {
            Err(told) => return desk.refuse(&told),
            Ok(moved) => desk.say(report(&changing, &before, &moved, &name), || posted(&changing, &before, &moved, change))?,
        };
    }
    print(desk, &changing)
}

/// The book held, with its sheet.
fn begin(book: &Book) -> Result<Changing, Refusal> {
    let held = HeldBook::load(&book.bytes)?;
    let cuts = vanecitron::cut_sheet(held.book())?;
    Ok(Changing { held, cuts, rules: book.rules.clone(), text: Lines::new(book) })
}

/// Reads a change: `add RUN = RUN` or `drop NUMBER`, rules counted from 1.
fn read(argument: &OsStr, index: usize) -> Result<Change, Failure> {
    // a change is one line, so that its steps have columns: an end of a line in it is a blank
    let argument = argument.to_string_lossy().replace('\n', " ");
    let name = || format!("change {index}");
    let word = argument.split_whitespace().next().unwrap_or_default();
    let (before, rest) = argument.split_at(argument.find(word).unwrap_or(0) + word.len());
    match word {
        "add" => {
            // blanks stand for what is before the rule, so that columns are those of the whole argument
            let rule = " ".repeat(before.chars().count()) + rest;
            Rule::parse(&rule).map(Change::Add).map_err(|error| Failure::Argument { name: name(), error })
        }
        "drop" => match call::number(OsStr::new(rest.trim()), u32::MAX) {
            Some(rule @ 1..) => Ok(Change::Drop(rule as usize - 1)),
            _ => Err(Failure::Call { message: format!("{}: drop wants the number of a rule, and rules count from 1", name()), word: Some("change") }),
        },
        _ => Err(Failure::Call { message: format!("{} is neither 'add RUN = RUN' nor 'drop NUMBER'", name()), word: Some("change") }),
    }
}

impl Changing {
    /// Proposes a change and posts it; tells which sides there are then, or why it is refused.
    fn make(&mut self, change: &Change, index: usize) -> Result<Vec<Moved>, Box<Told>> {
        let rules = self.rules.changed(change, index);
        let proposed = match change {
            Change::Add(rule) => self.held.propose_addition(&record(rule)),
            Change::Drop(rule) => self.held.propose_withdrawal(*rule),
        };
        // with no change between them, the posting gives the sheet of the proposal
        let posted = proposed.and_then(|(_, ticket)| self.held.post(&ticket));
        let cuts = posted.map_err(|refusal| self.refused(&rules, change, refusal))?;
        let moved = moved(change, self.cuts.len());
        self.text.change(change);
        (self.cuts, self.rules) = (cuts, rules);
        Ok(moved)
    }

    /// A refusal of a change; `rules` are those that there would be.
    fn refused(&self, rules: &Rules, change: &Change, refusal: Refusal) -> Box<Told> {
        let last = (rules.sides.len() / 2).saturating_sub(1);
        let told = About { rules, record: &|_| Record::Rule(last), runs: [None; 3] }.told(refusal);
        Box::new(match (change, refusal.reason) {
            (Change::Drop(rule), Reason::NoSuchRule) => {
                told.saying(format!("there is no rule {}; the book has {}", rule + 1, count(self.cuts.len() / 2, "rule")))
            }
            _ => told,
        })
    }
}

/// Where each side goes, of so many.
fn moved(change: &Change, sides: usize) -> Vec<Moved> {
    match change {
        Change::Add(_) => (0..sides + 2).map(|after| Moved { before: Some(after).filter(|&before| before < sides), after }).collect(),
        Change::Drop(rule) => {
            let left = (0..sides).filter(|side| side / 2 != *rule);
            left.enumerate().map(|(after, before)| Moved { before: Some(before), after }).collect()
        }
    }
}

impl Rules {
    /// The rules after a change of the call; these rules where there is none to drop.
    fn changed(&self, change: &Change, index: usize) -> Rules {
        let mut rules = self.clone();
        match change {
            Change::Add(rule) => rules.sides.extend(rule.sides.clone().map(|run| Side { run, change: Some(index) })),
            Change::Drop(rule) if rule.saturating_mul(2) < rules.sides.len() => drop(rules.sides.drain(2 * rule..2 * rule + 2)),
            Change::Drop(_) => {}
        }
        rules
    }
}

/// The record of a rule alone.
fn record(rule: &Rule) -> Vec<u8> {
    let mut bytes = [0; RECORD];
    let [left, right] = [&rule.sides[0].steps, &rule.sides[1].steps];
    rule_record(&mut bytes, left, right).expect("a rule that was read has sides of at most 255 steps").to_vec()
}

/// The lines of a text, and which of them are the rules'.
struct Lines {
    lines: Vec<String>,
    /// the line of each rule, from 0, in order
    rules: Vec<usize>,
    head: usize,
}

impl Lines {
    fn new(book: &Book) -> Lines {
        let source = book.source.strip_prefix('\u{feff}').unwrap_or(&book.source);
        let rules = book.text.rules.iter().map(|rule| rule.sides[0].line - 1).collect();
        Lines { lines: source.lines().map(String::from).collect(), rules, head: book.text.head.line - 1 }
    }

    /// Puts a rule behind the others, on a line of its own, or takes one out with its line.
    fn change(&mut self, change: &Change) {
        match change {
            Change::Add(rule) => {
                let at = self.rules.last().unwrap_or(&self.head) + 1;
                self.lines.insert(at, format!("{} = {}", rule.sides[0], rule.sides[1]));
                self.rules.push(at);
            }
            Change::Drop(rule) => {
                let at = self.rules.remove(*rule);
                self.lines.remove(at);
                self.rules[*rule..].iter_mut().for_each(|line| *line -= 1);
            }
        }
    }

    fn text(&self) -> String {
        self.lines.iter().flat_map(|line| [line, "\n"]).collect()
    }
}

/// What a change did, as comments of the new text.
fn report(changing: &Changing, before: &[Cut], moved: &[Moved], change: &str) -> Vec<String> {
    let mut lines = vec![format!("# {change}: posted; the book has {}", count(changing.cuts.len() / 2, "rule"))];
    let cut = |side: usize, cut: &Cut| format!("{}, {}", drawn_cut(&changing.rules.sides[side].run.steps, cut), cut.pieces);
    for Moved { before: old, after } in moved {
        let is = &changing.cuts[*after];
        match old.map(|old| &before[old]) {
            None => lines.push(format!("#   {} is new: {}", side_name(*after), cut(*after, is))),
            Some(was) if was != is => lines.push(format!("#   {} was {}; it is {}", side_name(*after), cut(*after, was), cut(*after, is))),
            Some(_) => {}
        }
    }
    let mut kept = moved.iter().filter_map(|side| Some((&before[side.before?], &changing.cuts[side.after]))).peekable();
    if kept.peek().is_some() && kept.all(|(was, is)| was == is) {
        lines.push("#   no side that was there moved".to_string());
    }
    let (was, is) = (longest_tail(before), longest_tail(&changing.cuts));
    lines.push(if was == is { format!("#   k is {is}, as before") } else { format!("#   k was {was}; it is {is}") });
    lines
}

fn posted(changing: &Changing, before: &[Cut], moved: &[Moved], change: &Change) -> Object {
    let object = Object::new("posted");
    let object = match change {
        Change::Add(_) => object.text("change", "add").number("index", changing.cuts.len() / 2 - 1),
        Change::Drop(rule) => object.text("change", "drop").number("index", *rule),
    };
    let side = |Moved { before: old, after }: &Moved| {
        let object = sheet_numbers(Object::part().number("side", *after).run("run", &changing.rules.sides[*after].run.steps), &changing.cuts[*after]);
        match old {
            None => object,
            Some(old) => object.object("before", sheet_numbers(Object::part().number("side", *old), &before[*old])),
        }
    };
    let object = object.number("rules", changing.cuts.len() / 2).number("changes", changing.held.changes()).number("k", longest_tail(&changing.cuts));
    object.objects("sides", moved.iter().map(side))
}

/// Prints the new book: the text with its comments and comparisons, where it says just the book that is held.
fn print(desk: &mut Desk, changing: &Changing) -> Answered {
    let held = changing.held.book();
    let own = Some(changing.text.text()).filter(|text| Text::parse(text).is_ok_and(|text| text.book() == held));
    let text = match own {
        Some(text) => text,
        None => booktext::decode(held).map_err(|error| Failure::Disagreement(format!("the held book is no book: {error}")))?,
    };
    let object = || Object::new("book").number("rules", changing.cuts.len() / 2).text("bytes", &hex(held)).text("text", &text);
    desk.give(text.as_bytes(), object)
}
