//! Texts: a head, rules and comparisons, a line each.

use crate::error::shown;
use crate::run::number_of;
use crate::{Run, TextError};

/// The most steps that the bytes of a rule can say of a side, and the most letters that a head can say.
const BYTE: usize = 255;
/// The most bytes of a record's payload.
const PAYLOAD: usize = 65_535;
/// The bytes of a comparison's payload before its runs.
pub(crate) const COMPARISON_FIELDS: usize = 8;
/// The most rounds that an allowance can give.
const ALLOWANCE: u64 = vanecitron::ALLOWANCE as u64;

/// The number of letters, and where it stands.
#[derive(Debug, Clone, PartialEq, Eq)]
pub struct Head {
    pub letters: u8,
    pub line: usize,
    pub column: usize,
}

/// A rule: its left side and its right side.
#[derive(Debug, Clone, PartialEq, Eq)]
pub struct Rule {
    pub sides: [Run; 2],
}

/// Two runs that are to be compared, and the allowance of rounds.
#[derive(Debug, Clone, PartialEq, Eq)]
pub struct Comparison {
    pub runs: [Run; 2],
    pub allowance: u32,
}

/// What the readable form of a book and of comparisons under it says.
#[derive(Debug, Clone, PartialEq, Eq)]
pub struct Text {
    pub head: Head,
    pub rules: Vec<Rule>,
    pub comparisons: Vec<Comparison>,
}

/// The record of a text that a byte belongs to; rules and comparisons by their index from 0.
#[derive(Debug, Clone, Copy, PartialEq, Eq)]
pub enum Record {
    Head,
    Rule(usize),
    Comparison(usize),
    /// the place right behind the last record, and any beyond
    End,
}

/// An item of a line and its column.
type Item<'a> = (&'a str, usize);

/// A line that has items: its number from 1, its items, and the column behind the last of them.
struct Line<'a> {
    number: usize,
    items: Vec<Item<'a>>,
    end: usize,
}

impl Text {
    /// Reads a text. A mark of the byte order at its front is passed over, as some editors put one there.
    pub fn parse(text: &str) -> Result<Text, TextError> {
        let (mut head, mut rules, mut comparisons) = (None, Vec::new(), Vec::new());
        for line in lines(text) {
            let (first, column) = line.items[0];
            let is_rule = line.items.get(1).is_some_and(|&(second, _)| second == "=");
            let error = |message: String| Err(TextError::new(line.number, column, message));
            match (first, &head) {
                ("letters", None) if !is_rule => head = Some(head_of(&line)?),
                (_, None) => return error(FIRST.into()),
                _ if is_rule && comparisons.is_empty() => rules.push(rule_of(&line)?),
                _ if is_rule => return error("a rule stands behind a comparison; all rules come first".into()),
                ("letters", Some(head)) => return error(format!("'letters' stands on line {} already", head.line)),
                ("compare", _) => comparisons.push(comparison_of(&line)?),
                _ => return error(format!("{} begins neither a rule (RUN = RUN) nor 'letters' nor 'compare'", shown(first))),
            }
        }
        let head = head.ok_or_else(|| TextError::new(text.split('\n').count(), 1, format!("the text is empty; {FIRST}")))?;
        Ok(Text { head, rules, comparisons })
    }
}

impl Rule {
    /// Reads a text that is one rule alone; blank lines and comments are passed over.
    pub fn parse(text: &str) -> Result<Rule, TextError> {
        let mut lines = lines(text);
        let rule = rule_of(&lines.next().unwrap_or(line_of(1, "")))?;
        match lines.next() {
            None => Ok(rule),
            Some(line) => Err(too_much(line.number, line.items[0], RULE_FORM)),
        }
    }
}

impl Run {
    /// Reads runs, one a line; blank lines and comments are passed over.
    pub fn parse_lines(text: &str) -> Result<Vec<Run>, TextError> {
        let run_of = |line: Line| {
            let [(run, column)] = expect(&line, "RUN")?;
            Run::parse(run, line.number, column)
        };
        lines(text).map(run_of).collect()
    }
}

const FIRST: &str = "the first item must be 'letters NUMBER'";
const RULE_FORM: &str = "RUN = RUN";

/// The lines of a text that have items, without their comments.
fn lines(text: &str) -> impl Iterator<Item = Line<'_>> {
    let text = text.strip_prefix('\u{feff}').unwrap_or(text);
    text.split('\n').enumerate().map(|(index, line)| line_of(index + 1, line)).filter(|line| !line.items.is_empty())
}

fn line_of(number: usize, line: &str) -> Line<'_> {
    let content = line.split('#').next().unwrap_or_default().trim_end();
    Line { number, items: items(content), end: content.chars().count() + 1 }
}

/// The items of a line: what blanks part, and every = by itself.
fn items(content: &str) -> Vec<Item<'_>> {
    let mut items: Vec<Item> = Vec::new();
    let mut open = None; // the byte and the column where an item began that has not ended
    let mut column = 0;
    for (at, character) in content.char_indices() {
        column += 1;
        if character != '=' && !character.is_whitespace() {
            open = open.or(Some((at, column)));
            continue;
        }
        items.extend(open.take().map(|(from, began)| (&content[from..at], began)));
        if character == '=' {
            items.push((&content[at..=at], column));
        }
    }
    items.extend(open.map(|(from, began)| (&content[from..], began)));
    items
}

/// A line has just N items; they are given back.
fn expect<'a, const N: usize>(line: &Line<'a>, form: &str) -> Result<[Item<'a>; N], TextError> {
    if let Some(&item) = line.items.get(N) {
        return Err(too_much(line.number, item, form));
    }
    line.items[..].try_into().map_err(|_| TextError::new(line.number, line.end, format!("something is missing; the form is: {form}")))
}

fn too_much(line: usize, (item, column): Item, form: &str) -> TextError {
    TextError::new(line, column, format!("{} is too much; the form is: {form}", shown(item)))
}

fn head_of(line: &Line) -> Result<Head, TextError> {
    let [_, (letters, column)] = expect(line, "letters NUMBER")?;
    let letters = number_of(letters, line.number, column, BYTE as u64, "the number of letters")? as u8;
    Ok(Head { letters, line: line.number, column })
}

fn rule_of(line: &Line) -> Result<Rule, TextError> {
    let [(left, left_column), (sign, sign_column), (right, right_column)] = expect(line, RULE_FORM)?;
    if sign != "=" {
        return Err(TextError::new(line.number, sign_column, format!("{} stands where = should; the form is: {RULE_FORM}", shown(sign))));
    }
    let sides = [Run::parse(left, line.number, left_column)?, Run::parse(right, line.number, right_column)?];
    match sides.iter().find(|side| side.steps.len() > BYTE) {
        Some(side) => {
            let message = format!(
                "a side of {} steps cannot be written; a rule has room for {BYTE}, of which {} are accepted",
                side.steps.len(),
                vanecitron::SIDE
            );
            Err(TextError::new(line.number, side.column, message))
        }
        None => Ok(Rule { sides }),
    }
}

fn comparison_of(line: &Line) -> Result<Comparison, TextError> {
    let [_, (first, first_column), (second, second_column), (allowance, column)] = expect(line, "compare RUN RUN ALLOWANCE")?;
    let runs = [Run::parse(first, line.number, first_column)?, Run::parse(second, line.number, second_column)?];
    let allowance = number_of(allowance, line.number, column, ALLOWANCE, "an allowance")? as u32;
    let [u, v] = [&runs[0], &runs[1]].map(|run| run.steps.len());
    if COMPARISON_FIELDS + u + v > PAYLOAD {
        return Err(TextError::new(line.number, first_column, format!("runs of {u} and {v} steps cannot be written in one record")));
    }
    Ok(Comparison { runs, allowance })
}
