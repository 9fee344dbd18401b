//! Refusals in the author's terms: what is wrong, with the line and the column where it stands.

use booktext::{letter_text, Record};
use vanecitron::{Place, Reason, Refusal, Run as Which};

use crate::book::{side_name, At, Rules};
use crate::given::Given;
use crate::json::Object;
use crate::pieces::{self, Pieces};
use crate::show::{count, drawn, grouped, listed, parts_text, short};

/// The most places of a piece that are told.
const PLACES: usize = 3;
/// The most steps of a run that a sentence shows.
pub const SHOWN: usize = 24;
/// The fewest pieces that C(4) allows a side to be made of.
const FEWEST: usize = 4;

/// A refusal, where it stands, and what it means; of a loose side also its pieces.
pub struct Told {
    refusal: Refusal,
    at: Option<At>,
    sentence: String,
    side: Option<usize>,
    parts: Vec<PartTold>,
}

/// A piece of a loose side, and where else it stands.
struct PartTold {
    steps: Vec<u8>,
    /// the piece in letters or in numbers, as the others of its side
    text: String,
    position: usize,
    elsewhere: Vec<(pieces::Place, At)>,
}

/// What a refusal is about: the rules, the record that a byte belongs to, and the runs that were given as u, v and p.
pub struct About<'a> {
    pub rules: &'a Rules,
    pub record: &'a dyn Fn(usize) -> Record,
    pub runs: [Option<&'a Given>; 3],
}

impl About<'_> {
    /// The refusal in the author's terms.
    pub fn told(&self, refusal: Refusal) -> Told {
        let mut told = Told { refusal, at: None, sentence: refusal.reason.text().to_string(), side: None, parts: Vec::new() };
        match refusal.place {
            Place::Byte(byte) => self.tell_record(&mut told, (self.record)(byte)),
            Place::Side(side) if side < self.rules.sides.len() => self.tell_loose(&mut told, side),
            Place::Run(which) => self.tell_long(&mut told, which),
            Place::Step { run, position } => self.tell_stranger(&mut told, run, position),
            Place::Rounds(rounds) => {
                told.sentence = format!("no answer within the allowance of {}; another round was due", count(rounds as usize, "round"));
            }
            _ => {}
        }
        told
    }

    fn tell_record(&self, told: &mut Told, record: Record) {
        match record {
            Record::Head => {
                told.at = Some(self.rules.at_head());
                if told.refusal.reason == Reason::Range {
                    told.sentence = format!("'letters' says {}; a book has 1 to {} letters", self.rules.head.letters, vanecitron::LETTERS);
                }
            }
            Record::Rule(rule) if 2 * rule + 1 < self.rules.sides.len() => self.tell_rule(told, rule),
            _ => {}
        }
    }

    /// The first side of a rule that is out of range, or its first step that is unknown, or the rule as a whole.
    fn tell_rule(&self, told: &mut Told, rule: usize) {
        let letters = self.rules.head.letters;
        let mut sides = [2 * rule, 2 * rule + 1].into_iter().map(|side| (side, &self.rules.sides[side].run.steps));
        told.at = Some(self.rules.at(2 * rule, 0));
        match told.refusal.reason {
            Reason::Range => {
                let Some((side, steps)) = sides.find(|(_, steps)| !(1..=vanecitron::SIDE).contains(&steps.len())) else { return };
                told.at = Some(self.rules.at(side, 0));
                told.sentence = format!("{} has {}; a side has 1 to {}", side_name(side), count(steps.len(), "step"), vanecitron::SIDE);
            }
            Reason::UnknownStep => {
                let unknown = |(side, steps): (usize, &Vec<u8>)| steps.iter().position(|&code| code >= letters).map(|at| (side, at, steps[at]));
                let Some((side, position, code)) = sides.find_map(unknown) else { return };
                told.at = Some(self.rules.at(side, position));
                told.sentence = format!("{} has the letter {}; {}", side_name(side), letter_text(code), has_letters(letters));
            }
            Reason::Thick => told.sentence = format!("rule {} is one too many; a book has at most {}", rule + 1, vanecitron::RULES),
            _ => {}
        }
    }

    fn tell_loose(&self, told: &mut Told, side: usize) {
        let runs = self.rules.runs();
        let steps = runs[side];
        told.at = Some(self.rules.at(side, 0));
        told.side = Some(side);
        // no book over the limits is loose by the library's answer, and a text can say one that is far over them
        let within = runs.len() <= 2 * vanecitron::RULES && runs.iter().all(|run| run.len() <= vanecitron::SIDE);
        let parts = if within { Pieces::new(&runs).fewest(&runs, side).unwrap_or_default() } else { Vec::new() };
        let runs_of_parts: Vec<&[u8]> = parts.iter().map(|part| &steps[part.position..part.position + part.length]).collect();
        let cut = drawn(&runs_of_parts);
        let shown = short(steps, SHOWN);
        told.sentence = match parts.len() {
            // what is found here is told only where it agrees with the library
            1..FEWEST => {
                let pieces = count(parts.len(), "piece");
                format!("{}, {shown}, is made of {pieces}, {cut}; C(4) asks that no side be made of fewer than {FEWEST}", side_name(side))
            }
            _ => format!("{}, {shown}, is a product of three or fewer pieces", side_name(side)),
        };
        if parts.len() < FEWEST {
            let texts = parts_text(&runs_of_parts);
            told.parts = parts.iter().zip(runs_of_parts).zip(texts).map(|((part, run), text)| self.part_told(part, run, text)).collect();
        }
    }

    fn part_told(&self, part: &pieces::Part, steps: &[u8], text: String) -> PartTold {
        let elsewhere = part.elsewhere.iter().map(|place| (*place, self.rules.at(place.side, place.position)));
        PartTold { steps: steps.to_vec(), text, position: part.position, elsewhere: elsewhere.collect() }
    }

    fn run(&self, which: Which) -> Option<&Given> {
        self.runs[which as usize]
    }

    fn tell_long(&self, told: &mut Told, which: Which) {
        let Some(given) = self.run(which) else { return };
        let most = match which {
            Which::P => vanecitron::ROUND_MARK,
            _ => vanecitron::RUN,
        };
        told.at = Some(given.at(0));
        let (name, steps) = (&given.name, count(given.run.steps.len(), "step"));
        told.sentence = format!("{name} has {steps}; {} at most are taken", grouped(most as u64));
    }

    fn tell_stranger(&self, told: &mut Told, which: Which, position: usize) {
        let Some((given, &code)) = self.run(which).and_then(|given| Some((given, given.run.steps.get(position)?))) else { return };
        told.at = Some(given.at(position));
        told.sentence = format!("{} has the letter {}; {}", given.name, letter_text(code), has_letters(self.rules.head.letters));
    }
}

/// How many letters the book has, and which.
fn has_letters(letters: u8) -> String {
    let last = letters.saturating_sub(1);
    match letters {
        0 | 1 => format!("the book has {}", count(letters.into(), "letter")),
        2..=26 => format!("the book has {letters} letters, a to {}", char::from(b'a' + last)),
        _ => format!("the book has {letters} letters, the codes 0 to {last}"),
    }
}

impl Told {
    /// A sentence of the command's own in the place of the library's.
    pub fn saying(mut self, sentence: String) -> Told {
        self.sentence = sentence;
        self
    }

    /// The same, where it is known only by its line.
    pub fn on_line(mut self, file: &str, line: usize) -> Told {
        self.at = self.at.or(Some(At::Line { file: file.to_string(), line }));
        self
    }

    /// What it means, with its place behind it.
    pub fn meaning(&self) -> String {
        let meaning = format!("{}: {}", self.refusal.reason.word(), self.sentence);
        match &self.at {
            Some(at) => format!("{meaning} ({at})"),
            None => meaning,
        }
    }

    /// The line of the refusal, and for a loose side a line for each piece.
    pub fn lines(&self) -> Vec<String> {
        let mut lines = vec![match &self.at {
            Some(at) => format!("{at}: {}", self.line()),
            None => self.line(),
        }];
        lines.extend(self.parts.iter().map(PartTold::line));
        if !self.parts.is_empty() {
            lines.push("The refusal is the library's answer; the pieces and their places are found by this command.".to_string());
        }
        lines
    }

    /// The refusal as the program prints it, and what it means.
    pub fn line(&self) -> String {
        let Refusal { reason, place } = self.refusal;
        format!("refused {} {}: {}: {}", reason.number(), place.number(), reason.word(), self.sentence)
    }

    pub fn object(&self) -> Object {
        let Refusal { reason, place } = self.refusal;
        let object = Object::new("refused").number("number", reason.number()).number("place", place.number());
        let mut object = object.text("word", reason.word()).text("meaning", &self.sentence);
        if let Some(at) = &self.at {
            object = located(object, at);
        }
        if let Some(side) = self.side {
            object = object.number("side", side).objects("pieces", self.parts.iter().map(PartTold::object));
        }
        object
    }
}

impl PartTold {
    fn line(&self) -> String {
        let told = self.elsewhere.iter().take(PLACES).map(|(place, at)| format!("{} (at {})", side_name(place.side), at.within()));
        let more = self.elsewhere.len().saturating_sub(PLACES);
        let places: Vec<String> = told.chain((more > 0).then(|| count(more, "more place"))).collect();
        format!("    {} also stands in {}", self.text, listed(&places))
    }

    fn object(&self) -> Object {
        let place = |(place, at): &(pieces::Place, At)| located(Object::part().number("side", place.side).number("position", place.position), at);
        Object::part().run("piece", &self.steps).number("position", self.position).objects("elsewhere", self.elsewhere.iter().map(place))
    }
}

/// An object with where something stands.
pub fn located(object: Object, at: &At) -> Object {
    match at {
        At::File { file, line, column } => object.text("file", file).number("line", *line).number("column", *column),
        At::Line { file, line } => object.text("file", file).number("line", *line),
        At::Argument { name, column } => object.text("argument", name).number("column", *column),
    }
}
