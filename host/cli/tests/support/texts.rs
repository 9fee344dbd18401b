//! Texts of books in all the ways that an author may write them, with the places where each step stands, worked out while they are written.

use gen::{inputs, words, Book, Chance};

/// Where something stands in a text: its line and its column, both from 1; columns count characters.
pub type Spot = [usize; 2];

/// A comparison to be written.
#[derive(Debug, Clone)]
pub struct Question {
    pub runs: [Vec<u8>; 2],
    pub allowance: u32,
}

impl Question {
    /// Two runs that exchanges join, or nearly join, seldom with a step that the book has not, and any allowance.
    pub fn any(chance: &mut Chance, book: &Book, most: usize) -> Question {
        let (mut u, mut v) = words::pair(chance, book, most);
        if chance.once_in(6) {
            let strange = if chance.once_in(2) { &mut u } else { &mut v };
            *strange = words::strange(chance, strange, book.letters);
        }
        Question { runs: [u, v], allowance: inputs::allowance(chance) }
    }
}

/// A text, and where its parts stand.
#[derive(Debug, Clone, Default)]
pub struct Written {
    pub text: String,
    /// the number of letters
    pub head: Spot,
    pub sides: Vec<Spots>,
    /// the two runs of each comparison
    pub questions: Vec<[Spots; 2]>,
}

/// Where a run begins, and where each of its steps does.
pub type Spots = (Spot, Vec<Spot>);

/// The text of a book and of comparisons behind it: runs in letters or in numbers, blanks, comments and empty lines anywhere.
pub fn written(chance: &mut Chance, book: &Book, questions: &[Question]) -> Written {
    let mut pen = Pen::new(chance);
    let mut written = Written::default();
    pen.nothing();
    pen.put("letters");
    pen.blanks(1);
    written.head = pen.spot;
    pen.put(&book.letters.to_string());
    pen.end();
    for rule in book.words.chunks(2) {
        pen.nothing();
        let left = pen.run(&rule[0]);
        pen.blanks(0);
        pen.put("=");
        pen.blanks(0);
        written.sides.extend([left, pen.run(&rule[1])]);
        pen.end();
    }
    for question in questions {
        pen.nothing();
        pen.put("compare");
        let runs = question.runs.each_ref().map(|run| {
            pen.blanks(1);
            pen.run(run)
        });
        written.questions.push(runs);
        pen.blanks(1);
        pen.put(&question.allowance.to_string());
        pen.end();
    }
    pen.nothing();
    written.text = pen.text;
    written
}

/// The text of runs, one a line, and where they stand.
pub fn written_runs(chance: &mut Chance, runs: &[Vec<u8>]) -> (String, Vec<Spots>) {
    let mut pen = Pen::new(chance);
    let mut write = |run: &Vec<u8>| {
        pen.nothing();
        let spots = pen.run(run);
        pen.end();
        spots
    };
    let spots = runs.iter().map(&mut write).collect();
    (pen.text, spots)
}

/// What writes a text and knows where it is.
struct Pen<'a> {
    chance: &'a mut Chance,
    text: String,
    spot: Spot,
    comments: usize,
    line_end: &'static str,
}

impl<'a> Pen<'a> {
    fn new(chance: &'a mut Chance) -> Pen<'a> {
        let line_end = *chance.pick(&["\n", "\n", "\n", "\r\n"]);
        // the mark of the byte order is no column
        let text = if chance.once_in(8) { "\u{feff}" } else { "" }.to_string();
        Pen { chance, text, spot: [1, 1], comments: 0, line_end }
    }

    fn put(&mut self, text: &str) {
        for character in text.chars() {
            self.spot = if character == '\n' { [self.spot[0] + 1, 1] } else { [self.spot[0], self.spot[1] + 1] };
        }
        self.text.push_str(text);
    }

    /// Some blanks of any kind, mostly one.
    fn blanks(&mut self, least: usize) {
        for _ in 0..(*self.chance.pick(&[1, 1, 1, 0, 3])).max(least) {
            let blank = *self.chance.pick(&[" ", " ", " ", "\t", "\u{3000}"]);
            self.put(blank);
        }
    }

    /// The end of a line, often with a comment before it. No two comments are equal.
    fn end(&mut self) {
        if self.chance.once_in(3) {
            self.blanks(0);
            self.comments += 1;
            let comment = format!("# note {} = \u{e9} compare a b 7", self.comments);
            self.put(&comment);
        }
        self.put(self.line_end);
    }

    /// Lines without items.
    fn nothing(&mut self) {
        for _ in 0..*self.chance.pick(&[0, 0, 0, 1, 2]) {
            self.end();
        }
        if self.chance.once_in(6) {
            self.blanks(0);
        }
    }

    /// A run in letters, where all its codes have one, or in numbers, some of them with zeros before them; where it begins, and where its steps do.
    fn run(&mut self, steps: &[u8]) -> Spots {
        let begins = self.spot;
        let in_letters = steps.iter().all(|&code| code < 26) && !self.chance.once_in(4);
        let mut spots = Vec::new();
        for (index, code) in steps.iter().enumerate() {
            if index > 0 && !in_letters {
                self.put(".");
            }
            spots.push(self.spot);
            let zeros = "0".repeat(self.chance.below(12).saturating_sub(9));
            match in_letters {
                true => self.put(&char::from(b'a' + code).to_string()),
                false => self.put(&format!("{zeros}{code}")),
            }
        }
        if steps.is_empty() {
            self.put("-");
        }
        (begins, spots)
    }
}

/// A run as an argument.
pub fn spelled(chance: &mut Chance, steps: &[u8]) -> String {
    match steps.is_empty() {
        true => "-".to_string(),
        false if steps.iter().all(|&code| code < 26) && !chance.once_in(4) => steps.iter().map(|&code| char::from(b'a' + code)).collect(),
        false => steps.iter().map(u8::to_string).collect::<Vec<_>>().join("."),
    }
}

/// The bytes of a book and of comparisons behind it.
pub fn bytes(book: &Book, questions: &[Question]) -> Vec<u8> {
    let records = questions.iter().map(|question| inputs::question(question.allowance, &question.runs[0], &question.runs[1]));
    [book.bytes()].into_iter().chain(records).flatten().collect()
}
