//! Which row of the procedure a round is, and what it does (docs/SPECIFICATION.md, "The rows"). Outside the proof: the library's single round says what comes of u, v and p, and this
//! finds why, from the cuts that the library gives. A reader of it compares [`Round::outcome`] with the library's own before it is told.

use vanecitron::Cut;

/// A distinct side: its steps, where its X and its Y end, and its family, which is named by the lowest member.
#[derive(Debug, Clone, PartialEq, Eq)]
pub struct Word {
    pub steps: Vec<u8>,
    x: usize,
    xy: usize,
    family: usize,
}

impl Word {
    pub fn x(&self) -> &[u8] {
        &self.steps[..self.x]
    }

    pub fn xy(&self) -> &[u8] {
        &self.steps[..self.xy]
    }

    pub fn z(&self) -> &[u8] {
        &self.steps[self.xy..]
    }

    fn y_length(&self) -> usize {
        self.xy - self.x
    }
}

/// The distinct sides of an accepted book, in order of first appearance.
#[derive(Debug, Clone)]
pub struct Words {
    words: Vec<Word>,
}

/// What a round works on: u, v and the mark p.
#[derive(Debug, Clone, PartialEq, Eq)]
pub struct State {
    pub u: Vec<u8>,
    pub v: Vec<u8>,
    pub p: Vec<u8>,
}

/// What comes of a round.
#[derive(Debug, Clone, PartialEq, Eq)]
pub enum Outcome {
    Same,
    Different,
    Next(State),
}

/// Why and how a round goes on, or ends.
#[derive(Debug, Clone, PartialEq, Eq)]
pub enum Reason<'a> {
    /// row 1: u, v and the mark are empty
    AllEmpty,
    /// row 1: u or v is empty, and not all three are
    OneEmpty,
    /// row 2: the first step goes from u, from v and, where there is one, from the mark
    Dropped,
    /// row 2: u and v begin with different steps
    FirstStepsDiffer,
    /// row 2: the mark begins with another step than u
    MarkDiffers,
    /// row 3: the mark is a front of the X of no member of the family of u's word
    MarkMissing(&'a Word),
    /// row 3: v begins with the XY of no member
    NoMember(&'a Word),
    /// rows 4 to 7: u's word and v's word become this member where they are not it already, and its XY goes from both
    Exchanged { of_u: &'a Word, of_v: &'a Word, to: &'a Word },
    /// row 8: the words of u and v can become each other once both rests begin with the mark that is left; what goes from u and from v
    Halved { of_u: &'a Word, of_v: &'a Word, from_u: Vec<u8>, from_v: Vec<u8> },
    /// row 8: behind the XY of its word u does not go on with the one rest, or v not with the other
    RestsDiffer { of_u: &'a Word, of_v: &'a Word, rest_u: &'a [u8], rest_v: &'a [u8] },
}

/// A round: its row, why, and what comes of it.
#[derive(Debug, Clone, PartialEq, Eq)]
pub struct Round<'a> {
    pub row: u8,
    pub reason: Reason<'a>,
    pub outcome: Outcome,
}

impl Words {
    /// The distinct sides of a book, cut as its sheet says.
    pub fn new(sides: &[&[u8]], cuts: &[Cut]) -> Words {
        let mut words: Vec<Word> = Vec::new();
        let mut number = |(side, cut): (&&[u8], &Cut)| {
            let known = words.iter().position(|word| word.steps == *side);
            known.unwrap_or_else(|| {
                let (x, xy) = (cut.x.into(), usize::from(cut.x) + usize::from(cut.y));
                words.push(Word { steps: side.to_vec(), x, xy, family: words.len() });
                words.len() - 1
            })
        };
        let numbers: Vec<usize> = sides.iter().zip(cuts).map(&mut number).collect();
        for rule in numbers.chunks_exact(2) {
            let joined = [words[rule[0]].family, words[rule[1]].family];
            let lowest = joined[0].min(joined[1]);
            words.iter_mut().filter(|word| joined.contains(&word.family)).for_each(|word| word.family = lowest);
        }
        Words { words }
    }

    /// The members of a word's family, itself among them.
    pub fn family<'a>(&'a self, word: &'a Word) -> impl Iterator<Item = &'a Word> {
        self.words.iter().filter(|member| member.family == word.family)
    }

    fn some_xy_begins(&self, run: &[u8]) -> bool {
        self.words.iter().any(|word| run.starts_with(word.xy()))
    }

    /// The word whose XY is a clean front of u.
    fn clean_front(&self, u: &[u8]) -> Option<&Word> {
        let clean = |word: &&Word| u.starts_with(word.xy()) && !(1..word.y_length()).any(|l| self.some_xy_begins(&u[word.x + l..]));
        self.words.iter().find(clean)
    }

    /// s is active for the tail of a word.
    fn is_active(&self, word: &Word, s: &[u8]) -> bool {
        let run = [word.z(), s].concat();
        (0..word.z().len()).any(|from| self.some_xy_begins(&run[from..]))
    }

    /// The member that row 4 goes on with.
    fn of_next_tail<'a>(&'a self, word: &'a Word, s: &[u8]) -> &'a Word {
        if self.is_active(word, s) {
            return word;
        }
        let others = || self.family(word).filter(|member| *member != word);
        others().find(|member| self.is_active(member, s)).or(others().next()).unwrap_or(word)
    }

    /// The first row that fits a state.
    pub fn round(&self, State { u, v, p }: &State) -> Round<'_> {
        let end = |row, reason| Round { row, reason, outcome: Outcome::Different };
        if u.is_empty() && v.is_empty() && p.is_empty() {
            return Round { row: 1, reason: Reason::AllEmpty, outcome: Outcome::Same };
        }
        if u.is_empty() || v.is_empty() {
            return end(1, Reason::OneEmpty);
        }
        let Some(word) = self.clean_front(u) else {
            return drop_first(u, v, p);
        };
        if !self.family(word).any(|member| member.x().starts_with(p)) {
            return end(3, Reason::MarkMissing(word));
        }
        match self.family(word).find(|member| v.starts_with(member.xy())) {
            None => end(3, Reason::NoMember(word)),
            Some(member) => self.exchange(word, member, u, v, p),
        }
    }

    /// Rows 4 to 8, where u begins cleanly with the XY of one word and v with that of a member of its family.
    fn exchange<'a>(&'a self, of_u: &'a Word, of_v: &'a Word, u: &[u8], v: &[u8], p: &[u8]) -> Round<'a> {
        let (s, t) = (&u[of_u.xy..], &v[of_v.xy..]);
        let go = |row, to, u: Vec<u8>, v: Vec<u8>, p: &[u8]| Round {
            row,
            reason: Reason::Exchanged { of_u, of_v, to },
            outcome: Outcome::Next(State { u, v, p: p.to_vec() }),
        };
        match (s.strip_prefix(of_u.z()), t.strip_prefix(of_v.z())) {
            (Some(s), Some(t)) => {
                let to = self.of_next_tail(of_u, s);
                go(4, to, [to.z(), s].concat(), [to.z(), t].concat(), &[])
            }
            _ if of_u == of_v => go(5, of_u, s.to_vec(), t.to_vec(), if of_u.x().starts_with(p) { &[] } else { of_u.z() }),
            (None, Some(t)) => go(6, of_u, s.to_vec(), [of_u.z(), t].concat(), &[]),
            (Some(s), None) => go(7, of_v, [of_v.z(), s].concat(), t.to_vec(), &[]),
            (None, None) => halve(of_u, of_v, s, t),
        }
    }
}

/// Row 2.
fn drop_first<'a>(u: &[u8], v: &[u8], p: &[u8]) -> Round<'a> {
    let (reason, outcome) = match p.first() {
        _ if u[0] != v[0] => (Reason::FirstStepsDiffer, Outcome::Different),
        Some(&first) if first != u[0] => (Reason::MarkDiffers, Outcome::Different),
        _ => {
            let next = State { u: u[1..].to_vec(), v: v[1..].to_vec(), p: p.get(1..).unwrap_or_default().to_vec() };
            (Reason::Dropped, Outcome::Next(next))
        }
    };
    Round { row: 2, reason, outcome }
}

/// Row 8: s and t are behind the XY of each word.
fn halve<'a>(of_u: &'a Word, of_v: &'a Word, s: &[u8], t: &[u8]) -> Round<'a> {
    let shared = of_u.z().iter().rev().zip(of_v.z().iter().rev()).take_while(|(a, b)| a == b).count();
    let (e, common) = of_u.z().split_at(of_u.z().len() - shared);
    let f = &of_v.z()[..of_v.z().len() - shared];
    let (reason, outcome) = match (s.strip_prefix(e), t.strip_prefix(f)) {
        (Some(s), Some(t)) => {
            let (from_u, from_v) = ([of_u.xy(), e].concat(), [of_v.xy(), f].concat());
            (Reason::Halved { of_u, of_v, from_u, from_v }, Outcome::Next(State { u: s.to_vec(), v: t.to_vec(), p: common.to_vec() }))
        }
        _ => (Reason::RestsDiffer { of_u, of_v, rest_u: e, rest_v: f }, Outcome::Different),
    };
    Round { row: 8, reason, outcome }
}
