//! What a round does, as a sentence: what is exchanged, what goes and what stays; or why it is the end.

use crate::rows::{Outcome, Reason, Round, State, Word, Words};
use crate::show::{listed, short};

/// How rounds are told: under these words, with so many steps of a run shown.
pub struct Teller<'a> {
    pub words: &'a Words,
    pub width: usize,
}

impl Teller<'_> {
    /// The sentence of a round from a state.
    pub fn sentence(&self, round: &Round, state: &State) -> String {
        let why = self.why(&round.reason, state);
        match &round.outcome {
            Outcome::Same => format!("{why}: same"),
            Outcome::Different => format!("{why}: different"),
            Outcome::Next(State { u, v, p }) if p.is_empty() => format!("{why}; {} and {} stay", self.show(u), self.show(v)),
            Outcome::Next(State { u, v, p }) => {
                format!("{why}; {} and {} stay, each to become a run that begins with the mark {}", self.show(u), self.show(v), self.show(p))
            }
        }
    }

    fn show(&self, run: &[u8]) -> String {
        short(run, self.width)
    }

    fn why(&self, reason: &Reason, State { u, v, p }: &State) -> String {
        let no_clean_front = |what: String| format!("u has no clean front; {what}");
        let first = |run: &[u8]| self.show(&run[..1]);
        match reason {
            Reason::AllEmpty => "all three are empty".to_string(),
            Reason::OneEmpty if !v.is_empty() => "u is empty, and v is not".to_string(),
            Reason::OneEmpty if !u.is_empty() => "v is empty, and u is not".to_string(),
            Reason::OneEmpty => "u and v are empty, and the mark is not".to_string(),
            Reason::Dropped if p.is_empty() => no_clean_front(format!("{} goes from both", first(u))),
            Reason::Dropped => no_clean_front(format!("{} goes from both and from the mark", first(u))),
            Reason::FirstStepsDiffer => no_clean_front(format!("u begins with {}, v with {}", first(u), first(v))),
            Reason::MarkDiffers => no_clean_front(format!("u begins with {}, the mark with {}", first(u), first(p))),
            Reason::MarkMissing(word) => self.clean_front(word, "the mark begins no X of its family", Word::x),
            Reason::NoMember(word) => self.clean_front(word, "v begins with no XY of its family", Word::xy),
            Reason::Exchanged { of_u, of_v, to } => format!("{}; {} goes from both", self.exchanged(of_u, of_v, to), self.show(to.xy())),
            Reason::Halved { of_u, of_v, from_u, from_v } => {
                let words = format!("{} in u and {} in v are of one family", self.show(&of_u.steps), self.show(&of_v.steps));
                format!("{words}; {} goes from u, {} from v", self.show(from_u), self.show(from_v))
            }
            Reason::RestsDiffer { of_u, of_v, rest_u, rest_v } => {
                format!("{}, {}", self.goes_on("u", u, of_u, rest_u), self.goes_on("v", v, of_v, rest_v))
            }
        }
    }

    /// Row 3: what is missing among the fronts of all members.
    fn clean_front(&self, word: &Word, missing: &str, front: impl Fn(&Word) -> &[u8]) -> String {
        let fronts: Vec<String> = self.words.family(word).map(|member| self.show(front(member))).collect();
        format!("u has the clean front {} of {}; {missing}, {}", self.show(word.xy()), self.show(&word.steps), listed(&fronts))
    }

    /// Rows 4 to 7: which words become the member that is taken.
    fn exchanged(&self, of_u: &Word, of_v: &Word, to: &Word) -> String {
        let becomes = |name: &str, from: &Word| format!("in {name} {} becomes {}", self.show(&from.steps), self.show(&to.steps));
        match (of_u == to, of_v == to) {
            (true, true) => "nothing is exchanged".to_string(),
            (false, true) => becomes("u", of_u),
            (true, false) => becomes("v", of_v),
            (false, false) => format!("{} and {}", becomes("u", of_u), becomes("v", of_v)),
        }
    }

    /// Row 8: how a run begins, and, where that is so, that it does not go on as its word does.
    fn goes_on(&self, name: &str, run: &[u8], word: &Word, rest: &[u8]) -> String {
        let begins = format!("{name} begins with {} of {}", self.show(word.xy()), self.show(&word.steps));
        match run[word.xy().len()..].starts_with(rest) {
            true => begins,
            false => format!("{begins} and does not go on with {}", self.show(rest)),
        }
    }
}
