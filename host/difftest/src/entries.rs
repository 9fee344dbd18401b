//! What can be tried: the entries as a trait, the fast version, and the proved library through its wrapper.

/// A refusal's number and place.
pub type Refused = (u32, u64);

/// A comparison's answer that is no refusal, with the count of rounds.
#[derive(Debug, Clone, Copy, PartialEq, Eq)]
pub enum Compared {
    Same(u64),
    Different(u64),
}

/// What the single round gives: the end, or the lengths of the next u, v and p.
#[derive(Debug, Clone, Copy, PartialEq, Eq)]
pub enum Rounded {
    Same,
    Different,
    Next([u64; 3]),
}

/// The seven entries that keep nothing between calls, those of held books, and those of tickets.
pub trait Entries {
    fn name(&self) -> &'static str;
    /// the least size of the program's output buffer
    fn output_size(&self) -> usize;
    fn check(&self, book: &[u8]) -> Result<u64, Refused>;
    fn cut_sheet(&self, book: &[u8], sheet: &mut [u8]) -> Result<u64, Refused>;
    fn round(&self, book: &[u8], words: [&[u8]; 3], next: [&mut [u8]; 3]) -> Result<Rounded, Refused>;
    fn compare(&self, book: &[u8], u: &[u8], v: &[u8], allowance: u32) -> Result<Compared, Refused>;
    fn least(&self, book: &[u8], word: &[u8], buffer: &mut [u8], offset: usize) -> Result<u64, Refused>;
    fn front(&self, book: &[u8], word: &[u8], piece: &[u8], buffer: &mut [u8], offset: usize) -> Result<u64, Refused>;
    fn program(&self, input: &[u8], output: &mut [u8]) -> Result<usize, Refused>;
    fn load(&self, book: &[u8], held: &mut [u8]) -> Result<u64, Refused>;
    fn add(&self, held: &mut [u8], record: &[u8], sheet: &mut [u8]) -> Result<u64, Refused>;
    fn withdraw(&self, held: &mut [u8], relation: usize, sheet: &mut [u8]) -> Result<u64, Refused>;
    fn propose_add(&self, held: &[u8], record: &[u8], sheet: &mut [u8], ticket: &mut [u8]) -> Result<u64, Refused>;
    fn propose_withdraw(&self, held: &[u8], relation: usize, sheet: &mut [u8], ticket: &mut [u8]) -> Result<u64, Refused>;
    fn post(&self, held: &mut [u8], ticket: &[u8], sheet: &mut [u8]) -> Result<u64, Refused>;
    fn book_of<'a>(&self, held: &'a [u8]) -> &'a [u8];
}

/// The fast unverified version.
pub struct Fast;

fn of_fast(refusal: fast::Refusal) -> Refused {
    (refusal.number, refusal.place)
}

impl Entries for Fast {
    fn name(&self) -> &'static str {
        "fast"
    }

    fn output_size(&self) -> usize {
        fast::OUTPUT
    }

    fn check(&self, book: &[u8]) -> Result<u64, Refused> {
        fast::check(book).map_err(of_fast)
    }

    fn cut_sheet(&self, book: &[u8], sheet: &mut [u8]) -> Result<u64, Refused> {
        fast::cut_sheet(book, sheet).map_err(of_fast)
    }

    fn round(&self, book: &[u8], words: [&[u8]; 3], next: [&mut [u8]; 3]) -> Result<Rounded, Refused> {
        match fast::round(book, words, next).map_err(of_fast)? {
            fast::RoundEnd::Same => Ok(Rounded::Same),
            fast::RoundEnd::Different => Ok(Rounded::Different),
            fast::RoundEnd::Next(lengths) => Ok(Rounded::Next(lengths)),
        }
    }

    fn compare(&self, book: &[u8], u: &[u8], v: &[u8], allowance: u32) -> Result<Compared, Refused> {
        match fast::compare(book, u, v, allowance).map_err(of_fast)? {
            fast::Comparison::Same(rounds) => Ok(Compared::Same(rounds)),
            fast::Comparison::Different(rounds) => Ok(Compared::Different(rounds)),
        }
    }

    fn least(&self, book: &[u8], word: &[u8], buffer: &mut [u8], offset: usize) -> Result<u64, Refused> {
        fast::least(book, word, buffer, offset).map_err(of_fast)
    }

    fn front(&self, book: &[u8], word: &[u8], piece: &[u8], buffer: &mut [u8], offset: usize) -> Result<u64, Refused> {
        fast::front(book, word, piece, buffer, offset).map_err(of_fast)
    }

    fn program(&self, input: &[u8], output: &mut [u8]) -> Result<usize, Refused> {
        fast::program(input, output).map_err(of_fast)
    }

    fn load(&self, book: &[u8], held: &mut [u8]) -> Result<u64, Refused> {
        fast::load(book, held).map_err(of_fast)
    }

    fn add(&self, held: &mut [u8], record: &[u8], sheet: &mut [u8]) -> Result<u64, Refused> {
        fast::add(held, record, sheet).map_err(of_fast)
    }

    fn withdraw(&self, held: &mut [u8], relation: usize, sheet: &mut [u8]) -> Result<u64, Refused> {
        fast::withdraw(held, relation, sheet).map_err(of_fast)
    }

    fn propose_add(&self, held: &[u8], record: &[u8], sheet: &mut [u8], ticket: &mut [u8]) -> Result<u64, Refused> {
        fast::propose_add(held, record, sheet, ticket).map_err(of_fast)
    }

    fn propose_withdraw(&self, held: &[u8], relation: usize, sheet: &mut [u8], ticket: &mut [u8]) -> Result<u64, Refused> {
        fast::propose_withdraw(held, relation, sheet, ticket).map_err(of_fast)
    }

    fn post(&self, held: &mut [u8], ticket: &[u8], sheet: &mut [u8]) -> Result<u64, Refused> {
        fast::post(held, ticket, sheet).map_err(of_fast)
    }

    fn book_of<'a>(&self, held: &'a [u8]) -> &'a [u8] {
        fast::book_of(held)
    }
}

/// The proved library through its wrapper.
#[cfg(feature = "proved")]
pub struct Proved;

#[cfg(feature = "proved")]
fn of_proved(refusal: vanecitron::Refusal) -> Refused {
    (refusal.reason.number(), refusal.place.number())
}

#[cfg(feature = "proved")]
impl Entries for Proved {
    fn name(&self) -> &'static str {
        "proved"
    }

    fn output_size(&self) -> usize {
        vanecitron::OUTPUT
    }

    fn check(&self, book: &[u8]) -> Result<u64, Refused> {
        vanecitron::check(book).map(|rules| rules as u64).map_err(of_proved)
    }

    fn cut_sheet(&self, book: &[u8], sheet: &mut [u8]) -> Result<u64, Refused> {
        vanecitron::cut_sheet_into(book, sheet).map(|rules| rules as u64).map_err(of_proved)
    }

    fn round(&self, book: &[u8], [u, v, p]: [&[u8]; 3], [next_u, next_v, next_p]: [&mut [u8]; 3]) -> Result<Rounded, Refused> {
        match vanecitron::round_into(book, u, v, p, next_u, next_v, next_p).map_err(of_proved)? {
            vanecitron::RoundLengths::Same => Ok(Rounded::Same),
            vanecitron::RoundLengths::Different => Ok(Rounded::Different),
            vanecitron::RoundLengths::Next { u, v, p } => Ok(Rounded::Next([u as u64, v as u64, p as u64])),
        }
    }

    fn compare(&self, book: &[u8], u: &[u8], v: &[u8], allowance: u32) -> Result<Compared, Refused> {
        match vanecitron::compare(book, u, v, allowance).map_err(of_proved)? {
            vanecitron::Comparison::Same { rounds } => Ok(Compared::Same(rounds)),
            vanecitron::Comparison::Different { rounds } => Ok(Compared::Different(rounds)),
        }
    }

    fn least(&self, book: &[u8], word: &[u8], buffer: &mut [u8], offset: usize) -> Result<u64, Refused> {
        vanecitron::least_into(book, word, buffer, offset).map(|length| length as u64).map_err(of_proved)
    }

    fn front(&self, book: &[u8], word: &[u8], piece: &[u8], buffer: &mut [u8], offset: usize) -> Result<u64, Refused> {
        vanecitron::front_into(book, word, piece, buffer, offset).map(|length| length as u64).map_err(of_proved)
    }

    fn program(&self, input: &[u8], output: &mut [u8]) -> Result<usize, Refused> {
        vanecitron::program_into(input, output).map_err(of_proved)
    }

    fn load(&self, book: &[u8], held: &mut [u8]) -> Result<u64, Refused> {
        vanecitron::load(book, held).map(|rules| rules as u64).map_err(of_proved)
    }

    fn add(&self, held: &mut [u8], record: &[u8], sheet: &mut [u8]) -> Result<u64, Refused> {
        vanecitron::add(held, record, sheet).map(|rules| rules as u64).map_err(of_proved)
    }

    fn withdraw(&self, held: &mut [u8], relation: usize, sheet: &mut [u8]) -> Result<u64, Refused> {
        vanecitron::withdraw(held, relation, sheet).map(|rules| rules as u64).map_err(of_proved)
    }

    fn propose_add(&self, held: &[u8], record: &[u8], sheet: &mut [u8], ticket: &mut [u8]) -> Result<u64, Refused> {
        vanecitron::propose_addition(held, record, sheet, ticket).map(|rules| rules as u64).map_err(of_proved)
    }

    fn propose_withdraw(&self, held: &[u8], relation: usize, sheet: &mut [u8], ticket: &mut [u8]) -> Result<u64, Refused> {
        vanecitron::propose_withdrawal(held, relation, sheet, ticket).map(|rules| rules as u64).map_err(of_proved)
    }

    fn post(&self, held: &mut [u8], ticket: &[u8], sheet: &mut [u8]) -> Result<u64, Refused> {
        vanecitron::post(held, ticket, sheet).map(|rules| rules as u64).map_err(of_proved)
    }

    fn book_of<'a>(&self, held: &'a [u8]) -> &'a [u8] {
        vanecitron::book_of(held)
    }
}

/// What is tried.
#[cfg(feature = "proved")]
pub fn chosen() -> impl Entries {
    Proved
}

/// What is tried.
#[cfg(not(feature = "proved"))]
pub fn chosen() -> impl Entries {
    Fast
}
