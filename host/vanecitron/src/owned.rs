//! The functions that allocate what they give back, a held book that owns its buffer, and its tickets.

use alloc::boxed::Box;
use alloc::vec;
use alloc::vec::Vec;
use core::fmt;

use crate::{
    add, book_of, changes, cut_sheet_into, cuts, front_into, least_into, load, post, program_into, propose_addition, propose_withdrawal, round_into,
    withdraw,
};
use crate::{Cut, Refusal, RoundLengths};
use crate::{HELD, NEXT_MARK, NEXT_RUN, OUTPUT, RUN, SHEET, SHEET_SIDE, SIDE, TICKET, TICKET_ADDITION};

/// What a single round gives: the end, or the next u, v and p.
#[derive(Debug, Clone, PartialEq, Eq, Hash)]
pub enum Round {
    Same,
    Different,
    Next { u: Vec<u8>, v: Vec<u8>, p: Vec<u8> },
}

/// The cut of each side in order, with its number of pieces.
///
/// ```
/// use vanecitron::{cut_sheet, Cut, PieceCount};
///
/// // a = b over two letters: no side has a piece but the empty run
/// let book = [1, 0, 1, 0, 2, 4, 0, 2, 0, 1, 1, 0, 1];
/// assert_eq!(cut_sheet(&book)?, [Cut { x: 0, y: 1, z: 0, pieces: PieceCount::NoProduct }; 2]);
/// # Ok::<(), vanecitron::Refusal>(())
/// ```
pub fn cut_sheet(book: &[u8]) -> Result<Vec<Cut>, Refusal> {
    let mut sheet = [0; SHEET];
    let rules = cut_sheet_into(book, &mut sheet)?;
    Ok(cuts_of(&sheet, rules))
}

/// The cuts on the sheet of a book with so many rules.
fn cuts_of(sheet: &[u8], rules: usize) -> Vec<Cut> {
    cuts(&sheet[..2 * SHEET_SIDE * rules]).collect()
}

/// One round from u, v and the front mark p.
///
/// ```
/// use vanecitron::{round, Round};
///
/// // no rules: a round drops a step that both runs begin with
/// let book = [1, 0, 1, 0, 2];
/// assert_eq!(round(&book, &[0, 1], &[0], &[])?, Round::Next { u: vec![1], v: vec![], p: vec![] });
/// assert_eq!(round(&book, &[1], &[], &[])?, Round::Different);
/// assert_eq!(round(&book, &[], &[], &[])?, Round::Same);
/// # Ok::<(), vanecitron::Refusal>(())
/// ```
pub fn round(book: &[u8], u: &[u8], v: &[u8], p: &[u8]) -> Result<Round, Refusal> {
    let (mut next_u, mut next_v, mut next_p) = (vec![0; NEXT_RUN], vec![0; NEXT_RUN], vec![0; NEXT_MARK]);
    match round_into(book, u, v, p, &mut next_u, &mut next_v, &mut next_p)? {
        RoundLengths::Same => Ok(Round::Same),
        RoundLengths::Different => Ok(Round::Different),
        RoundLengths::Next { u, v, p } => {
            next_u.truncate(u);
            next_v.truncate(v);
            next_p.truncate(p);
            Ok(Round::Next { u: next_u, v: next_v, p: next_p })
        }
    }
}

/// The least run of a run, as [`least_into`] writes it.
///
/// ```
/// use vanecitron::{least, BookWriter, BOOK};
///
/// // four letters, and the rule abdc = cadb: cadbadb and abdcadb have the least run abdabdc
/// let mut bytes = [0; BOOK];
/// let mut book = BookWriter::new(&mut bytes, 4)?;
/// book.rule(&[0, 1, 3, 2], &[2, 0, 3, 1])?;
/// assert_eq!(least(book.bytes(), &[2, 0, 3, 1, 0, 3, 1])?, [0, 1, 3, 0, 1, 3, 2]);
/// assert_eq!(least(book.bytes(), &[0, 1, 3, 2, 0, 3, 1])?, [0, 1, 3, 0, 1, 3, 2]);
/// assert_eq!(least(book.bytes(), &[])?, []);
/// # Ok::<(), Box<dyn std::error::Error>>(())
/// ```
pub fn least(book: &[u8], run: &[u8]) -> Result<Vec<u8>, Refusal> {
    written(run, |buffer| least_into(book, run, buffer, 0))
}

/// What is left of a run once a front is taken off it, as [`front_into`] writes it.
///
/// ```
/// use vanecitron::{front, BookWriter, Reason, BOOK};
///
/// // four letters, and the rule abdc = cadb: cadbadb and abdcadb are joined to abdabdc, which is a followed by bdabdc
/// let mut bytes = [0; BOOK];
/// let mut book = BookWriter::new(&mut bytes, 4)?;
/// book.rule(&[0, 1, 3, 2], &[2, 0, 3, 1])?;
/// assert_eq!(front(book.bytes(), &[2, 0, 3, 1, 0, 3, 1], &[0])?, [1, 3, 0, 1, 3, 2]);
/// assert_eq!(front(book.bytes(), &[0, 1, 3, 2, 0, 3, 1], &[0])?, [1, 3, 0, 1, 3, 2]);
/// assert_eq!(front(book.bytes(), &[0], &[0])?, []);
/// assert_eq!(front(book.bytes(), &[0], &[2]).unwrap_err().reason, Reason::NoFront);
/// # Ok::<(), Box<dyn std::error::Error>>(())
/// ```
pub fn front(book: &[u8], run: &[u8], piece: &[u8]) -> Result<Vec<u8>, Refusal> {
    written(run, |buffer| front_into(book, run, piece, buffer, 0))
}

/// The run that is written for a run, in a buffer with room for it.
fn written(run: &[u8], write: impl FnOnce(&mut [u8]) -> Result<usize, Refusal>) -> Result<Vec<u8>, Refusal> {
    // no step comes to more than a side's; a run over its limit is refused
    let mut buffer = vec![0; SIDE * run.len().min(RUN)];
    let length = write(&mut buffer)?;
    buffer.truncate(length);
    Ok(buffer)
}

/// The program's whole output for an input.
///
/// ```
/// use vanecitron::{program, BookWriter, BOOK};
///
/// let mut bytes = [0; BOOK];
/// let mut input = BookWriter::new(&mut bytes, 4)?;
/// input.rule(&[0, 1, 3, 2], &[2, 0, 3, 1])?;
/// input.comparison(100, &[0, 1, 3, 2], &[2, 0, 3, 1])?;
/// input.comparison(1, &[0, 1, 3, 2], &[2, 0, 3, 1])?;
/// assert_eq!(program(input.bytes())?, b"book 1\nsame 2\nrefused 11 1\n");
/// # Ok::<(), Box<dyn std::error::Error>>(())
/// ```
pub fn program(input: &[u8]) -> Result<Vec<u8>, Refusal> {
    let mut output = vec![0; OUTPUT];
    let length = program_into(input, &mut output)?;
    output.truncate(length);
    Ok(output)
}

/// A held book in a buffer of its own: a book that is accepted, and that a rule can be added to and withdrawn from. A change that is refused leaves it as
/// it was. A change can be proposed, and posted by its [`Ticket`]. [`load`](crate::load) and the functions beside it do the same over a lent array, for
/// `core` alone.
///
/// ```
/// use vanecitron::{compare, rule_record, Comparison, HeldBook, Place, Reason, RULE};
///
/// // four letters, and the rule abdc = cadb
/// let mut held = HeldBook::load(&[1, 0, 1, 0, 4, 10, 0, 2, 0, 4, 4, 0, 1, 3, 2, 2, 0, 3, 1])?;
///
/// // with cadb = bcda beside it, abdc and bcda are of one family
/// let (u, v) = ([0, 1, 3, 2], [1, 2, 3, 0]);
/// let mut bytes = [0; RULE];
/// let cuts = held.add(rule_record(&mut bytes, &[2, 0, 3, 1], &v)?)?;
/// assert_eq!(cuts.len(), 4);
/// assert_eq!(compare(held.book(), &u, &v, 100)?, Comparison::Same { rounds: 2 });
///
/// // a = aa is loose, on side 4 of the book that it would make
/// let refusal = held.add(rule_record(&mut bytes, &[0], &[0, 0])?).unwrap_err();
/// assert_eq!((refusal.reason, refusal.place), (Reason::Loose, Place::Side(4)));
/// assert_eq!((held.book().len(), held.changes()), (33, 1));
///
/// // without abdc = cadb there is one rule left, cadb = bcda
/// assert_eq!(held.withdraw(0)?.len(), 2);
/// assert_eq!(compare(held.book(), &u, &v, 100)?, Comparison::Different { rounds: 0 });
/// # Ok::<(), Box<dyn std::error::Error>>(())
/// ```
#[derive(Clone)]
pub struct HeldBook {
    held: Box<[u8]>,
}

impl HeldBook {
    /// Checks a book and holds it.
    pub fn load(book: &[u8]) -> Result<HeldBook, Refusal> {
        let mut held = vec![0; HELD].into_boxed_slice();
        load(book, &mut held)?;
        Ok(HeldBook { held })
    }

    /// Adds a rule, given as its record and nothing else, behind the others; gives the cut of each side of the new book in order.
    pub fn add(&mut self, record: &[u8]) -> Result<Vec<Cut>, Refusal> {
        let mut sheet = [0; SHEET];
        let rules = add(&mut self.held, record, &mut sheet)?;
        Ok(cuts_of(&sheet, rules))
    }

    /// Withdraws a rule by its index from 0; gives the cut of each side of the new book in order. It is refused by 15 and 17 alone: there is no such rule,
    /// or the book has had all its changes.
    pub fn withdraw(&mut self, rule: usize) -> Result<Vec<Cut>, Refusal> {
        let mut sheet = [0; SHEET];
        let rules = withdraw(&mut self.held, rule, &mut sheet)?;
        Ok(cuts_of(&sheet, rules))
    }

    /// Proposes an addition: gives the cut of each side of the book that there would be, in order, and the ticket of the change. Nothing is changed.
    pub fn propose_addition(&self, record: &[u8]) -> Result<(Vec<Cut>, Ticket), Refusal> {
        let (mut sheet, mut bytes) = ([0; SHEET], [0; TICKET]);
        let rules = propose_addition(&self.held, record, &mut sheet, &mut bytes)?;
        Ok((cuts_of(&sheet, rules), Ticket { bytes }))
    }

    /// Proposes a withdrawal by the index of its rule from 0, likewise. It is refused by 15 alone.
    pub fn propose_withdrawal(&self, rule: usize) -> Result<(Vec<Cut>, Ticket), Refusal> {
        let (mut sheet, mut bytes) = ([0; SHEET], [0; TICKET]);
        let rules = propose_withdrawal(&self.held, rule, &mut sheet, &mut bytes)?;
        Ok((cuts_of(&sheet, rules), Ticket { bytes }))
    }

    /// Posts a ticket: makes its change, and gives the cut of each side of the new book in order. It is refused by 16 after any other change.
    pub fn post(&mut self, ticket: &Ticket) -> Result<Vec<Cut>, Refusal> {
        let mut sheet = [0; SHEET];
        let rules = post(&mut self.held, &ticket.bytes, &mut sheet)?;
        Ok(cuts_of(&sheet, rules))
    }

    /// The book, for every function that takes one.
    pub fn book(&self) -> &[u8] {
        book_of(&self.held)
    }

    /// How often it was changed since it was loaded; at most [`CHANGES_MOST`](crate::CHANGES_MOST). After so many, loading its own [`book`](HeldBook::book)
    /// begins anew.
    pub fn changes(&self) -> u64 {
        changes(&self.held)
    }
}

impl fmt::Debug for HeldBook {
    fn fmt(&self, f: &mut fmt::Formatter<'_>) -> fmt::Result {
        f.debug_struct("HeldBook").field("book", &self.book()).field("changes", &self.changes()).finish()
    }
}

/// A proposed change, with the count of changes that the held book had then. [`HeldBook::post`] makes it, where there was no change since.
///
/// Its bytes may be stored, and a ticket may be made of any bytes: what they say is checked when it is posted. It has no mark of its book, so that tickets of
/// several held books are kept apart by the caller.
///
/// ```
/// use vanecitron::{rule_record, HeldBook, Reason, Ticket, RULE};
///
/// // four letters, and the rule abdc = cadb; two rules are proposed
/// let mut held = HeldBook::load(&[1, 0, 1, 0, 4, 10, 0, 2, 0, 4, 4, 0, 1, 3, 2, 2, 0, 3, 1])?;
/// let mut bytes = [0; RULE];
/// let (cuts, first) = held.propose_addition(rule_record(&mut bytes, &[2, 0, 3, 1], &[1, 2, 3, 0])?)?;
/// let (_, second) = held.propose_addition(rule_record(&mut bytes, &[0, 2, 2, 1], &[1, 1, 0, 0])?)?;
/// assert_eq!((cuts.len(), held.book().len(), held.changes()), (4, 19, 0));
///
/// // the first is stored and posted; the second is then stale
/// let stored = first.to_bytes();
/// assert_eq!(held.post(&Ticket::from_bytes(stored))?, cuts);
/// assert_eq!(held.post(&second).unwrap_err().reason, Reason::StaleTicket);
/// assert_eq!((second.changes(), held.changes()), (0, 1));
/// # Ok::<(), Box<dyn std::error::Error>>(())
/// ```
#[derive(Clone, PartialEq, Eq, Hash)]
pub struct Ticket {
    bytes: [u8; TICKET],
}

impl Ticket {
    /// The ticket of these bytes, whatever they are.
    pub fn from_bytes(bytes: [u8; TICKET]) -> Ticket {
        Ticket { bytes }
    }

    /// Its bytes.
    pub fn to_bytes(&self) -> [u8; TICKET] {
        self.bytes
    }

    /// The count of changes that it was given at.
    pub fn changes(&self) -> u64 {
        self.field(0).into()
    }

    /// The field of two bytes at a place.
    fn field(&self, at: usize) -> u16 {
        u16::from_le_bytes([self.bytes[at], self.bytes[at + 1]])
    }
}

/// Its count and its change: the record of an addition, as far as it has the bytes, or the index of a withdrawal.
impl fmt::Debug for Ticket {
    fn fmt(&self, f: &mut fmt::Formatter<'_>) -> fmt::Result {
        let (kind, number, behind) = (self.field(2), self.field(4), &self.bytes[6..]);
        let mut told = f.debug_struct("Ticket");
        told.field("changes", &self.changes());
        match kind {
            TICKET_ADDITION => told.field("addition", &&behind[..behind.len().min(number.into())]),
            _ => told.field("withdrawal", &number),
        };
        told.finish()
    }
}
