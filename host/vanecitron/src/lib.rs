//! Safe Rust functions over the proved library: the C(4) check of a book, its cut sheet, the comparison of two runs, one single round of it, the least
//! run that exchanges make of a run, what is left of a run once a front is taken off it, the whole program as bytes to bytes, and a book that is held and
//! changed rule by rule, each change proposed before where that is wanted.
//!
//! A step is a byte below the book's number of letters; a run is a slice of steps; a rule has two sides, which are runs. A book is given as bytes
//! (docs/SPECIFICATION.md, "Book bytes"), which [`BookWriter`] writes.
//!
//! Every call is reentrant, and a refusal leaves every lent byte as it was. Every call checks its book again, since nothing is kept between calls: under
//! a microsecond for a book of one rule with sides of 4 steps, 3 microseconds for one with sides of 64, and 0.8 milliseconds for a full book, 32 such rules
//! (docs/DECISIONS.md, "Cost grows"). [`program_into`] checks its book once for all comparisons of its input. A change of a held book, by [`add`] or
//! [`withdraw`], costs one check, that of the new book, which gives its sheet too. A proposal costs one as well, and so does [`post`].
//!
//! The crate needs `core` alone. The functions whose names end in `_into`, and those on a held book, write to buffers that the caller lends; those that
//! allocate what they give back, `HeldBook` and `Ticket` come with the feature `alloc`, which is on unless it is turned off.
//!
//! ```
//! use vanecitron::{ample_allowance, compare, cut_sheet_into, BookWriter, Comparison, BOOK, SHEET, SHEET_SIDE};
//!
//! // four letters, and the rule abdc = cadb
//! let mut bytes = [0; BOOK];
//! let mut book = BookWriter::new(&mut bytes, 4)?;
//! book.rule(&[0, 1, 3, 2], &[2, 0, 3, 1])?;
//!
//! // an allowance that no comparison of a first run of 7 steps spends
//! let mut sheet = [0; SHEET];
//! let rules = cut_sheet_into(book.bytes(), &mut sheet)?;
//! let allowance = ample_allowance(&sheet[..2 * SHEET_SIDE * rules], 7);
//! assert_eq!(allowance, 21);
//!
//! // cadbadb and abdabdc are joined by a chain of exchanges; cadbadb and abdabda are not
//! let u = [2, 0, 3, 1, 0, 3, 1];
//! assert_eq!(compare(book.bytes(), &u, &[0, 1, 3, 0, 1, 3, 2], allowance)?, Comparison::Same { rounds: 3 });
//! assert!(matches!(compare(book.bytes(), &u, &[0, 1, 3, 0, 1, 3, 0], allowance)?, Comparison::Different { .. }));
//! # Ok::<(), Box<dyn std::error::Error>>(())
//! ```

#![no_std]

#[cfg(feature = "alloc")]
extern crate alloc;

mod book;
mod held;
#[cfg(feature = "alloc")]
mod owned;
mod raw;
mod refusal;
mod sheet;

pub use book::{rule_record, BookWriter, NoRoom, BOOK, RULE};
pub use held::{add, book_of, changes, load, post, propose_addition, propose_withdrawal, withdraw};
#[cfg(feature = "alloc")]
pub use owned::{cut_sheet, front, least, program, round, HeldBook, Round, Ticket};
pub use refusal::{Place, Reason, Refusal, Run, HELD_BUFFER, PLACE_SPACING, TICKET_BUFFER};
pub use sheet::{cuts, Cut, PieceCount};

/// The most letters of a book.
pub const LETTERS: usize = 64;
/// The most rules of a book.
pub const RULES: usize = 32;
/// The most steps of a side.
pub const SIDE: usize = 64;
/// The most bytes of a book that is accepted.
pub const BOOK_MOST: usize = 4_293;
/// The most steps of a run that is compared, whose least run is asked for, or off which a front is taken.
pub const RUN: usize = 4_096;
/// The most steps of the single round's u and v.
pub const ROUND_RUN: usize = 4_160;
/// The most steps of the single round's p, and of the front that is taken off.
pub const ROUND_MARK: usize = 64;
/// The most rounds that an allowance can give.
pub const ALLOWANCE: u32 = 4_294_967_295;
/// The bytes of a side on the cut sheet.
pub const SHEET_SIDE: usize = 4;
/// The place of the length of X in a side's bytes on the cut sheet.
pub const SHEET_X: usize = 0;
/// The place of the length of Y.
pub const SHEET_Y: usize = 1;
/// The place of the length of Z.
pub const SHEET_Z: usize = 2;
/// The place of the number of pieces.
pub const SHEET_PIECES: usize = 3;
/// The number of a side that is no product of pieces.
pub const NO_PRODUCT: u8 = 255;
/// The least size of the buffer lent for the cut sheet of any book; [`SHEET_SIDE`] bytes for each of its sides are enough for one.
pub const SHEET: usize = 2 * SHEET_SIDE * RULES;
/// The least size of the buffers lent for the next u and the next v.
pub const NEXT_RUN: usize = 4_224;
/// The least size of the buffer lent for the next p.
pub const NEXT_MARK: usize = 64;
/// The most steps of a least run, and of the run behind a front, 64 for each step of the given run: a buffer with so many bytes behind the offset is enough
/// for every one.
pub const LEAST: usize = 262_144;
/// The most bytes of the program's input.
pub const INPUT: usize = 60_000;
/// The least size of the buffer lent for the program's output.
pub const OUTPUT: usize = 110_022;
/// The least size of the buffer lent for a held book, whatever its rules.
pub const HELD: usize = 4_297;
/// The most changes that a held book takes from loading. Then it is worn: further ones are refused, by 17 if by nothing
/// else, until a book is loaded anew.
pub const CHANGES_MOST: u64 = 60_000;
/// The least size of the buffer lent for a ticket, whatever its change.
pub const TICKET: usize = 140;
/// The kind that a ticket of an addition says.
pub const TICKET_ADDITION: u16 = 0;
/// The kind that a ticket of a withdrawal says.
pub const TICKET_WITHDRAWAL: u16 = 1;

/// A comparison's answer, with the count of rounds.
#[derive(Debug, Clone, Copy, PartialEq, Eq, Hash)]
pub enum Comparison {
    /// a chain of exchanges joins the two runs
    Same { rounds: u64 },
    /// no chain joins them
    Different { rounds: u64 },
}

/// What a single round gives over lent buffers: the end, or the lengths of the next u, v and p.
#[derive(Debug, Clone, Copy, PartialEq, Eq, Hash)]
pub enum RoundLengths {
    Same,
    Different,
    Next { u: usize, v: usize, p: usize },
}

/// The version of the archive that is linked: 10,000 times the first part, 100 times the second, and the third.
///
/// ```
/// let parts = [env!("CARGO_PKG_VERSION_MAJOR"), env!("CARGO_PKG_VERSION_MINOR"), env!("CARGO_PKG_VERSION_PATCH")];
/// let [major, minor, patch] = parts.map(|part| part.parse::<u32>().unwrap());
/// assert_eq!(vanecitron::version(), 10_000 * major + 100 * minor + patch);
/// ```
pub fn version() -> u32 {
    raw::version()
}

/// The number of rules of a book that is accepted: well-formed, within the limits, and C(4) of its distinct sides.
///
/// ```
/// use vanecitron::{check, Place, Reason};
///
/// // four letters and no rules; then the rule a = aa, which is loose
/// assert_eq!(check(&[1, 0, 1, 0, 4]), Ok(0));
/// let refusal = check(&[1, 0, 1, 0, 4, 5, 0, 2, 0, 1, 2, 0, 0, 0]).unwrap_err();
/// assert_eq!((refusal.reason, refusal.place), (Reason::Loose, Place::Side(0)));
/// ```
pub fn check(book: &[u8]) -> Result<usize, Refusal> {
    let result = raw::check(book);
    refusal::none(result.refusal, result.place)?;
    Ok(result.rules as usize)
}

/// Writes the cut sheet of a book and gives the number of its rules. Each side in order has [`SHEET_SIDE`] bytes: the lengths of X, Y and Z, and the smallest
/// number of pieces whose product the side is, [`NO_PRODUCT`] where it is none. X is the longest front of the side that is a piece, Z its longest end that is
/// one, and Y the rest. Bytes behind the sheet are untouched. [`cuts`] tells the sides of a sheet.
///
/// ```
/// use vanecitron::{cut_sheet_into, cuts, PieceCount, SHEET_SIDE};
///
/// // abcde = edcba over five letters: each letter is a piece, and no longer run is
/// let book = [1, 0, 1, 0, 5, 12, 0, 2, 0, 5, 5, 0, 1, 2, 3, 4, 4, 3, 2, 1, 0];
/// let mut sheet = [0; 2 * SHEET_SIDE];
/// assert_eq!(cut_sheet_into(&book, &mut sheet)?, 1);
/// assert_eq!(sheet, [1, 3, 1, 5, 1, 3, 1, 5]);
/// assert!(cuts(&sheet).all(|cut| cut.pieces == PieceCount::Pieces(5)));
/// # Ok::<(), vanecitron::Refusal>(())
/// ```
pub fn cut_sheet_into(book: &[u8], sheet: &mut [u8]) -> Result<usize, Refusal> {
    let result = raw::cut_sheet(book, sheet);
    refusal::none(result.refusal, result.place)?;
    Ok(result.rules as usize)
}

/// An allowance that no comparison of a first run of this length uses up: (k + 2) times the length, where k is the longest Z of the sheet, which is
/// given as its bytes. Plain Rust, outside the proof.
pub fn ample_allowance(sheet: &[u8], first_length: usize) -> u32 {
    let k = cuts(sheet).map(|cut| cut.z as u64).max().unwrap_or(0);
    u32::try_from((k + 2).saturating_mul(first_length as u64)).unwrap_or(ALLOWANCE)
}

/// Compares two runs under a book with an allowance of rounds.
///
/// ```
/// use vanecitron::{compare, Comparison, Place, Reason};
///
/// // no rules: only equal runs are joined, with a round for each step
/// let book = [1, 0, 1, 0, 4];
/// assert_eq!(compare(&book, &[0, 1], &[0, 1], 2), Ok(Comparison::Same { rounds: 2 }));
/// assert_eq!(compare(&book, &[0], &[1], 2), Ok(Comparison::Different { rounds: 0 }));
/// let refusal = compare(&book, &[0, 1], &[0, 1], 1).unwrap_err();
/// assert_eq!((refusal.reason, refusal.place), (Reason::Spent, Place::Rounds(1)));
/// ```
pub fn compare(book: &[u8], u: &[u8], v: &[u8], allowance: u32) -> Result<Comparison, Refusal> {
    let result = raw::compare(book, u, v, allowance);
    refusal::none(result.refusal, result.place)?;
    match result.outcome {
        raw::SAME => Ok(Comparison::Same { rounds: result.rounds }),
        raw::DIFFERENT => Ok(Comparison::Different { rounds: result.rounds }),
        other => another_archive(other),
    }
}

/// One round from u, v and the front mark p; the next ones are written at the start of the three buffers.
/// They have at least [`NEXT_RUN`], `NEXT_RUN` and [`NEXT_MARK`] bytes; an end writes nothing.
pub fn round_into(
    book: &[u8],
    u: &[u8],
    v: &[u8],
    p: &[u8],
    next_u: &mut [u8],
    next_v: &mut [u8],
    next_p: &mut [u8],
) -> Result<RoundLengths, Refusal> {
    let result = raw::round(book, u, v, p, next_u, next_v, next_p);
    refusal::none(result.refusal, result.place)?;
    match result.outcome {
        raw::SAME => Ok(RoundLengths::Same),
        raw::DIFFERENT => Ok(RoundLengths::Different),
        raw::NEXT => Ok(RoundLengths::Next { u: result.u_length as usize, v: result.v_length as usize, p: result.p_length as usize }),
        other => another_archive(other),
    }
}

/// Writes the least run of a run into the buffer from the offset on, and gives its length: of all runs that a chain of exchanges joins to it, the first in
/// dictionary order. A proper front comes before the longer run; else the first steps that differ decide: 32 to 63 come first in rising order, then 0 to 31.
/// Two runs have the same least run exactly when a chain joins them. The bytes before and behind it are untouched; [`LEAST`] bytes are always enough room.
///
/// ```
/// use vanecitron::{least_into, Reason};
///
/// // a = b over two letters; the least run of bab is aaa
/// let book = [1, 0, 1, 0, 2, 4, 0, 2, 0, 1, 1, 0, 1];
/// let mut buffer = [9; 6];
/// assert_eq!(least_into(&book, &[1, 0, 1], &mut buffer, 2)?, 3);
/// assert_eq!(buffer, [9, 9, 0, 0, 0, 9]);
/// assert_eq!(least_into(&book, &[1, 0, 1], &mut buffer, 4).unwrap_err().reason, Reason::NoSpace);
/// # Ok::<(), vanecitron::Refusal>(())
/// ```
pub fn least_into(book: &[u8], run: &[u8], buffer: &mut [u8], offset: usize) -> Result<usize, Refusal> {
    let result = raw::least(book, run, buffer, offset);
    refusal::none(result.refusal, result.place)?;
    Ok(result.length as usize)
}

/// Takes a front off a run: writes the run w into the buffer from the offset on, and gives its length, such that a chain of exchanges joins the piece followed
/// by w to the run; of all such w it is the first in the order of [`least_into`]. The piece is one of the book: the empty run, or a run that stands in two
/// different sides or at two places of one. The run itself need not begin with it. Refusal 18 says that it is no piece, and 19 that there is no w. With
/// the empty piece w is the least run. The bytes before and behind it are untouched; [`LEAST`] bytes are always enough room.
///
/// ```
/// use vanecitron::{front_into, Reason};
///
/// // four letters, and the rule abdc = cadb, where each letter is a piece; abdc with c taken off leaves adb
/// let book = [1, 0, 1, 0, 4, 10, 0, 2, 0, 4, 4, 0, 1, 3, 2, 2, 0, 3, 1];
/// let mut buffer = [9; 6];
/// assert_eq!(front_into(&book, &[0, 1, 3, 2], &[2], &mut buffer, 2)?, 3);
/// assert_eq!(buffer, [9, 9, 0, 3, 1, 9]);
///
/// // no run that is joined to abdc begins with d; ab stands in one side alone; and at 4 there is no room for adb
/// assert_eq!(front_into(&book, &[0, 1, 3, 2], &[3], &mut buffer, 2).unwrap_err().reason, Reason::NoFront);
/// assert_eq!(front_into(&book, &[0, 1, 3, 2], &[0, 1], &mut buffer, 2).unwrap_err().reason, Reason::NotPiece);
/// assert_eq!(front_into(&book, &[0, 1, 3, 2], &[2], &mut buffer, 4).unwrap_err().reason, Reason::NoSpace);
/// # Ok::<(), vanecitron::Refusal>(())
/// ```
pub fn front_into(book: &[u8], run: &[u8], piece: &[u8], buffer: &mut [u8], offset: usize) -> Result<usize, Refusal> {
    let result = raw::front(book, run, piece, buffer, offset);
    refusal::none(result.refusal, result.place)?;
    Ok(result.length as usize)
}

/// Writes the program's whole output for an input and gives its length. The buffer has at least [`OUTPUT`] bytes.
pub fn program_into(input: &[u8], output: &mut [u8]) -> Result<usize, Refusal> {
    let result = raw::program(input, output);
    refusal::none(result.refusal, result.place)?;
    Ok(result.length as usize)
}

/// The archive of this version has no such outcome, so none is made up for it.
fn another_archive(outcome: u32) -> ! {
    panic!("outcome {outcome}: the archive that is linked is not of this crate's version")
}
