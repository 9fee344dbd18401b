//! The bytes of a book, of comparisons behind it, and of a rule alone (docs/SPECIFICATION.md, "Book bytes" and "The program"). Plain Rust, outside the proof.

use core::fmt;

use crate::{BOOK_MOST, RULES, SIDE};

/// A buffer of so many bytes has room for every book that is accepted; it is [`BOOK_MOST`].
pub const BOOK: usize = 5 + RULES * RULE;

/// The most bytes of the record of a rule that is accepted.
pub const RULE: usize = 6 + 2 * SIDE;

const _: () = assert!(BOOK == BOOK_MOST);

/// A record does not fit: the buffer has no room for it, or a run is longer than its field can say.
#[derive(Debug, Clone, Copy, PartialEq, Eq, Hash)]
pub struct NoRoom;

impl fmt::Display for NoRoom {
    fn fmt(&self, f: &mut fmt::Formatter<'_>) -> fmt::Result {
        f.write_str("a record does not fit into the lent buffer or into its own length fields")
    }
}

impl core::error::Error for NoRoom {}

/// Writes a book into a lent buffer: its head, its rules, and, for an input of the program, comparisons behind them.
///
/// What the format can hold is written, whether a check accepts it or not: the check alone decides. A record that does not fit writes nothing.
///
/// ```
/// use vanecitron::{check, BookWriter, BOOK};
///
/// let mut bytes = [0; BOOK];
/// let mut book = BookWriter::new(&mut bytes, 4)?;
/// book.rule(&[0, 1, 3, 2], &[2, 0, 3, 1])?;
/// assert_eq!(book.bytes(), [1, 0, 1, 0, 4, 10, 0, 2, 0, 4, 4, 0, 1, 3, 2, 2, 0, 3, 1]);
/// assert_eq!(check(book.bytes())?, 1);
/// # Ok::<(), Box<dyn std::error::Error>>(())
/// ```
#[derive(Debug)]
pub struct BookWriter<'a> {
    lent: &'a mut [u8],
    length: usize,
}

impl<'a> BookWriter<'a> {
    /// Begins a book with its head: so many letters.
    pub fn new(lent: &'a mut [u8], letters: u8) -> Result<BookWriter<'a>, NoRoom> {
        let mut book = BookWriter { lent, length: 0 };
        book.record(1, &[&[letters]])?;
        Ok(book)
    }

    /// Adds a rule. A side has at most 255 steps in the format, of which a check accepts [`SIDE`].
    pub fn rule(&mut self, left: &[u8], right: &[u8]) -> Result<(), NoRoom> {
        let length = |side: &[u8]| u8::try_from(side.len()).map_err(|_| NoRoom);
        self.record(2, &[&[length(left)?, length(right)?], left, right])
    }

    /// Adds a comparison, for an input of the program; it stands behind all rules.
    pub fn comparison(&mut self, allowance: u32, u: &[u8], v: &[u8]) -> Result<(), NoRoom> {
        let length = |run: &[u8]| u16::try_from(run.len()).map(u16::to_le_bytes).map_err(|_| NoRoom);
        self.record(3, &[&allowance.to_le_bytes(), &length(u)?, &length(v)?, u, v])
    }

    /// What is written so far.
    pub fn bytes(&self) -> &[u8] {
        &self.lent[..self.length]
    }

    fn record(&mut self, kind: u16, parts: &[&[u8]]) -> Result<(), NoRoom> {
        let payload: usize = parts.iter().map(|part| part.len()).sum();
        let length = u16::try_from(payload).map_err(|_| NoRoom)?;
        if self.lent.len() - self.length < 4 + payload {
            return Err(NoRoom);
        }
        self.put(&length.to_le_bytes());
        self.put(&kind.to_le_bytes());
        parts.iter().for_each(|part| self.put(part));
        Ok(())
    }

    fn put(&mut self, bytes: &[u8]) {
        self.lent[self.length..][..bytes.len()].copy_from_slice(bytes);
        self.length += bytes.len();
    }
}

/// Writes the record of a rule alone into a lent buffer, for [`add`](crate::add), and gives its bytes. [`RULE`] bytes are room for every rule that is accepted.
///
/// ```
/// use vanecitron::{rule_record, RULE};
///
/// let mut bytes = [0; RULE];
/// assert_eq!(rule_record(&mut bytes, &[0, 1], &[2])?, [5, 0, 2, 0, 2, 1, 0, 1, 2]);
/// # Ok::<(), vanecitron::NoRoom>(())
/// ```
pub fn rule_record<'a>(lent: &'a mut [u8], left: &[u8], right: &[u8]) -> Result<&'a [u8], NoRoom> {
    let mut alone = BookWriter { lent, length: 0 };
    alone.rule(left, right)?;
    Ok(&alone.lent[..alone.length])
}
