//! One loading or change of a held book beside the reference: every byte of the lent buffers, and of the guards around them.

use gen::stories::Change;
use gen::Book;
use vectors::hex;

use crate::entries::Refused;
use crate::lent::Lent;
use crate::trial::{of_reference, Trial};

/// The least size of the buffer of a held book.
pub const HELD: usize = 4_297;

/// The bytes before the book in it: the length, and the count of changes.
pub const PREFIX: usize = 4;

/// A change as it stands in a line of crates/cases/stdin.
pub fn written(change: &Change) -> String {
    match change {
        Change::Add { record, size } => format!("add:{}:{size}", hex(record)),
        Change::Withdraw { relation, size } => format!("drop:{relation}:{size}"),
    }
}

/// The book that is held, which is well formed.
pub fn present(held: &[u8]) -> Book {
    let read = reference::book::read(reference::book_of(held)).expect("what is held is read");
    Book::new(read.letters, read.sides)
}

/// What is held by the bytes up to some behind the book, and the size of its buffer.
pub(crate) fn told(held: &[u8]) -> String {
    let used = (PREFIX + reference::book_of(held).len() + 8).min(held.len());
    format!("{}.. in {} bytes", hex(&held[..used]), held.len())
}

impl Trial<'_> {
    /// The loading of a book into a buffer of this size; gives what the buffer has then.
    pub fn load(&mut self, book: &[u8], size: usize) -> (Result<u64, Refused>, Vec<u8>) {
        let mut lent = Lent::new(size);
        let mut held = lent.front(size).to_vec();
        let expected = reference::load(book, &mut held).map_err(of_reference);
        let result = self.entries.load(book, lent.slice());
        assert_eq!(result, expected, "held {} in {size} bytes", hex(book));
        assert_eq!(lent.fault(&held), None, "a byte of the held book: held {} in {size} bytes", hex(book));
        self.met(&expected);
        self.tally.held.meet_loading(&expected);
        self.book_of(&held);
        (expected, held)
    }

    /// The book of a buffer.
    pub fn book_of(&mut self, held: &[u8]) {
        assert_eq!(self.entries.book_of(held), reference::book_of(held), "the book of {}", told(held));
        self.tally.calls += 1;
    }

    /// A change of what a buffer has, which is then what it has after the change.
    pub fn change(&mut self, held: &mut Vec<u8>, change: &Change) -> Result<u64, Refused> {
        let (Change::Add { size, .. } | Change::Withdraw { size, .. }) = *change;
        let (mut lent, mut lent_sheet) = (Lent::of(held), Lent::new(size));
        let (mut after, mut sheet) = (held.clone(), lent_sheet.front(size).to_vec());
        let (expected, result) = match change {
            Change::Add { record, .. } => {
                (reference::add(&mut after, record, &mut sheet), self.entries.add(lent.slice(), record, lent_sheet.slice()))
            }
            Change::Withdraw { relation, .. } => {
                (reference::withdraw(&mut after, *relation, &mut sheet), self.entries.withdraw(lent.slice(), *relation, lent_sheet.slice()))
            }
        };
        let expected = expected.map_err(of_reference);
        let call = || format!("{} of {}", written(change), told(held));
        assert_eq!(result, expected, "{}", call());
        assert!(expected.is_ok() || (after == *held && sheet == Lent::new(size).front(size)), "a refusal keeps every byte: {}", call());
        assert_eq!(lent.fault(&after), None, "a byte of the held book: {}", call());
        assert_eq!(lent_sheet.fault(&sheet), None, "a byte of the sheet: {}", call());
        self.met(&expected);
        self.tally.held.meet_change(held, change, &expected);
        self.book_of(&after);
        *held = after;
        expected
    }
}
