//! Held books (docs/SPECIFICATION.md, "Rules that come and go"): a book in a buffer that the caller lends and keeps between calls, changed there rule by
//! rule. A change can be looked at before ("Propose, then post"). With the feature `alloc` a `HeldBook` owns its buffer, and a `Ticket` its bytes.
//!
//! What is held is read as any bytes, and none of them is trusted: a buffer that was altered is only ever refused, or taken as the book that it says. So
//! is a ticket that is posted.

use crate::{raw, refusal, Refusal};

/// Loads a book into a held one and gives the number of its rules. It is checked, as by [`check`](crate::check), and put into the buffer, which has at
/// least [`HELD`](crate::HELD) bytes: the length of the book and the count of changes, two bytes each, the lowest first, and then the book. Bytes behind
/// it are untouched. It takes [`CHANGES_MOST`](crate::CHANGES_MOST) changes from here on.
///
/// Without the feature `alloc` this and the functions beside it are the way over a lent array:
///
/// ```
/// use vanecitron::{add, book_of, changes, compare, load, rule_record, withdraw, Comparison, HELD, RULE, SHEET};
///
/// // four letters, and the rule abdc = cadb
/// let book = [1, 0, 1, 0, 4, 10, 0, 2, 0, 4, 4, 0, 1, 3, 2, 2, 0, 3, 1];
/// let mut held = [0; HELD];
/// assert_eq!(load(&book, &mut held)?, 1);
/// assert_eq!((book_of(&held), changes(&held)), (&book[..], 0));
///
/// // with cadb = bcda beside it, abdc and bcda are of one family
/// let (u, v) = ([0, 1, 3, 2], [1, 2, 3, 0]);
/// assert_eq!(compare(book_of(&held), &u, &v, 100)?, Comparison::Different { rounds: 0 });
/// let (mut bytes, mut sheet) = ([0; RULE], [0; SHEET]);
/// assert_eq!(add(&mut held, rule_record(&mut bytes, &[2, 0, 3, 1], &v)?, &mut sheet)?, 2);
/// assert_eq!(compare(book_of(&held), &u, &v, 100)?, Comparison::Same { rounds: 2 });
///
/// // without it the book is as it was
/// assert_eq!(withdraw(&mut held, 1, &mut sheet)?, 1);
/// assert_eq!((book_of(&held), changes(&held)), (&book[..], 2));
/// # Ok::<(), Box<dyn std::error::Error>>(())
/// ```
pub fn load(book: &[u8], held: &mut [u8]) -> Result<usize, Refusal> {
    let result = raw::load(book, held);
    refusal::none(result.refusal, result.place)?;
    Ok(result.rules as usize)
}

/// Adds a rule to a held book, behind the rules that it has, and gives the number of rules then. The record is that of the rule and nothing else;
/// [`rule_record`](crate::rule_record) writes it. The new book is checked as a whole, once. Where it is accepted it takes the place of the old one, the
/// count of changes is one more, and its cut sheet is written as by [`cut_sheet_into`](crate::cut_sheet_into): every side of the book, since a rule can
/// change the cuts and the numbers of pieces of all others. [`SHEET`](crate::SHEET) bytes are always enough.
///
/// A refusal leaves the held book and the sheet as they were. The order of refusals is: 12 of the held buffer, whose number is
/// [`HELD_BUFFER`](crate::HELD_BUFFER); 1 to 6 of the book that is held; 1, 2, 6, 3, 4, 5 of the record, with the number of the held book's bytes as
/// their place; 8 of the new book; 12 of the sheet, whose number is 0; 17, where the book has had all its changes.
///
/// ```
/// use vanecitron::{add, book_of, changes, load, Place, Reason, HELD, SHEET};
///
/// // four letters and no rules; then the rule a = aa, which is loose, and a = e, which has a step too high
/// let mut held = [0; HELD];
/// load(&[1, 0, 1, 0, 4], &mut held)?;
/// let mut sheet = [0; SHEET];
/// let refusal = add(&mut held, &[5, 0, 2, 0, 1, 2, 0, 0, 0], &mut sheet).unwrap_err();
/// assert_eq!((refusal.reason, refusal.place), (Reason::Loose, Place::Side(0)));
/// let refusal = add(&mut held, &[4, 0, 2, 0, 1, 1, 0, 4], &mut sheet).unwrap_err();
/// assert_eq!((refusal.reason, refusal.place), (Reason::UnknownStep, Place::Byte(5)));
/// assert_eq!((book_of(&held).len(), changes(&held)), (5, 0));
///
/// // the rule a = b: neither side is a product of pieces
/// assert_eq!(add(&mut held, &[4, 0, 2, 0, 1, 1, 0, 1], &mut sheet)?, 1);
/// assert_eq!(sheet[..8], [0, 1, 0, 255, 0, 1, 0, 255]);
/// assert_eq!((book_of(&held).len(), changes(&held)), (13, 1));
/// # Ok::<(), vanecitron::Refusal>(())
/// ```
pub fn add(held: &mut [u8], record: &[u8], sheet: &mut [u8]) -> Result<usize, Refusal> {
    let result = raw::add(held, record, sheet);
    refusal::none(result.refusal, result.place)?;
    Ok(result.rules as usize)
}

/// Withdraws a rule from a held book, by its index from 0, and gives the number of rules then; those behind it move down one. The new book is checked,
/// takes the place of the old one and has its sheet written as by [`add`]. Bytes behind it are untouched, so that the last ones of the longer book still
/// stand there.
///
/// The order of refusals is that of [`add`], with 15 instead of those of the record. A withdrawal from a book that loads is never refused by 8.
///
/// ```
/// use vanecitron::{book_of, load, withdraw, Place, Reason, HELD, SHEET};
///
/// // two letters, and the rule a = b
/// let mut held = [0; HELD];
/// load(&[1, 0, 1, 0, 2, 4, 0, 2, 0, 1, 1, 0, 1], &mut held)?;
/// let mut sheet = [0; SHEET];
/// let refusal = withdraw(&mut held, 1, &mut sheet).unwrap_err();
/// assert_eq!((refusal.reason, refusal.place), (Reason::NoSuchRule, Place::Nowhere));
/// assert_eq!(withdraw(&mut held, 0, &mut sheet)?, 0);
/// assert_eq!(book_of(&held), [1, 0, 1, 0, 2]);
/// # Ok::<(), vanecitron::Refusal>(())
/// ```
pub fn withdraw(held: &mut [u8], rule: usize, sheet: &mut [u8]) -> Result<usize, Refusal> {
    let result = raw::withdraw(held, rule, sheet);
    refusal::none(result.refusal, result.place)?;
    Ok(result.rules as usize)
}

/// Proposes an addition: gives the number of rules that there would be, and writes the sheet that [`add`] would write and a ticket, which [`post`] makes the
/// change of. The held book is only read. The ticket's buffer has at least [`TICKET`](crate::TICKET) bytes.
///
/// A ticket is the change and the count of changes now: the count, the kind ([`TICKET_ADDITION`](crate::TICKET_ADDITION) or
/// [`TICKET_WITHDRAWAL`](crate::TICKET_WITHDRAWAL)) and a number n in two bytes each, the lowest first. Of an addition n is the length of the record, which
/// follows; of a withdrawal it is the index. Bytes behind the ticket are untouched.
///
/// The order of refusals is that of [`add`], with 12 of the ticket's buffer, whose number is [`TICKET_BUFFER`](crate::TICKET_BUFFER), in the place of 17. A
/// refusal leaves the sheet and the ticket's buffer as they were.
///
/// ```
/// use vanecitron::{book_of, changes, load, post, propose_addition, Reason, HELD, SHEET, TICKET};
///
/// // two letters and no rules; the rule a = b is proposed
/// let (mut held, mut sheet, mut ticket) = ([0; HELD], [0; SHEET], [0; TICKET]);
/// load(&[1, 0, 1, 0, 2], &mut held)?;
/// let record = [4, 0, 2, 0, 1, 1, 0, 1];
/// assert_eq!(propose_addition(&held, &record, &mut sheet, &mut ticket)?, 1);
/// assert_eq!(sheet[..8], [0, 1, 0, 255, 0, 1, 0, 255]);
/// assert_eq!(ticket[..14], [0, 0, 0, 0, 8, 0, 4, 0, 2, 0, 1, 1, 0, 1]);
/// assert_eq!((book_of(&held).len(), changes(&held)), (5, 0));
///
/// // posted, the rule is there; a second time the ticket is stale
/// assert_eq!(post(&mut held, &ticket, &mut sheet)?, 1);
/// assert_eq!((book_of(&held).len(), changes(&held)), (13, 1));
/// assert_eq!(post(&mut held, &ticket, &mut sheet).unwrap_err().reason, Reason::StaleTicket);
/// # Ok::<(), vanecitron::Refusal>(())
/// ```
pub fn propose_addition(held: &[u8], record: &[u8], sheet: &mut [u8], ticket: &mut [u8]) -> Result<usize, Refusal> {
    let result = raw::propose_add(held, record, sheet, ticket);
    refusal::none(result.refusal, result.place)?;
    Ok(result.rules as usize)
}

/// Proposes a withdrawal, as [`propose_addition`] proposes an addition: what [`withdraw`] would give and write, and a ticket.
///
/// The order of refusals is that of [`withdraw`], with 12 of the ticket's buffer in the place of 17.
///
/// ```
/// use vanecitron::{changes, load, propose_withdrawal, Place, Reason, HELD, SHEET, TICKET, TICKET_BUFFER};
///
/// // two letters, and the rule a = b
/// let (mut held, mut sheet, mut ticket) = ([0; HELD], [0; SHEET], [0; TICKET]);
/// load(&[1, 0, 1, 0, 2, 4, 0, 2, 0, 1, 1, 0, 1], &mut held)?;
/// assert_eq!(propose_withdrawal(&held, 0, &mut sheet, &mut ticket)?, 0);
/// assert_eq!(ticket[..6], [0, 0, 1, 0, 0, 0]);
/// assert_eq!(propose_withdrawal(&held, 1, &mut sheet, &mut ticket).unwrap_err().reason, Reason::NoSuchRule);
/// let refusal = propose_withdrawal(&held, 0, &mut sheet, &mut ticket[1..]).unwrap_err();
/// assert_eq!((refusal.reason, refusal.place), (Reason::Narrow, Place::Buffer(TICKET_BUFFER)));
/// assert_eq!(changes(&held), 0);
/// # Ok::<(), vanecitron::Refusal>(())
/// ```
pub fn propose_withdrawal(held: &[u8], rule: usize, sheet: &mut [u8], ticket: &mut [u8]) -> Result<usize, Refusal> {
    let result = raw::propose_withdraw(held, rule, sheet, ticket);
    refusal::none(result.refusal, result.place)?;
    Ok(result.rules as usize)
}

/// Posts a ticket: makes its change, and gives and writes what [`add`] or [`withdraw`] would; all their checks are made again.
///
/// A ticket is stale after any change that was accepted since it was given, made directly or posted. It has no mark of its book: one of another held book
/// with the same count, or from before a new loading, cannot be told apart from its own. It may be stored, and may be of any length and content: bytes that
/// are not there are read as 0, every kind but [`TICKET_ADDITION`](crate::TICKET_ADDITION) is a withdrawal, and an addition has the n bytes behind the
/// fields, as far as they are there. What is made up is refused, or is a change that would be accepted directly.
///
/// The order of refusals is: 16, where the ticket is stale; 17, where the book has had all its changes; then that of the change, up to 12 of the sheet.
///
/// ```
/// use vanecitron::{changes, load, post, Place, Reason, HELD, SHEET};
///
/// // two letters, and the rule a = b
/// let (mut held, mut sheet) = ([0; HELD], [0; SHEET]);
/// load(&[1, 0, 1, 0, 2, 4, 0, 2, 0, 1, 1, 0, 1], &mut held)?;
///
/// // no bytes are the addition of no bytes, with the count 0
/// let refusal = post(&mut held, &[], &mut sheet).unwrap_err();
/// assert_eq!((refusal.reason, refusal.place), (Reason::Short, Place::Byte(13)));
///
/// // a withdrawal of the first rule, made up for a count of 1, and then of 0
/// let refusal = post(&mut held, &[1, 0, 1, 0, 0, 0], &mut sheet).unwrap_err();
/// assert_eq!((refusal.reason, refusal.place), (Reason::StaleTicket, Place::Nowhere));
/// assert_eq!(post(&mut held, &[0, 0, 1, 0, 0, 0], &mut sheet)?, 0);
/// assert_eq!(changes(&held), 1);
/// # Ok::<(), vanecitron::Refusal>(())
/// ```
pub fn post(held: &mut [u8], ticket: &[u8], sheet: &mut [u8]) -> Result<usize, Refusal> {
    let result = raw::post(held, ticket, sheet);
    refusal::none(result.refusal, result.place)?;
    Ok(result.rules as usize)
}

/// The book of a held one, for every function that takes a book. Of any buffer whatever: the bytes that it says are its book, as far as it has them.
/// They are not checked here.
///
/// ```
/// use vanecitron::book_of;
///
/// assert_eq!(book_of(&[5, 0, 0, 0, 1, 0, 1, 0, 4, 7, 7]), [1, 0, 1, 0, 4]);
/// assert_eq!(book_of(&[5, 0, 0, 0, 1, 0, 1]), [1, 0, 1]);
/// assert_eq!(book_of(&[5, 0, 0]), []);
/// ```
pub fn book_of(held: &[u8]) -> &[u8] {
    let result = raw::held_book(held);
    &held[result.start as usize..][..result.length as usize]
}

/// How often a held book was changed since it was loaded, which is at most [`CHANGES_MOST`](crate::CHANGES_MOST) unless its buffer was altered. 0 of a
/// buffer that has fewer than 4 bytes.
pub fn changes(held: &[u8]) -> u64 {
    raw::held_book(held).changes
}
