//! Tickets (document 01, "Propose, then post"): a change that is looked at before it counts, and the count of changes that the held book had then.
//!
//! A proposal works out what the change would give and writes it down with the ticket. A posting reads the ticket and works everything out again.

use crate::entries::cut_sheet;
use crate::held::{changes_of, hold, new_book, write_two_bytes, Change, COUNTED};
use crate::{refuse, Refusal};

/// The bytes before the record: the count of changes, the kind of change, and the record's length or the index.
const FIELDS: usize = 6;
/// The least size of the lent buffer: the fields, and the longest record of a rule.
pub const TICKET: usize = FIELDS + 4 + 2 + 64 + 64;
/// The number of its buffer in refusal 12.
const TICKET_BUFFER: usize = 2;

/// Proposes the addition of a rule, writes the sheet of the book that there would be and the ticket, and gives the number of rules that there would be.
pub fn propose_add(held: &[u8], record: &[u8], sheet: &mut [u8], ticket: &mut [u8]) -> Result<u64, Refusal> {
    propose(held, &Change::Addition(record.to_vec()), sheet, ticket)
}

/// Proposes the withdrawal of a rule, counted from 0, in the same way.
pub fn propose_withdraw(held: &[u8], rule: usize, sheet: &mut [u8], ticket: &mut [u8]) -> Result<u64, Refusal> {
    propose(held, &Change::Withdrawal(rule), sheet, ticket)
}

/// What the change would give, and its ticket: steps 1 to 4 of the change, and then 12 of the ticket's buffer. The held book is only read.
pub(crate) fn propose(held: &[u8], change: &Change, sheet: &mut [u8], ticket: &mut [u8]) -> Result<u64, Refusal> {
    let mut drawn = sheet.to_vec();
    let rules = cut_sheet(&new_book(held, change)?, &mut drawn)?;
    if ticket.len() < TICKET {
        return refuse(12, TICKET_BUFFER);
    }
    sheet.copy_from_slice(&drawn);
    let bytes = ticket_of(change, changes_of(held));
    ticket[..bytes.len()].copy_from_slice(&bytes);
    Ok(rules)
}

/// Posts a ticket: 16, then 17, then steps 1 to 4 of its change, which is made where none of them holds.
pub fn post(held: &mut [u8], ticket: &[u8], sheet: &mut [u8]) -> Result<u64, Refusal> {
    let (count, change) = read_ticket(ticket);
    if count != changes_of(held) {
        return refuse(16, 0);
    }
    if count >= COUNTED {
        return refuse(17, 0);
    }
    let book = new_book(held, &change)?;
    let rules = cut_sheet(&book, sheet)?;
    hold(&book, count + 1, held);
    Ok(rules)
}

/// The bytes of a ticket.
fn ticket_of(change: &Change, count: usize) -> Vec<u8> {
    let mut bytes = vec![0; FIELDS];
    write_two_bytes(count, &mut bytes, 0);
    match change {
        Change::Addition(record) => {
            write_two_bytes(record.len(), &mut bytes, 4);
            bytes.extend(record);
        }
        Change::Withdrawal(rule) => {
            write_two_bytes(1, &mut bytes, 2);
            write_two_bytes(*rule, &mut bytes, 4);
        }
    }
    bytes
}

/// The count and the change of any ticket. Bytes that are not there are 0, every kind but 0 is a withdrawal, and a record goes as far as the ticket does.
pub fn read_ticket(ticket: &[u8]) -> (usize, Change) {
    let byte = |at: usize| ticket.get(at).map_or(0, |&byte| byte as usize);
    let field = |at: usize| byte(at) + 256 * byte(at + 1);
    let (count, kind, number) = (field(0), field(2), field(4));
    if kind != 0 {
        return (count, Change::Withdrawal(number));
    }
    (count, Change::Addition(ticket.iter().skip(FIELDS).take(number).copied().collect()))
}
