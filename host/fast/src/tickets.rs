//! Tickets: a change of a held book, with the count of changes that it had. A proposal has the new book checked once and moves nothing; a posting reads the ticket and
//! makes its change.

use crate::held::{changes_of, make, Change, Fresh, COUNTED};
use crate::reader::{two_bytes, Laid};
use crate::{refuse, write_sheet, Refusal};

/// The bytes before the record: the count of changes, the kind of change, and the record's length or the index.
const PREFIX: usize = 6;

/// The least size of the lent buffer of a ticket.
pub const TICKET: usize = PREFIX + 134;

/// Proposes the addition of a relation, given as one record; writes the sheet and the ticket, and gives the number of relations that there would be.
pub fn propose_add(held: &[u8], record: &[u8], sheet: &mut [u8], ticket: &mut [u8]) -> Result<u64, Refusal> {
    propose(held, Change::Addition(record), sheet, ticket)
}

/// Proposes the withdrawal of a relation, counted from 0.
pub fn propose_withdraw(held: &[u8], relation: usize, sheet: &mut [u8], ticket: &mut [u8]) -> Result<u64, Refusal> {
    propose(held, Change::Withdrawal(relation), sheet, ticket)
}

fn propose(held: &[u8], change: Change, sheet: &mut [u8], ticket: &mut [u8]) -> Result<u64, Refusal> {
    let mut laid = Laid::empty();
    Fresh::empty().change(held, change, &mut laid, sheet.len())?;
    if ticket.len() < TICKET {
        return refuse(12, 2);
    }
    write_ticket(change, changes_of(held), ticket);
    Ok(write_sheet(&laid, sheet))
}

fn write_ticket(change: Change, changes: u16, ticket: &mut [u8]) {
    let (kind, number, record) = match change {
        Change::Addition(record) => (0u16, record.len(), record),
        Change::Withdrawal(relation) => (1, relation, &[][..]),
    };
    ticket[..2].copy_from_slice(&changes.to_le_bytes());
    ticket[2..4].copy_from_slice(&kind.to_le_bytes());
    ticket[4..PREFIX].copy_from_slice(&(number as u16).to_le_bytes());
    ticket[PREFIX..PREFIX + record.len()].copy_from_slice(record);
}

/// Makes the change of a ticket that is not stale, writes the new sheet, and gives the new number of relations.
pub fn post(held: &mut [u8], ticket: &[u8], sheet: &mut [u8]) -> Result<u64, Refusal> {
    let mut fields = [0; PREFIX];
    let there = ticket.len().min(PREFIX);
    fields[..there].copy_from_slice(&ticket[..there]);
    let changes = changes_of(held);
    if two_bytes(&fields, 0) as u16 != changes {
        return refuse(16, 0);
    }
    if changes >= COUNTED {
        return refuse(17, 0);
    }
    let number = two_bytes(&fields, 4);
    let change = match two_bytes(&fields, 2) {
        0 => Change::Addition(&ticket[there..ticket.len().min(PREFIX + number)]),
        _ => Change::Withdrawal(number),
    };
    make(held, change, sheet)
}
