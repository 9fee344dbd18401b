//! One proposal or posting beside the reference: every byte of the held book, of the sheet and of the ticket, and of the guards around them. A proposal keeps every byte
//! of the held book, a posting every byte of the ticket, and a refusal every byte of all.

use gen::stories::Change;
use vectors::hex;

use crate::entries::Refused;
use crate::held::{told, written};
use crate::lent::Lent;
use crate::trial::{of_reference, Trial};

impl Trial<'_> {
    /// The proposal of a change to what a buffer has, with a ticket's buffer of this size; gives what that buffer has then.
    pub fn propose(&mut self, held: &[u8], change: &Change, room: usize) -> (Result<u64, Refused>, Vec<u8>) {
        let (Change::Add { size, .. } | Change::Withdraw { size, .. }) = *change;
        let (mut lent, mut lent_sheet, mut lent_ticket) = (Lent::of(held), Lent::new(size), Lent::new(room));
        let (filled_sheet, filled_ticket) = (lent_sheet.front(size).to_vec(), lent_ticket.front(room).to_vec());
        let (mut sheet, mut ticket) = (filled_sheet.clone(), filled_ticket.clone());
        let (expected, result) = match change {
            Change::Add { record, .. } => (
                reference::propose_add(held, record, &mut sheet, &mut ticket),
                self.entries.propose_add(lent.slice(), record, lent_sheet.slice(), lent_ticket.slice()),
            ),
            Change::Withdraw { relation, .. } => (
                reference::propose_withdraw(held, *relation, &mut sheet, &mut ticket),
                self.entries.propose_withdraw(lent.slice(), *relation, lent_sheet.slice(), lent_ticket.slice()),
            ),
        };
        let expected = expected.map_err(of_reference);
        let call = || format!("plan-{} with a ticket of {room} bytes, of {}", written(change), told(held));
        assert_eq!(result, expected, "{}", call());
        assert_eq!(lent.fault(held), None, "a byte of the held book: {}", call());
        assert_eq!(lent_sheet.fault(&sheet), None, "a byte of the sheet: {}", call());
        assert_eq!(lent_ticket.fault(&ticket), None, "a byte of the ticket: {}", call());
        assert!(expected.is_ok() || (sheet == filled_sheet && ticket == filled_ticket), "a refusal keeps every byte: {}", call());
        self.met(&expected);
        self.tally.tickets.meet_proposal(held, change, room, &expected);
        (expected, ticket)
    }

    /// The posting of a ticket to what a buffer has, which is then what it has after it.
    pub fn post(&mut self, held: &mut Vec<u8>, ticket: &[u8], size: usize) -> Result<u64, Refused> {
        let (mut lent, mut lent_ticket, mut lent_sheet) = (Lent::of(held), Lent::of(ticket), Lent::new(size));
        let filled = lent_sheet.front(size).to_vec();
        let (mut after, mut sheet) = (held.clone(), filled.clone());
        let expected = reference::post(&mut after, ticket, &mut sheet).map_err(of_reference);
        let result = self.entries.post(lent.slice(), lent_ticket.slice(), lent_sheet.slice());
        let call = || format!("the ticket {}.. of {} bytes posted with a sheet of {size}, of {}", shown(ticket), ticket.len(), told(held));
        assert_eq!(result, expected, "{}", call());
        assert_eq!(lent.fault(&after), None, "a byte of the held book: {}", call());
        assert_eq!(lent_sheet.fault(&sheet), None, "a byte of the sheet: {}", call());
        assert_eq!(lent_ticket.fault(ticket), None, "a byte of the ticket: {}", call());
        assert!(expected.is_ok() || (after == *held && sheet == filled), "a refusal keeps every byte: {}", call());
        self.met(&expected);
        self.tally.tickets.meet_posting(held, ticket, size, &expected);
        self.book_of(&after);
        *held = after;
        expected
    }
}

/// The first bytes of a ticket, which are all that a proposal writes.
fn shown(ticket: &[u8]) -> String {
    hex(&ticket[..ticket.len().min(140)])
}
