//! Tickets that no proposal gave: altered ones, and made-up ones.

use crate::{books, stories, Chance};

/// The least size of a ticket's buffer, and the bytes before the record: the count of changes, the kind, and the record's length or the index.
pub const ROOM: usize = 140;
pub const FIELDS: usize = 6;

/// The ticket of an addition, as a proposal writes it.
pub fn addition(count: u16, record: &[u8]) -> Vec<u8> {
    let length = record.len() as u16;
    [&count.to_le_bytes()[..], &[0, 0], &length.to_le_bytes(), record].concat()
}

/// The ticket of a withdrawal, with any kind that is not 0. A proposal writes 1.
pub fn withdrawal(count: u16, kind: u16, relation: u16) -> Vec<u8> {
    [count, kind, relation].iter().flat_map(|field| field.to_le_bytes()).collect()
}

/// A size of a ticket's buffer: none, within the fields, just those, a byte short, enough, and more.
pub fn room(chance: &mut Chance) -> usize {
    *chance.pick(&[0, FIELDS - 1, FIELDS, ROOM - 1, ROOM, ROOM, ROOM, ROOM, ROOM, ROOM + 1, ROOM + 60])
}

/// The same ticket with another count.
pub fn with_count(ticket: &[u8], count: u16) -> Vec<u8> {
    let mut ticket = ticket.to_vec();
    put(&mut ticket, 0, count);
    ticket
}

/// A ticket that was altered: a byte changed, cut off, made longer, or with another kind, length or index.
pub fn altered(chance: &mut Chance, ticket: &[u8]) -> Vec<u8> {
    let mut ticket = ticket.to_vec();
    match chance.below(6) {
        0 if !ticket.is_empty() => {
            let at = chance.below(ticket.len());
            ticket[at] = chance.number() as u8;
        }
        1 => ticket.truncate(chance.below(ticket.len() + 1)),
        2 => ticket.resize(ticket.len() + chance.between(1, 200), *chance.pick(&[0, 2, 170, 255])),
        3 => put(&mut ticket, 2, *chance.pick(&[0, 1, 2, 255, 256, 257, 32_768, u16::MAX])),
        _ => {
            let length = ticket.len() as u16;
            let number = chance.number() as u16;
            let near = length.saturating_sub(FIELDS as u16);
            put(&mut ticket, 4, *chance.pick(&[0, 1, 2, 14, near.saturating_sub(1), near, near + 1, 134, 135, 256, 65_535, number]));
        }
    }
    ticket
}

/// A ticket that nobody gave, with a given count or another one: of an addition, good or spoiled, of a withdrawal by any kind, or of any bytes; of any length.
pub fn made_up(chance: &mut Chance, count: u16, good: &[u8], letters: u8) -> Vec<u8> {
    let number = chance.number() as u16;
    let other = *chance.pick(&[0, 1, count.wrapping_add(1), count.wrapping_sub(1), count.swap_bytes(), count ^ 256, 60_000, u16::MAX, number]);
    let count = if chance.once_in(5) { other } else { count };
    match chance.below(8) {
        0 => addition(count, good),
        1 => addition(count, &stories::spoiled_record(chance, good, letters)),
        2 => addition(count, &[&books::rule(&[0], &[0])[..], good].concat()),
        3 | 4 => {
            let kind = *chance.pick(&[1, 1, 2, 255, 256, 257, 512, 32_768, u16::MAX]);
            let relation = *chance.pick(&[0, 0, 1, 2, 31, 32, 256, 257, u16::MAX]);
            withdrawal(count, kind, relation)
        }
        5 => {
            let ticket = addition(count, good);
            altered(chance, &ticket)
        }
        _ => {
            let length = *chance.pick(&[0, 1, 2, 3, 4, 5, 6, 7, 20, ROOM - 1, ROOM, ROOM + 1, 4_000, 70_000]);
            let any = (0..length).map(|_| chance.number() as u8).collect::<Vec<u8>>();
            let any = if chance.once_in(3) { vec![0; length] } else { any };
            with_count(&any, count)
        }
    }
}

/// Puts a field over the bytes of a ticket, as far as it has them.
fn put(ticket: &mut [u8], at: usize, field: u16) {
    for (byte, value) in ticket.iter_mut().skip(at).zip(field.to_le_bytes()) {
        *byte = value;
    }
}
