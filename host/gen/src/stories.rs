//! Stories of held books: a book that is loaded, and changes of it one after the other, made, proposed or posted. What a change is made for depends on the book that is
//! held by then, and on the tickets that were given, which whoever tells the story knows.

use crate::{books, damage, inputs, shared, tickets, Book, Chance};

/// Most relations of a book, and the bytes of one on a sheet.
const RELATIONS: usize = 32;
const SHEET_RELATION: usize = 8;

/// A change of a held book, with the size of the sheet's buffer.
#[derive(Debug, Clone, PartialEq, Eq)]
pub enum Change {
    Add { record: Vec<u8>, size: usize },
    Withdraw { relation: usize, size: usize },
}

/// An act of a story with tickets: a change, a proposal with the size of the ticket's buffer, a posting with the size of the sheet's, or the loading of what is held.
#[derive(Debug, Clone, PartialEq, Eq)]
pub enum Act {
    Make(Change),
    Propose { change: Change, room: usize },
    Post { ticket: Vec<u8>, size: usize },
    Load,
}

/// A story under way.
#[derive(Debug, Clone)]
pub struct Story {
    /// the book that is loaded
    pub book: Book,
    /// words that make an accepted book, in whatever way relations join them
    words: Vec<Vec<u8>>,
    /// how many relations the changes lead to for now
    aim: usize,
}

impl Story {
    /// A story with the words of a book that is accepted. It begins with that book, or with none, a few, 31 or 32 relations between any of its words.
    pub fn new(chance: &mut Chance, accepted: &Book) -> Story {
        let words = shared::distinct(&accepted.words);
        let relations = match chance.below(7) {
            0 => Some(0),
            1 | 2 => Some(chance.between(1, 6)),
            3 | 4 => Some(RELATIONS - 1),
            5 => Some(RELATIONS),
            _ => None,
        };
        let book = match relations {
            Some(relations) if !words.is_empty() => between(chance, accepted.letters, &words, relations),
            _ => accepted.clone(),
        };
        let aim = book.relations();
        Story { book, words, aim }
    }

    /// The next change, where this book is held.
    pub fn change(&mut self, chance: &mut Chance, held: &Book) -> Change {
        if chance.once_in(50) {
            self.aim = *chance.pick(&[0, 1, 4, 8, 8, RELATIONS - 1, RELATIONS, RELATIONS]);
        }
        let relations = held.relations();
        match chance.below(10) {
            0 | 1 => {
                let good = self.good_record(chance, held);
                Change::Add { record: spoiled_record(chance, &good, held.letters), size: any_size(chance, relations + 1) }
            }
            2 => Change::Add { record: loose_record(chance, held), size: any_size(chance, relations + 1) },
            3 => Change::Withdraw { relation: absent(chance, relations), size: any_size(chance, relations.saturating_sub(1)) },
            4 => self.with_little_room(chance, held),
            _ => self.towards_aim(chance, held),
        }
    }

    /// The next act, where this book is held with this count of changes: a change, a proposal, a posting, or seldom a new loading. The tickets are those of the story, and
    /// of another.
    pub fn act(&mut self, chance: &mut Chance, held: &Book, count: u16, given: &[Vec<u8>], others: &[Vec<u8>]) -> Act {
        if chance.once_in(60) {
            return Act::Load;
        }
        match chance.below(8) {
            0 => Act::Make(self.change(chance, held)),
            1..=3 => Act::Propose { change: self.change(chance, held), room: tickets::room(chance) },
            _ => {
                let ticket = self.ticket(chance, held, count, given, others);
                Act::Post { ticket, size: any_size_or_enough(chance, held.relations()) }
            }
        }
    }

    /// A ticket to post: the last of the story, an earlier one, one of another story, either with the count of the book, an altered one, or a made-up one.
    fn ticket(&self, chance: &mut Chance, held: &Book, count: u16, given: &[Vec<u8>], others: &[Vec<u8>]) -> Vec<u8> {
        let last = &given[given.len().saturating_sub(1)..];
        let some: &[Vec<u8>] = [last, last, last, given, others][chance.below(5)];
        if some.is_empty() || chance.once_in(8) {
            let good = self.good_record(chance, held);
            return tickets::made_up(chance, count, &good, held.letters);
        }
        let ticket: &Vec<u8> = chance.pick(some);
        match chance.below(8) {
            0 => tickets::altered(chance, ticket),
            1 => tickets::with_count(ticket, count),
            _ => ticket.clone(),
        }
    }

    /// An addition or a withdrawal that is accepted, unless the book is full or has no relation.
    fn towards_aim(&self, chance: &mut Chance, held: &Book) -> Change {
        let relations = held.relations();
        if relations < self.aim || (relations == self.aim && chance.once_in(2)) {
            return Change::Add { record: self.good_record(chance, held), size: enough(chance, relations + 1) };
        }
        Change::Withdraw { relation: present(chance, relations), size: enough(chance, relations.saturating_sub(1)) }
    }

    /// The same in a buffer that is too small for the sheet: by a byte, by more, or altogether.
    fn with_little_room(&self, chance: &mut Chance, held: &Book) -> Change {
        let mut little = |relations: usize| {
            let size = SHEET_RELATION * relations;
            [0, size.saturating_sub(1), size.saturating_sub(1), chance.below(size + 1)][chance.below(4)]
        };
        let (more, fewer) = (little(held.relations() + 1), little(held.relations().saturating_sub(1)));
        match chance.below(2) {
            0 => Change::Add { record: self.good_record(chance, held), size: more },
            _ => Change::Withdraw { relation: present(chance, held.relations()), size: fewer },
        }
    }

    /// The record of a relation with which an accepted book that has the story's words stays accepted.
    pub fn good_record(&self, chance: &mut Chance, held: &Book) -> Vec<u8> {
        if self.words.is_empty() {
            let letter = chance.below(held.letters as usize) as u8;
            return books::rule(&[letter], &[letter]);
        }
        let [left, right] = rule(chance, &self.words, held);
        books::rule(&left, &right)
    }
}

/// A book of so many relations between any of the words.
fn between(chance: &mut Chance, letters: u8, words: &[Vec<u8>], relations: usize) -> Book {
    let mut book = Book::new(letters, Vec::new());
    while book.relations() < relations {
        let rule = rule(chance, words, &book);
        book.words.extend(rule);
    }
    book
}

/// A relation between two of the words, mostly of one that the book has, often in its last relation, and of one that it has not: so many a relation is the only bridge
/// between two parts of a family.
fn rule(chance: &mut Chance, words: &[Vec<u8>], book: &Book) -> [Vec<u8>; 2] {
    let fresh: Vec<&Vec<u8>> = words.iter().filter(|word| !book.words.contains(word)).collect();
    let last = &book.words[book.words.len().saturating_sub(2)..];
    let one: &Vec<u8> = match chance.below(4) {
        0 if !last.is_empty() => chance.pick(&book.words),
        1 | 2 if !last.is_empty() => chance.pick(last),
        _ => chance.pick(words),
    };
    let other = if fresh.is_empty() || chance.once_in(4) { chance.pick(words) } else { *chance.pick(&fresh) };
    let (left, right) = if chance.once_in(2) { (one, other) } else { (other, one) };
    [left.clone(), right.clone()]
}

/// A size of the sheet's buffer that is enough for so many relations.
fn enough(chance: &mut Chance, relations: usize) -> usize {
    SHEET_RELATION * relations + if chance.once_in(3) { chance.between(1, 20) } else { 0 }
}

/// Any size: none at all, a byte less than enough, just enough, more.
fn any_size(chance: &mut Chance, relations: usize) -> usize {
    match chance.below(4) {
        0 => 0,
        1 => (SHEET_RELATION * relations).saturating_sub(1),
        _ => enough(chance, relations),
    }
}

/// Any size, mostly one that is enough for a relation more than there are.
fn any_size_or_enough(chance: &mut Chance, relations: usize) -> usize {
    if chance.once_in(3) {
        let near = *chance.pick(&[relations.saturating_sub(1), relations, relations + 1]);
        return any_size(chance, near);
    }
    enough(chance, relations + 1)
}

/// The first relation, the last, or any; 0 where there is none.
fn present(chance: &mut Chance, relations: usize) -> usize {
    match relations {
        0 => 0,
        _ => [0, relations - 1, chance.below(relations), chance.below(relations)][chance.below(4)],
    }
}

/// An index that no relation has: the next one, one far off, or one whose low bits some relation has.
fn absent(chance: &mut Chance, relations: usize) -> usize {
    let low = present(chance, relations);
    let far = *chance.pick(&[relations + 200, 256 + low, 65_536 + low, (1 << 32) + low, usize::MAX]);
    *chance.pick(&[relations, relations + 1, RELATIONS, far, far])
}

/// A record that is spoiled in one way, or in several.
pub fn spoiled_record(chance: &mut Chance, good: &[u8], letters: u8) -> Vec<u8> {
    let mut record = good.to_vec();
    for _ in 0..*chance.pick(&[1, 1, 1, 2, 3]) {
        spoil(chance, &mut record, good, letters);
    }
    record
}

/// One way to spoil a record: no bytes, the end cut off, another kind of record, another kind field, bytes behind it, a length field that does not fit, a payload too
/// short to have lengths, a side with too few or too many letters, an unknown code, or any damage.
fn spoil(chance: &mut Chance, record: &mut Vec<u8>, good: &[u8], letters: u8) {
    match chance.below(11) {
        0 => record.clear(),
        1 => record.truncate(chance.below(record.len().max(1))),
        2 => *record = [books::head(letters), inputs::question(5, &[0], &[0]), vec![0, 0, 5, 0]][chance.below(3)].clone(),
        3 => put(record, 2, chance.pick(&[[0, 0], [1, 0], [3, 0], [5, 0], [2, 1], [0, 2], [255, 255]])),
        4 => record.extend([&[0][..], &[2, 0], good][chance.below(3)]),
        5 => wrong_length(chance, record),
        6 => *record = [vec![0, 0, 2, 0], vec![1, 0, 2, 0, 1], vec![2, 0, 2, 0, 255, 1]][chance.below(3)].clone(),
        7 => {
            let (few, many) = (*chance.pick(&[0, 65]), *chance.pick(&[0, 1, 3, 64, 65]));
            let (m, n) = if chance.once_in(2) { (few, many) } else { (many, few) };
            *record = books::rule(&vec![0; m], &vec![0; n]);
        }
        8 | 9 if record.len() > 6 => {
            let at = [6, record.len() - 1, chance.between(6, record.len() - 1)][chance.below(3)];
            record[at] = *chance.pick(&[letters, letters, 64, 255]);
        }
        _ => *record = damage::damaged(chance, record),
    }
}

/// A length field that is one too large or too small, mostly with a byte more or less to match it, so that the record is whole.
fn wrong_length(chance: &mut Chance, record: &mut Vec<u8>) {
    let Some(length) = record.first_chunk().map(|field| u16::from_le_bytes(*field)) else { return };
    let matched = !chance.once_in(3);
    let length = if chance.once_in(2) {
        record.extend(matched.then_some(0));
        length.wrapping_add(1)
    } else {
        record.truncate(record.len() - matched as usize);
        length.wrapping_sub(1)
    };
    put(record, 0, &length.to_le_bytes());
}

/// Puts bytes over those of a record that has them.
fn put(record: &mut [u8], at: usize, bytes: &[u8; 2]) {
    if let Some(field) = record.get_mut(at..at + 2) {
        field.copy_from_slice(bytes);
    }
}

/// The record of a relation that often makes the book loose: at an old side, whose two parts are the new sides; or at a new side, which is short, or a product of factors
/// of old sides.
pub fn loose_record(chance: &mut Chance, held: &Book) -> Vec<u8> {
    if !held.words.is_empty() && chance.once_in(2) {
        let side: &Vec<u8> = chance.pick(&held.words);
        if side.len() > 1 {
            let (left, right) = side.split_at(chance.between(1, side.len() - 1));
            return books::rule(left, right);
        }
    }
    let (left, right) = (loose_word(chance, held), loose_word(chance, held));
    books::rule(&left, &right)
}

/// A short word, a side of the book, or a product of up to three factors of its sides.
fn loose_word(chance: &mut Chance, held: &Book) -> Vec<u8> {
    if held.words.is_empty() || chance.once_in(3) {
        let length = chance.between(1, 3);
        return chance.word(length, held.letters);
    }
    if chance.once_in(4) {
        return chance.pick(&held.words).clone();
    }
    let mut word = Vec::new();
    for _ in 0..chance.between(1, 3) {
        let side: &Vec<u8> = chance.pick(&held.words);
        word.extend(factor(chance, side));
    }
    word.truncate(64);
    word
}

/// A factor of a word, not empty.
fn factor<'a>(chance: &mut Chance, word: &'a [u8]) -> &'a [u8] {
    let from = chance.below(word.len());
    &word[from..chance.between(from + 1, word.len())]
}
