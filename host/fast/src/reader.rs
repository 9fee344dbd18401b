//! Reading a book straight into the text (document 01, "Book bytes").

use crate::{refuse, Refusal};

/// Most letters, relations, and letters of a side.
const LETTERS: u8 = 64;
const RELATIONS: usize = 32;
const SIDE: usize = 64;

pub const SIDES: usize = 2 * RELATIONS;
pub const TEXT: usize = SIDES * (SIDE + 1);

/// The most bytes of a book.
pub const BOOK: usize = 5 + RELATIONS * (6 + 2 * SIDE);

/// Where a relation word and its parts lie in the text, its number of pieces, and its family.
#[derive(Debug, Clone, Copy, Default)]
pub struct Word {
    pub start: u16,
    pub x_end: u16,
    pub z_start: u16,
    pub end: u16,
    pub pieces: u8,
    /// the number of its family, which is the lowest member's
    pub family: u8,
    /// the next member of its family, in rising order; `LAST` where there is none
    pub next: u8,
}

/// No further member.
pub const LAST: u8 = 255;

/// The distinct relation words one after the other, each with its fence behind it, and for each side the number of its word.
pub struct Laid {
    pub letters: u8,
    pub words: usize,
    pub sides: usize,
    pub length: usize,
    pub text: [u8; TEXT],
    pub table: [Word; SIDES],
    pub word_of: [u8; SIDES],
}

impl Laid {
    pub fn empty() -> Laid {
        Laid { letters: 0, words: 0, sides: 0, length: 0, text: [0; TEXT], table: [Word::default(); SIDES], word_of: [0; SIDES] }
    }

    pub fn relations(&self) -> usize {
        self.sides / 2
    }

    /// The letters of word i.
    pub fn word(&self, i: usize) -> &[u8] {
        &self.text[self.table[i].start as usize..self.table[i].end as usize]
    }

    /// X of word i.
    #[inline]
    pub fn x(&self, i: usize) -> &[u8] {
        &self.text[self.table[i].start as usize..self.table[i].x_end as usize]
    }

    /// Z of word i.
    #[inline]
    pub fn z(&self, i: usize) -> &[u8] {
        &self.text[self.table[i].z_start as usize..self.table[i].end as usize]
    }

    /// The members of the family of word i other than itself, in rising order.
    #[inline]
    pub fn others(&self, i: usize) -> impl Iterator<Item = usize> + '_ {
        let mut next = self.table[i].family;
        std::iter::from_fn(move || {
            if next as usize == i {
                next = self.table[i].next;
            }
            let member = next;
            (member != LAST).then(|| {
                next = self.table[member as usize].next;
                member as usize
            })
        })
    }

    /// The sides of a relation: each word is laid where it is new, and their families become one.
    fn lay_relation(&mut self, left: &[u8], right: &[u8]) {
        let [a, b] = [self.lay_side(left), self.lay_side(right)].map(|i| self.table[i].family);
        if a != b {
            let (low, high) = (a.min(b), a.max(b));
            for word in &mut self.table[..self.words] {
                word.family = if word.family == high { low } else { word.family };
            }
        }
    }

    /// The number of a side's word.
    fn lay_side(&mut self, side: &[u8]) -> usize {
        let i = (0..self.words).find(|&i| self.word(i) == side).unwrap_or_else(|| self.lay(side));
        self.word_of[self.sides] = i as u8;
        self.sides += 1;
        i
    }

    /// Lays a new word, which is a family of its own.
    fn lay(&mut self, word: &[u8]) -> usize {
        let (start, end) = (self.length, self.length + word.len());
        self.text[start..end].copy_from_slice(word);
        self.text[end] = LETTERS + self.words as u8;
        let (start, end, family) = (start as u16, end as u16, self.words as u8);
        self.table[self.words] = Word { start, x_end: start, z_start: end, end, pieces: 0, family, next: LAST };
        self.words += 1;
        self.length = end as usize + 1;
        self.words - 1
    }

    /// Each word gets the link to the next member of its family.
    fn link(&mut self) {
        let mut next = [LAST; SIDES];
        for i in (0..self.words).rev() {
            let family = self.table[i].family as usize;
            self.table[i].next = next[family];
            next[family] = i as u8;
        }
    }
}

#[inline]
pub fn two_bytes(bytes: &[u8], at: usize) -> usize {
    u16::from_le_bytes([bytes[at], bytes[at + 1]]) as usize
}

/// Reads the records in turn, each in the order 1, 2, 6, 3, 4, 5.
pub fn read(bytes: &[u8], laid: &mut Laid) -> Result<(), Refusal> {
    let mut at = read_head(bytes)?;
    laid.letters = bytes[4];
    while at < bytes.len() {
        let (left, end) = read_rule(bytes, at, laid.letters, laid.relations())?;
        laid.lay_relation(&bytes[at + 6..left], &bytes[left..end]);
        at = end;
    }
    laid.link();
    Ok(())
}

/// The same with nothing laid: the numbers of letters and of relations.
pub fn scan(bytes: &[u8]) -> Result<(u8, usize), Refusal> {
    let (mut at, mut relations) = (read_head(bytes)?, 0);
    while at < bytes.len() {
        (_, at) = read_rule(bytes, at, bytes[4], relations)?;
        relations += 1;
    }
    Ok((bytes[4], relations))
}

/// The end of the record at this place, and its kind.
#[inline]
pub fn record(bytes: &[u8], at: usize) -> Result<(usize, usize), Refusal> {
    if bytes.len() - at < 4 {
        return refuse(1, at);
    }
    let end = at + 4 + two_bytes(bytes, at);
    if end > bytes.len() {
        return refuse(1, at);
    }
    Ok((end, two_bytes(bytes, at + 2)))
}

/// The end of the head.
fn read_head(bytes: &[u8]) -> Result<usize, Refusal> {
    let (end, kind) = record(bytes, 0)?;
    if kind != 1 {
        return refuse(2, 0);
    }
    if end != 5 {
        return refuse(3, 0);
    }
    if bytes[4] == 0 || bytes[4] > LETTERS {
        return refuse(4, 0);
    }
    Ok(end)
}

/// Where the right side of a relation begins, and its end; so many relations stand before it.
#[inline]
fn read_rule(bytes: &[u8], at: usize, letters: u8, relations: usize) -> Result<(usize, usize), Refusal> {
    let (end, kind) = record(bytes, at)?;
    if kind != 2 {
        return refuse(2, at);
    }
    if relations == RELATIONS {
        return refuse(6, at);
    }
    let left = fields(&bytes[at + 4..end], at, letters)?;
    Ok((at + 6 + left, end))
}

/// A relation that is given apart from its book, which has so many letters and relations, as one record and nothing behind it: 1, 2, 6, 3, 4, 5, all at this place.
pub fn read_apart(bytes: &[u8], place: usize, letters: u8, relations: usize) -> Result<(), Refusal> {
    let Ok((end, kind)) = record(bytes, 0) else { return refuse(1, place) };
    if kind != 2 {
        return refuse(2, place);
    }
    if relations == RELATIONS {
        return refuse(6, place);
    }
    if end < bytes.len() {
        return refuse(3, place);
    }
    fields(&bytes[4..end], place, letters).map(|_| ())
}

/// 3, 4 and 5 of a relation's payload, and the length of its left side.
#[inline]
fn fields(payload: &[u8], at: usize, letters: u8) -> Result<usize, Refusal> {
    if payload.len() < 2 {
        return refuse(3, at);
    }
    let (m, n) = (payload[0] as usize, payload[1] as usize);
    if payload.len() != 2 + m + n {
        return refuse(3, at);
    }
    if m == 0 || m > SIDE || n == 0 || n > SIDE {
        return refuse(4, at);
    }
    if payload[2..].iter().fold(0, |most, &code| most.max(code)) >= letters {
        return refuse(5, at);
    }
    Ok(m)
}
