//! Rounds (document 01, "Exchanges and rounds"): the decision over words in two parts, the comparison that copies nothing, and the single round.

use crate::index::Index;
use crate::reader::Laid;
use crate::{accept, refuse, Refusal};

/// Most letters of a compared word, of the round's u and v, and of its p; the least sizes of the three lent buffers.
pub const COMPARED: usize = 4_096;
const ROUND_WORD: usize = 4_160;
pub const ROUND_MARK: usize = 64;
const NEXT: [usize; 3] = [4_224, 4_224, 64];

/// A word in two parts, one behind the other.
#[derive(Clone, Copy)]
pub struct Parts<'a> {
    pub a: &'a [u8],
    pub b: &'a [u8],
}

impl<'a> Parts<'a> {
    #[inline]
    fn is_empty(self) -> bool {
        self.a.is_empty() && self.b.is_empty()
    }

    #[inline]
    pub fn first(self) -> Option<u8> {
        self.a.first().or(self.b.first()).copied()
    }

    #[inline]
    pub fn begins(self, front: &[u8]) -> bool {
        if front.len() <= self.a.len() {
            return &self.a[..front.len()] == front;
        }
        let (one, two) = front.split_at(self.a.len());
        one == self.a && self.b.starts_with(two)
    }

    /// The word without its first n letters; it has as many.
    #[inline]
    pub fn skip(self, n: usize) -> Parts<'a> {
        if n <= self.a.len() {
            Parts { a: &self.a[n..], b: self.b }
        } else {
            Parts { a: &[], b: &self.b[n - self.a.len()..] }
        }
    }
}

/// The next word is a part of the text, and then the old one without some letters.
#[derive(Clone, Copy, Default)]
struct Change {
    from: usize,
    to: usize,
    cut: usize,
}

/// What a round comes to: the end, or the changes of u, v and p.
enum Plan {
    End(bool),
    /// row 2: the first letter of each goes, of p if it has one
    Drop,
    Go(Change, Change, Change),
}

/// What every round works on.
pub struct Ready {
    pub laid: Laid,
    index: Index,
}

impl Ready {
    pub fn new(book: &[u8]) -> Result<Ready, Refusal> {
        let mut laid = Laid::empty();
        accept(book, &mut laid)?;
        let index = Index::new(&laid);
        Ok(Ready { laid, index })
    }

    /// Some XY stands in the word at a place from lo on and below hi.
    #[inline]
    pub fn crowded(&self, u: Parts, lo: usize, hi: usize) -> bool {
        (lo..hi).any(|q| {
            let rest = u.skip(q);
            self.index.find(&self.laid, rest.a, rest.b).is_some()
        })
    }

    /// The relation word whose XY is a clean front of u. At most one XY begins u, clean or not.
    #[inline]
    pub fn clean_front(&self, u: Parts) -> Option<usize> {
        let i = self.index.find(&self.laid, u.a, u.b)?;
        let word = &self.laid.table[i];
        let (x, xy) = ((word.x_end - word.start) as usize, (word.z_start - word.start) as usize);
        if self.crowded(u, x + 1, xy) {
            return None;
        }
        Some(i)
    }

    /// The member of a family whose XY the word begins with. At most one XY begins a word, so that one look-up finds it.
    #[inline]
    fn member(&self, family: u8, word: Parts) -> Option<usize> {
        self.index.find(&self.laid, word.a, word.b).filter(|&j| self.laid.table[j].family == family)
    }

    /// The mark is a front of the X of some member of the family of word i other than i. Mostly it is empty, and i's own X is tried first.
    #[inline]
    fn of_other_x(&self, i: usize, p: &[u8]) -> bool {
        self.laid.others(i).any(|member| self.laid.x(member).starts_with(p))
    }

    /// The rest, which lies in the given word alone, is active for the tail of word i.
    pub fn is_active(&self, i: usize, rest: &[u8]) -> bool {
        let z = self.laid.z(i);
        self.crowded(Parts { a: z, b: rest }, 0, z.len())
    }

    /// The member whose tail row 4 goes on with, where s is not active for that of word i: the first other one for whose tail it is, or else the first.
    /// So where there is one other, or none, nothing is tried.
    #[inline]
    fn other_tail(&self, i: usize, s: Parts) -> usize {
        debug_assert!(s.a.is_empty(), "a whole word is longer than the tail that is held");
        let mut others = self.laid.others(i);
        let Some(first) = others.next() else { return i };
        if others.next().is_none() {
            return first;
        }
        self.active_tail(i, s.b).unwrap_or(first)
    }

    /// The first member of the family of word i other than i for whose tail the rest is active.
    #[inline(never)]
    fn active_tail(&self, i: usize, rest: &[u8]) -> Option<usize> {
        self.laid.others(i).find(|&member| self.is_active(member, rest))
    }

    /// One round: the first row that fits.
    #[inline(always)]
    fn plan(&self, u: Parts, v: Parts, p: &[u8]) -> Plan {
        if u.is_empty() || v.is_empty() {
            return Plan::End(u.is_empty() && v.is_empty() && p.is_empty());
        }
        match self.clean_front(u) {
            None => self.row_2(u, v, p),
            Some(i) => self.rows_3_to_8(i, u, v, p),
        }
    }

    #[inline]
    fn row_2(&self, u: Parts, v: Parts, p: &[u8]) -> Plan {
        let letter = u.first();
        if v.first() != letter || (!p.is_empty() && p.first().copied() != letter) {
            return Plan::End(false);
        }
        Plan::Drop
    }

    #[inline(never)]
    fn rows_3_to_8(&self, i: usize, u: Parts, v: Parts, p: &[u8]) -> Plan {
        let text = &self.laid.text[..];
        let table = &self.laid.table;
        let this = table[i];
        // row 3
        let Some(j) = self.member(this.family, v) else { return Plan::End(false) };
        let of_x = p.is_empty() || self.laid.x(i).starts_with(p);
        if !of_x && !self.of_other_x(i, p) {
            return Plan::End(false);
        }
        let other = table[j];
        let [start, z_start, end] = [this.start, this.z_start, this.end].map(usize::from);
        let [start_, z_start_, end_] = [other.start, other.z_start, other.end].map(usize::from);
        let cleared = Change { from: 0, to: 0, cut: p.len() };
        let cut = |n: usize| Change { from: 0, to: 0, cut: n };
        let (xy, w) = (z_start - start, end - start);
        let (xy_, w_) = (z_start_ - start_, end_ - start_);
        let u_whole = u.skip(xy).begins(&text[z_start..end]);
        let v_whole = v.skip(xy_).begins(&text[z_start_..end_]);
        match (u_whole, v_whole) {
            // row 4
            (true, true) => {
                let tail = if self.crowded(u, xy, w) { this } else { table[self.other_tail(i, u.skip(w))] };
                let (from, to) = (tail.z_start as usize, tail.end as usize);
                Plan::Go(Change { from, to, cut: w }, Change { from, to, cut: w_ }, cleared)
            }
            // row 5
            _ if i == j => {
                let mark = if of_x { cleared } else { Change { from: z_start, to: end, cut: p.len() } };
                Plan::Go(cut(xy), cut(xy), mark)
            }
            // row 6
            (false, true) => Plan::Go(cut(xy), Change { from: z_start, to: end, cut: w_ }, cleared),
            // row 7
            (true, false) => Plan::Go(Change { from: z_start_, to: end_, cut: w }, cut(xy_), cleared),
            // row 8
            (false, false) => {
                let (z, z_) = (&text[z_start..end], &text[z_start_..end_]);
                let shared = z.iter().rev().zip(z_.iter().rev()).take_while(|(x, y)| x == y).count();
                let (e, f) = (&z[..z.len() - shared], &z_[..z_.len() - shared]);
                if u.skip(xy).begins(e) && v.skip(xy_).begins(f) {
                    Plan::Go(cut(w - shared), cut(w_ - shared), Change { from: end - shared, to: end, cut: p.len() })
                } else {
                    Plan::End(false)
                }
            }
        }
    }
}

/// A word of a comparison: the text from `at` to `to`, then the given word from `from` on.
#[derive(Clone, Copy, Default)]
pub struct Held {
    pub at: usize,
    pub to: usize,
    pub from: usize,
}

impl Held {
    #[inline]
    pub fn parts<'a>(self, text: &'a [u8], given: &'a [u8]) -> Parts<'a> {
        Parts { a: &text[self.at..self.to], b: &given[self.from..] }
    }

    /// A tail is put back only where a whole word is cut off, which is never shorter than the tail that is held.
    #[inline]
    fn advance(self, change: Change) -> Held {
        let tail = self.to - self.at;
        if change.cut < tail {
            debug_assert!(change.from == change.to);
            return Held { at: self.at + change.cut, ..self };
        }
        Held { at: change.from, to: change.to, from: self.from + change.cut - tail }
    }

    /// The word without its first n letters; it has as many.
    #[inline]
    pub fn skip(self, n: usize) -> Held {
        self.advance(Change { cut: n, ..Change::default() })
    }

    /// The word without its first letter, which it has.
    #[inline]
    pub fn drop_first(self) -> Held {
        if self.at < self.to {
            Held { at: self.at + 1, ..self }
        } else {
            Held { from: self.from + 1, ..self }
        }
    }
}

/// 9 and then 10 of one given word.
pub fn check_word(word: &[u8], number: usize, limit: usize, letters: u8) -> Result<(), Refusal> {
    if word.len() > limit {
        return refuse(9, 5_000 * number);
    }
    if word.iter().fold(0, |most, &code| most.max(code)) < letters {
        return Ok(());
    }
    match word.iter().position(|&code| code >= letters) {
        Some(position) => refuse(10, 5_000 * number + position),
        None => Ok(()),
    }
}

/// A comparison's answer that is no refusal, with the count of rounds.
#[derive(Debug, Clone, Copy, PartialEq, Eq)]
pub enum Comparison {
    Same(u64),
    Different(u64),
}

/// A book that is checked once for many comparisons.
pub struct Prepared(Ready);

impl Prepared {
    pub fn new(book: &[u8]) -> Result<Prepared, Refusal> {
        Ok(Prepared(Ready::new(book)?))
    }

    pub fn relations(&self) -> usize {
        self.0.laid.relations()
    }

    /// Compares two words with an allowance of rounds.
    pub fn compare(&self, u: &[u8], v: &[u8], allowance: u32) -> Result<Comparison, Refusal> {
        let ready = &self.0;
        check_word(u, 0, COMPARED, ready.laid.letters)?;
        check_word(v, 1, COMPARED, ready.laid.letters)?;
        let text = &ready.laid.text[..];
        let (mut held_u, mut held_v, mut held_p) = (Held::default(), Held::default(), Held::default());
        let mut done = 0u64;
        loop {
            match ready.plan(held_u.parts(text, u), held_v.parts(text, v), &text[held_p.at..held_p.to]) {
                Plan::End(true) => return Ok(Comparison::Same(done)),
                Plan::End(false) => return Ok(Comparison::Different(done)),
                _ if done == allowance as u64 => return refuse(11, done as usize),
                Plan::Drop => {
                    held_u = held_u.drop_first();
                    held_v = held_v.drop_first();
                    held_p.at = held_p.to.min(held_p.at + 1);
                    done += 1;
                }
                Plan::Go(change_u, change_v, change_p) => {
                    held_u = held_u.advance(change_u);
                    held_v = held_v.advance(change_v);
                    held_p = held_p.advance(change_p);
                    done += 1;
                }
            }
        }
    }
}

/// Compares two words under a book with an allowance of rounds.
pub fn compare(book: &[u8], u: &[u8], v: &[u8], allowance: u32) -> Result<Comparison, Refusal> {
    Prepared::new(book)?.compare(u, v, allowance)
}

/// What the single round gives: the end, or the lengths of the next u, v and p, which are then written.
#[derive(Debug, Clone, Copy, PartialEq, Eq)]
pub enum RoundEnd {
    Same,
    Different,
    Next([u64; 3]),
}

/// One round under a book. An end and a refusal write nothing.
pub fn round(book: &[u8], words: [&[u8]; 3], next: [&mut [u8]; 3]) -> Result<RoundEnd, Refusal> {
    let [u, v, p] = words;
    let ready = Ready::new(book)?;
    check_word(u, 0, ROUND_WORD, ready.laid.letters)?;
    check_word(v, 1, ROUND_WORD, ready.laid.letters)?;
    check_word(p, 2, ROUND_MARK, ready.laid.letters)?;
    if let Some(buffer) = (0..3).find(|&i| next[i].len() < NEXT[i]) {
        return refuse(12, buffer);
    }
    match ready.plan(Parts { a: &[], b: u }, Parts { a: &[], b: v }, p) {
        Plan::End(true) => Ok(RoundEnd::Same),
        Plan::End(false) => Ok(RoundEnd::Different),
        Plan::Drop => {
            let one = Change { from: 0, to: 0, cut: 1 };
            write_all(&ready, words, [one, one, Change { cut: p.len().min(1), ..one }], next)
        }
        Plan::Go(change_u, change_v, change_p) => write_all(&ready, words, [change_u, change_v, change_p], next),
    }
}

/// Writes the next u, v and p.
fn write_all(ready: &Ready, old: [&[u8]; 3], changes: [Change; 3], [next_u, next_v, next_p]: [&mut [u8]; 3]) -> Result<RoundEnd, Refusal> {
    let text = &ready.laid.text[..];
    let u = write(text, old[0], changes[0], next_u);
    let v = write(text, old[1], changes[1], next_v);
    let p = write(text, old[2], changes[2], next_p);
    Ok(RoundEnd::Next([u, v, p]))
}

/// Writes the word after a change at the start of a buffer, and gives its length.
fn write(text: &[u8], old: &[u8], change: Change, buffer: &mut [u8]) -> u64 {
    let tail = &text[change.from..change.to];
    let rest = &old[change.cut..];
    buffer[..tail.len()].copy_from_slice(tail);
    buffer[tail.len()..tail.len() + rest.len()].copy_from_slice(rest);
    (tail.len() + rest.len()) as u64
}
