//! The least word, and what a front leaves of a word (document 01, "The least equal run" and "Taking a front off"): one walk along the word, which holds a part
//! of the text and the rest of the given word, and rewrites nothing. What is still to be written is held as a word u and a mark p: the least w such that p w is
//! congruent to u. The least word begins with the empty mark, what a front leaves with that front, which is a part of the text since it is a piece.
//!
//! Whether a mark is a possible front of the rest of the word is found by a second walk ahead of the first. Its answer is kept as a hint that goes along
//! with u, so that no letter is walked over twice.

use crate::reader::{Laid, SIDES};
use crate::rounds::{check_word, Held, Parts, Ready, COMPARED, ROUND_MARK};
use crate::{pieces, refuse, Refusal};

/// A part of the text.
type Part = (usize, usize);

/// The house table: codes 32 to 63 come first, then 0 to 31.
fn rank(code: u8) -> u8 {
    code ^ 32
}

/// For each family, by its number, the member that comes first: the one whose XY does, since no XY is a front of another.
struct First([u8; SIDES]);

impl First {
    fn new(laid: &Laid) -> First {
        let mut first = First([0; SIDES]);
        for i in 0..laid.words {
            let family = laid.table[i].family as usize;
            if family == i || comes_before(laid, i, first.0[family] as usize) {
                first.0[family] = i as u8;
            }
        }
        first
    }
}

/// XY of word i comes before that of word j.
fn comes_before(laid: &Laid, i: usize, j: usize) -> bool {
    let [xy, xy_] = [i, j].map(|i| &laid.text[laid.table[i].start as usize..laid.table[i].z_start as usize]);
    xy.iter().zip(xy_).find(|(x, y)| x != y).is_some_and(|(&x, &y)| rank(x) < rank(y))
}

/// Whether q, a part of the text that is not empty, is a possible front of u.
#[derive(Clone, Copy)]
struct Hint {
    q: Part,
    possible: bool,
}

/// Where the walk stands.
#[derive(Clone, Copy, Default)]
struct State {
    u: Held,
    p: Part,
    hint: Option<Hint>,
}

/// What receives the letters that are written, part by part.
trait Sink {
    fn letter(&mut self, letter: u8);
    fn part(&mut self, part: &[u8]);
}

/// The length alone.
struct Count(usize);

impl Sink for Count {
    #[inline]
    fn letter(&mut self, _: u8) {
        self.0 += 1;
    }

    #[inline]
    fn part(&mut self, part: &[u8]) {
        self.0 += part.len();
    }
}

/// A buffer that has room for all of it.
struct Write<'a> {
    buffer: &'a mut [u8],
    length: usize,
}

impl Sink for Write<'_> {
    #[inline]
    fn letter(&mut self, letter: u8) {
        self.buffer[self.length] = letter;
        self.length += 1;
    }

    #[inline]
    fn part(&mut self, part: &[u8]) {
        self.buffer[self.length..self.length + part.len()].copy_from_slice(part);
        self.length += part.len();
    }
}

/// A book and a word under it.
struct Walk<'a> {
    ready: &'a Ready,
    first: First,
    text: &'a [u8],
    given: &'a [u8],
}

impl<'a> Walk<'a> {
    fn new(ready: &'a Ready, given: &'a [u8]) -> Walk<'a> {
        Walk { ready, first: First::new(&ready.laid), text: &ready.laid.text, given }
    }

    /// The given word with a mark; none where the mark is no possible front of it.
    fn start(&self, p: Part) -> Option<State> {
        let u = Held::default();
        let hint = (p.0 < p.1).then_some(Hint { q: p, possible: true });
        self.is_possible(p, u.parts(self.text, self.given)).then_some(State { u, p, hint })
    }

    /// Writes what is left from a state on at an offset of a buffer, and gives its length. It is counted before a byte is written.
    fn write(&self, start: State, buffer: &mut [u8], offset: usize) -> Result<u64, Refusal> {
        let mut count = Count(0);
        self.run(start, &mut count);
        match buffer.get_mut(offset..) {
            Some(room) if count.0 <= room.len() => self.run(start, &mut Write { buffer: room, length: 0 }),
            _ => return refuse(14, 0),
        }
        Ok(count.0 as u64)
    }

    /// Gives the sink what is left from a state on.
    fn run(&self, mut state: State, sink: &mut impl Sink) {
        loop {
            let u = state.u.parts(self.text, self.given);
            let Some(letter) = u.first() else { return };
            state = match self.ready.clean_front(u) {
                None => self.letter(state, letter, sink),
                Some(i) => self.front(state, i, u, sink),
            };
        }
    }

    /// No clean front: the first letter goes, and is written where it is not p's.
    #[inline]
    fn letter(&self, state: State, letter: u8, sink: &mut impl Sink) -> State {
        let (at, to) = state.p;
        let p = if at < to {
            (at + 1, to)
        } else {
            sink.letter(letter);
            (0, 0)
        };
        State { u: state.u.drop_first(), p, hint: state.hint.and_then(|hint| self.follow(hint, letter)) }
    }

    /// A hint behind a letter that no clean front begins with.
    #[inline]
    fn follow(&self, hint: Hint, letter: u8) -> Option<Hint> {
        let (at, to) = hint.q;
        (self.text[at] == letter && at + 1 < to).then_some(Hint { q: (at + 1, to), ..hint })
    }

    /// A clean front XY of word i, with s behind it.
    #[inline]
    fn front(&self, state: State, i: usize, u: Parts, sink: &mut impl Sink) -> State {
        let (xy, z) = (self.xy_length(i), self.z(i));
        let s = u.skip(xy);
        let behind = State { u: state.u.skip(xy), p: state.p, hint: state.hint.and_then(|hint| self.behind(hint, i)) };
        let wanted = self.wanted(state.p, i);
        if self.begins(s, z) {
            self.whole(behind, i, wanted, sink)
        } else if wanted == i {
            self.own(behind, i, sink)
        } else {
            self.exchanged(behind, i, wanted, s, sink)
        }
    }

    /// What a hint at a clean front XY of word i says of Z behind it.
    #[inline]
    fn behind(&self, hint: Hint, i: usize) -> Option<Hint> {
        (!self.x_begins(i, hint.q) && self.other_x_begins(i, hint.q)).then_some(Hint { q: self.z(i), ..hint })
    }

    /// Of the members of the family of word i, the one that comes first among those whose X begins with p.
    #[inline]
    fn wanted(&self, p: Part, i: usize) -> usize {
        let laid = &self.ready.laid;
        if p.0 == p.1 {
            return self.first.0[laid.table[i].family as usize] as usize;
        }
        let mut wanted = self.x_begins(i, p).then_some(i);
        for member in laid.others(i) {
            if self.x_begins(member, p) && wanted.is_none_or(|earlier| comes_before(laid, member, earlier)) {
                wanted = Some(member);
            }
        }
        wanted.unwrap_or(i)
    }

    /// Word i stands there in full, and can be exchanged for j: the next tail is put where the rest is active for it. Else the tail of a member is put for which
    /// it is, or i's own, and is the next mark.
    fn whole(&self, behind: State, i: usize, j: usize, sink: &mut impl Sink) -> State {
        let (z, tail) = (self.z(i), self.z(j));
        let from = behind.u.skip(z.1 - z.0).from;
        let rest = &self.given[from..];
        let put = |tail: Part, p: Part| State { u: Held { at: tail.0, to: tail.1, from }, p, hint: None };
        if self.ready.is_active(j, rest) {
            self.tell(behind.p, j, tail.0, sink);
            return put(tail, (0, 0));
        }
        self.tell(behind.p, j, tail.1, sink);
        let active = self.ready.laid.others(i).find(|&member| member != j && self.ready.is_active(member, rest));
        let carrier = active.map_or(z, |member| self.z(member));
        put(carrier, carrier)
    }

    /// XY of word i stays.
    #[inline]
    fn own(&self, behind: State, i: usize, sink: &mut impl Sink) -> State {
        self.tell(behind.p, i, self.z(i).0, sink);
        State { p: (0, 0), ..behind }
    }

    /// XY of word i, with s behind it that does not begin with Z, gives way to the member j of its family where Z is a possible front of s.
    fn exchanged(&self, behind: State, i: usize, j: usize, s: Parts, sink: &mut impl Sink) -> State {
        let (z, tail) = (self.z(i), self.z(j));
        let hint = behind.hint.unwrap_or_else(|| Hint { q: z, possible: self.is_possible(z, s) });
        let behind = State { hint: Some(hint), ..behind };
        if !hint.possible {
            return self.own(behind, i, sink);
        }
        let shared = self.common_end(z, tail);
        let parted = z.1 - z.0 - shared;
        if self.begins(s, (z.0, z.0 + parted)) && !(0..parted).any(|g| self.ready.clean_front(s.skip(g)).is_some()) {
            self.tell(behind.p, j, tail.1 - shared, sink);
            let q = (z.1 - shared, z.1);
            return State { u: behind.u.skip(parted), p: (0, 0), hint: Some(Hint { q, ..hint }) };
        }
        self.tell(behind.p, j, tail.1, sink);
        State { p: z, ..behind }
    }

    /// The length of the longest common end of two parts of the text.
    #[inline]
    fn common_end(&self, a: Part, b: Part) -> usize {
        let (a, b) = (&self.text[a.0..a.1], &self.text[b.0..b.1]);
        a.iter().rev().zip(b.iter().rev()).take_while(|(x, y)| x == y).count()
    }

    /// Writes word j up to a place of the text, without p, which it begins with.
    #[inline]
    fn tell(&self, p: Part, j: usize, to: usize, sink: &mut impl Sink) {
        sink.part(&self.text[self.ready.laid.table[j].start as usize + p.1 - p.0..to]);
    }

    /// Some word that q begins is congruent to u.
    fn is_possible(&self, mut q: Part, mut u: Parts) -> bool {
        loop {
            if q.0 == q.1 {
                return true;
            }
            let Some(letter) = u.first() else { return false };
            match self.ready.clean_front(u) {
                None if self.text[q.0] != letter => return false,
                None => (q, u) = ((q.0 + 1, q.1), u.skip(1)),
                Some(i) => {
                    if self.x_begins(i, q) {
                        return true;
                    }
                    if !self.other_x_begins(i, q) {
                        return false;
                    }
                    (q, u) = (self.z(i), u.skip(self.xy_length(i)));
                }
            }
        }
    }

    /// A word begins with a part of the text; the first letter is looked at first, since it mostly decides.
    #[inline]
    fn begins(&self, word: Parts, (from, to): Part) -> bool {
        from == to || (word.first() == Some(self.text[from]) && word.begins(&self.text[from..to]))
    }

    /// X of word i begins with a part of the text. Marks are short, and most differ at once.
    #[inline]
    fn x_begins(&self, i: usize, front: Part) -> bool {
        let (x, front) = (self.ready.laid.x(i), &self.text[front.0..front.1]);
        front.len() <= x.len() && front.iter().zip(x).all(|(a, b)| a == b)
    }

    /// X of some member of the family of word i other than i begins with a part of the text.
    #[inline]
    fn other_x_begins(&self, i: usize, front: Part) -> bool {
        self.ready.laid.others(i).any(|member| self.x_begins(member, front))
    }

    #[inline]
    fn xy_length(&self, i: usize) -> usize {
        let word = &self.ready.laid.table[i];
        (word.z_start - word.start) as usize
    }

    #[inline]
    fn z(&self, i: usize) -> Part {
        let word = &self.ready.laid.table[i];
        (word.z_start as usize, word.end as usize)
    }
}

/// Writes the least word of a word under a book at an offset of a lent buffer, and gives its length.
pub fn least(book: &[u8], word: &[u8], buffer: &mut [u8], offset: usize) -> Result<u64, Refusal> {
    let ready = Ready::new(book)?;
    check_word(word, 0, COMPARED, ready.laid.letters)?;
    Walk::new(&ready, word).write(State::default(), buffer, offset)
}

/// Takes a piece off the front of a word under a book, writes the least rest at an offset of a lent buffer, and gives its length.
pub fn front(book: &[u8], word: &[u8], piece: &[u8], buffer: &mut [u8], offset: usize) -> Result<u64, Refusal> {
    let ready = Ready::new(book)?;
    check_word(word, 0, COMPARED, ready.laid.letters)?;
    check_word(piece, 2, ROUND_MARK, ready.laid.letters)?;
    let Some(p) = pieces::find(&ready.laid, piece) else { return refuse(18, 0) };
    let walk = Walk::new(&ready, word);
    let Some(start) = walk.start(p) else { return refuse(19, 0) };
    walk.write(start, buffer, offset)
}
