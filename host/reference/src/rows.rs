//! One round and the rounds of two words (document 01, "Exchanges and rounds"; document 003, procedure WP-PREFIX).

use crate::families::Words;
use crate::pieces::Cut;
use crate::Word;

/// What a round gives: the end, or the next u, v and p.
#[derive(Debug, Clone, PartialEq, Eq)]
pub enum Next {
    Same,
    Different,
    Go { u: Word, v: Word, p: Word },
}

/// The words in turn as one.
fn joined(parts: &[&[u8]]) -> Word {
    parts.concat()
}

/// The rest of the word behind the front, if it begins with it.
fn after<'a>(word: &'a [u8], front: &[u8]) -> Option<&'a [u8]> {
    word.strip_prefix(front)
}

/// Some relation word's X and Y begin the word.
fn begins_with_some_xy(cuts: &[Cut], word: &[u8]) -> bool {
    cuts.iter().any(|cut| word.starts_with(cut.xy()))
}

/// XY of the cut is a clean front of u: u begins with XY, and does not begin with X, a non-empty proper front of Y, and then the X and Y of any side.
pub fn is_clean_front(cuts: &[Cut], cut: &Cut, u: &[u8]) -> bool {
    if !u.starts_with(cut.xy()) {
        return false;
    }
    // u begins with X and with every front of Y, so only what follows is in question
    !(1..cut.y().len()).any(|l| begins_with_some_xy(cuts, &u[cut.x().len() + l..]))
}

/// The number of the distinct word whose XY is a clean front of u.
pub fn clean_front(cuts: &[Cut], u: &[u8]) -> Option<usize> {
    (0..cuts.len()).find(|&i| is_clean_front(cuts, &cuts[i], u))
}

/// t is Z-active: Zt begins with g followed by the X and Y of some side, g shorter than Z.
pub fn is_active(cuts: &[Cut], z: &[u8], t: &[u8]) -> bool {
    let zt = joined(&[z, t]);
    (0..z.len()).any(|g| begins_with_some_xy(cuts, &zt[g..]))
}

/// The length of the longest common end of two words.
fn common_end(a: &[u8], b: &[u8]) -> usize {
    (0..=a.len().min(b.len())).rev().find(|&l| a[a.len() - l..] == b[b.len() - l..]).expect("the empty word ends both")
}

/// The number of the member of a family whose XY the word begins with.
pub fn member_in_front(words: &Words, family: &[usize], word: &[u8]) -> Option<usize> {
    family.iter().copied().find(|&member| word.starts_with(words.cuts[member].xy()))
}

/// The member whose tail row 4 goes on with, where u is word i and then s: i itself if s is active for its Z; else the first other member for whose Z s is
/// active; else the first other member; else, where there is none, i.
pub fn member_of_next_tail(words: &Words, i: usize, s: &[u8]) -> usize {
    let active = |member: &usize| is_active(&words.cuts, words.cuts[*member].z(), s);
    if active(&i) {
        return i;
    }
    let others = words.others(i);
    others.iter().copied().find(active).or(others.first().copied()).unwrap_or(i)
}

/// One round: the first row that fits applies.
pub fn round(words: &Words, u: &[u8], v: &[u8], p: &[u8]) -> Next {
    row(words, u, v, p).1
}

/// The number of the first row that fits, and what the round gives.
pub fn row(words: &Words, u: &[u8], v: &[u8], p: &[u8]) -> (usize, Next) {
    let cuts = &words.cuts;
    // row 1
    if u.is_empty() || v.is_empty() {
        return (1, if u.is_empty() && v.is_empty() && p.is_empty() { Next::Same } else { Next::Different });
    }
    // row 2
    let Some(i) = clean_front(cuts, u) else {
        if u[0] != v[0] || (!p.is_empty() && p[0] != u[0]) {
            return (2, Next::Different);
        }
        let p = if p.is_empty() { p } else { &p[1..] };
        return (2, Next::Go { u: u[1..].to_vec(), v: v[1..].to_vec(), p: p.to_vec() });
    };
    let family = &words.families[i];
    // row 3: p is a front of the X of any member, and v begins with the XY of any member
    if !family.iter().any(|&member| cuts[member].x().starts_with(p)) {
        return (3, Next::Different);
    }
    let Some(j) = member_in_front(words, family, v) else {
        return (3, Next::Different);
    };
    // W = XYZ is word i; X'Y'Z', written with a dash in the paper, is whichever member v begins with, W itself perhaps
    let (this, other) = (&cuts[i], &cuts[j]);
    let (xyz, xyz_) = (this.xyz(), other.xyz());
    let (z, z_) = (this.z(), other.z());
    // row 4
    if let (Some(s), Some(t)) = (after(u, xyz), after(v, xyz_)) {
        let tail = cuts[member_of_next_tail(words, i, s)].z();
        return (4, Next::Go { u: joined(&[tail, s]), v: joined(&[tail, t]), p: Vec::new() });
    }
    let s = after(u, this.xy()).expect("u begins with its clean front");
    // row 5
    if let Some(t) = after(v, this.xy()) {
        let p = if this.x().starts_with(p) { Vec::new() } else { z.to_vec() };
        return (5, Next::Go { u: s.to_vec(), v: t.to_vec(), p });
    }
    // row 6
    if let (false, Some(t)) = (s.starts_with(z), after(v, xyz_)) {
        return (6, Next::Go { u: s.to_vec(), v: joined(&[z, t]), p: Vec::new() });
    }
    let t = after(v, other.xy()).expect("v begins with the XY of its member");
    // row 7
    if let (Some(s), false) = (after(u, xyz), t.starts_with(z_)) {
        return (7, Next::Go { u: joined(&[z_, s]), v: t.to_vec(), p: Vec::new() });
    }
    // row 8
    let shared = common_end(z, z_);
    let (e, common) = z.split_at(z.len() - shared);
    let f = &z_[..z_.len() - shared];
    match (after(s, e), after(t, f)) {
        (Some(s), Some(t)) => (8, Next::Go { u: s.to_vec(), v: t.to_vec(), p: common.to_vec() }),
        _ => (8, Next::Different),
    }
}

/// How rounds from u, v and the empty p end under an allowance.
#[derive(Debug, Clone, Copy, PartialEq, Eq)]
pub enum Answer {
    Same(u64),
    Different(u64),
    /// another round was due and the allowance was used up
    Spent(u64),
}

/// A comparison begins with the two words and p empty; a round is counted for each 'go on' and each drop.
pub fn rounds(words: &Words, u: &[u8], v: &[u8], allowance: u32) -> Answer {
    let mut u = u.to_vec();
    let mut v = v.to_vec();
    let mut p = Vec::new();
    let mut done = 0u64;
    loop {
        match round(words, &u, &v, &p) {
            Next::Same => return Answer::Same(done),
            Next::Different => return Answer::Different(done),
            Next::Go { .. } if done == allowance as u64 => return Answer::Spent(done),
            Next::Go { u: next_u, v: next_v, p: next_p } => {
                (u, v, p) = (next_u, next_v, next_p);
                done += 1;
            }
        }
    }
}
