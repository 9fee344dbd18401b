//! An index of the relation words by first letter, sorted, with the lengths that neighbours share: one walk finds the only word whose XY begins a word.

use crate::reader::{Laid, SIDES};

/// Relation words in order; for each letter where those that begin with it are listed; and how much each shares with the one before it.
pub struct Index {
    first: [u8; 66],
    order: [u8; SIDES],
    shared: [u8; SIDES],
}

fn common(a: &[u8], b: &[u8]) -> usize {
    a.iter().zip(b).take_while(|(x, y)| x == y).count()
}

impl Index {
    pub fn new(laid: &Laid) -> Index {
        let mut index = Index { first: [0; 66], order: [0; SIDES], shared: [0; SIDES] };
        let order = &mut index.order[..laid.words];
        for (i, place) in order.iter_mut().enumerate() {
            *place = i as u8;
        }
        order.sort_unstable_by(|&i, &j| laid.word(i as usize).cmp(laid.word(j as usize)));
        for (j, &i) in order.iter().enumerate() {
            let word = laid.word(i as usize);
            index.first[word[0] as usize + 1] += 1;
            if j > 0 {
                index.shared[j] = common(laid.word(order[j - 1] as usize), word) as u8;
            }
        }
        for letter in 1..66 {
            index.first[letter] += index.first[letter - 1];
        }
        index
    }

    /// The relation word whose XY begins the word a b, which is one word in two parts.
    #[inline(always)]
    pub fn find(&self, laid: &Laid, a: &[u8], b: &[u8]) -> Option<usize> {
        let letter = *a.first().or(b.first())? as usize;
        let (from, to) = (self.first[letter] as usize, self.first[letter + 1] as usize);
        if from == to {
            return None;
        }
        self.walk(laid, a, b, from, to)
    }

    /// The same among the words listed from one place on and below another, which share the first letter of a b.
    ///
    /// `matched` letters are shared with the listed word before. Where two neighbours share more, the next one parts from a b at the same letter;
    /// where they share less, no later one can match, because no XY is a front of another word.
    fn walk(&self, laid: &Laid, a: &[u8], b: &[u8], from: usize, to: usize) -> Option<usize> {
        let mut matched = 1;
        for j in from..to {
            let shared = if j == from { 1 } else { self.shared[j] as usize };
            if shared > matched {
                continue;
            }
            if shared < matched {
                return None;
            }
            let i = self.order[j] as usize;
            let word = &laid.table[i];
            let xy = &laid.text[word.start as usize..word.z_start as usize];
            matched = agree(a, b, xy, matched);
            if matched >= xy.len() {
                return Some(i);
            }
        }
        None
    }
}

/// How many letters the word a b shares with the listed one, where `matched` are known to be shared.
#[inline]
fn agree(a: &[u8], b: &[u8], xy: &[u8], mut matched: usize) -> usize {
    while matched < xy.len() && matched < a.len() && a[matched] == xy[matched] {
        matched += 1;
    }
    if matched < a.len() {
        return matched;
    }
    let offset = a.len();
    while matched < xy.len() && matched - offset < b.len() && b[matched - offset] == xy[matched] {
        matched += 1;
    }
    matched
}
