//! The longest piece that starts at each place of the text, C(4) and the cuts (document 003, section 1).

use crate::reader::{Laid, TEXT};

/// One pass over part of the row: the common fronts of place p, whose letter is given, with the places of this part.
/// The row holds those of place p + 1, and gives up each as it is used. The largest comes back.
/// Every turn loads and stores whatever the letters are, so that the compiler makes vectors of it.
fn pass(text: &[u8], row: &mut [u8], letter: u8) -> u8 {
    let n = text.len();
    let row = &mut row[..n + 1];
    let mut best = 0;
    for q in 0..n {
        let longer = row[q + 1].wrapping_add(1);
        let next = if text[q] == letter { longer } else { 0 };
        row[q] = next;
        best = best.max(next);
    }
    best
}

/// The length of the longest piece that starts at each place of the text.
fn longest_pieces(text: &[u8], longest: &mut [u8]) {
    let n = text.len();
    let mut row = [0u8; TEXT + 1];
    for p in (0..n).rev() {
        let letter = text[p];
        let below = pass(&text[..p], &mut row[..p + 1], letter);
        let above = pass(&text[p + 1..], &mut row[p + 1..n + 1], letter);
        longest[p] = below.max(above);
    }
}

/// The word is a product of three pieces: cut points a and b, by the lengths of the longest pieces at its places.
fn is_loose(longest: &[u8]) -> bool {
    let n = longest.len();
    let reach = |at: usize| at + if at < n { longest[at] as usize } else { 0 };
    for a in 0..=reach(0) {
        for b in a..=reach(a) {
            if reach(b) >= n {
                return true;
            }
        }
    }
    false
}

/// What stands for the number of pieces of a word that is no product of them.
const NO_PRODUCT: u8 = 255;

/// The number of pieces of a word, by the lengths of the longest pieces at its places. Every factor of a piece is a piece, so taking the longest each time
/// needs the fewest.
fn number(longest: &[u8]) -> u8 {
    let (mut at, mut count) = (0, 0);
    while at < longest.len() {
        if longest[at] == 0 {
            return NO_PRODUCT;
        }
        at += longest[at] as usize;
        count += 1;
    }
    count
}

/// Cuts every word and counts its pieces, or gives the lowest side whose word is loose. The words are in order of their lowest sides.
pub fn cut_all(laid: &mut Laid) -> Option<usize> {
    let mut longest = [0u8; TEXT];
    longest_pieces(&laid.text[..laid.length], &mut longest[..laid.length]);
    for i in 0..laid.words {
        let word = &mut laid.table[i];
        let (start, end) = (word.start as usize, word.end as usize);
        let own = &longest[start..end];
        if is_loose(own) {
            return laid.word_of[..laid.sides].iter().position(|&word| word as usize == i);
        }
        let tail = (0..own.len()).find(|&at| at + own[at] as usize >= own.len()).unwrap_or(own.len());
        word.x_end = word.start + own[0] as u16;
        word.z_start = word.start + tail as u16;
        word.pieces = number(own);
    }
    None
}

/// Where a piece stands in the text, from one place to another; none where the word is no piece. A word other than the empty one is a piece just where it stands in the
/// text twice, since each distinct word is laid there once and no fence is a letter.
pub fn find(laid: &Laid, word: &[u8]) -> Option<(usize, usize)> {
    if word.is_empty() {
        return Some((0, 0));
    }
    let text = &laid.text[..laid.length];
    let mut places = text.windows(word.len()).enumerate().filter(|(_, part)| *part == word).map(|(at, _)| at);
    let at = places.next()?;
    places.next().map(|_| (at, at + word.len()))
}
