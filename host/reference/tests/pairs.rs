//! Where no word stands on two sides the rows of families are the rows of pairs, in which X' Y' Z' is the other side of the rule: rows 3 to 8 of pairs stand
//! here, and all rounds of all recorded calls and executed cases under such books are the same by both.

use reference::families::distinct;
use reference::pieces::Cut;
use reference::rows::{clean_front, is_active, row, Next};
use reference::{accept, Accepted};
use vectors::Call;

fn go(u: &[&[u8]], v: &[&[u8]], p: &[u8]) -> Next {
    Next::Go { u: u.concat(), v: v.concat(), p: p.to_vec() }
}

/// Rows 3 to 8 of pairs, where u has the clean front of a side, and the other side of its rule is given.
fn row_of_pairs(cuts: &[Cut], this: &Cut, other: &Cut, [u, v, p]: [&[u8]; 3]) -> (usize, Next) {
    let after = |word: &'_ [u8], front: &[u8]| word.strip_prefix(front).map(<[u8]>::to_vec);
    let (z, z_) = (this.z(), other.z());
    let of_mark = this.x().starts_with(p) || other.x().starts_with(p);
    let of_front = v.starts_with(this.xy()) || v.starts_with(other.xy());
    if !of_mark || !of_front {
        return (3, Next::Different);
    }
    let whole_u = after(u, this.xyz());
    let whole_v = after(v, this.xyz()).or(after(v, other.xyz()));
    if let (Some(s), Some(t)) = (&whole_u, &whole_v) {
        let tail = if is_active(cuts, z, s) { z } else { z_ };
        return (4, go(&[tail, s], &[tail, t], &[]));
    }
    let s = after(u, this.xy()).expect("a clean front");
    if let Some(t) = after(v, this.xy()) {
        return (5, go(&[&s], &[&t], if this.x().starts_with(p) { &[] } else { z }));
    }
    let t = after(v, other.xy()).expect("the other front");
    match (s.strip_prefix(z), t.strip_prefix(z_)) {
        (None, Some(t)) => (6, go(&[&s], &[z, t], &[])),
        (Some(s), None) => (7, go(&[z_, s], &[&t], &[])),
        _ => {
            let shared = z.iter().rev().zip(z_.iter().rev()).take_while(|(x, y)| x == y).count();
            let (e, f) = (&z[..z.len() - shared], &z_[..z_.len() - shared]);
            let ends = s.strip_prefix(e).zip(t.strip_prefix(f));
            (8, ends.map_or(Next::Different, |(s, t)| go(&[s], &[t], &z[z.len() - shared..])))
        }
    }
}

/// A round under a book in which no word is shared, by the rows of families, which are those of pairs.
fn round(book: &Accepted, state: [&[u8]; 3]) -> (usize, Next) {
    let [u, v, p] = state;
    let cuts = &book.words.cuts;
    let found = row(&book.words, u, v, p);
    if let (false, Some(i)) = (u.is_empty() || v.is_empty(), clean_front(cuts, u)) {
        let other = if i % 2 == 0 { i + 1 } else { i - 1 };
        assert_eq!(found, row_of_pairs(cuts, &cuts[i], &cuts[other], state), "{book:?} {state:?}");
    }
    found
}

#[test]
fn rows_where_no_word_is_shared() {
    let mut met = [0; 9];
    let executed = vectors::executed().into_iter().filter(|case| ["compare", "round"].iter().any(|word| case.line.starts_with(word)));
    let calls = vectors::calls().into_iter().map(|recorded| recorded.call).chain(executed.map(|case| vectors::call(&case.line)));
    for call in calls {
        let Ok(book) = accept(call.book()) else { continue };
        if distinct(&book.sides).len() < book.sides.len() {
            continue;
        }
        let [mut u, mut v, mut p] = match call {
            Call::Compare { u, v, .. } => [u, v, Vec::new()],
            Call::Round { words, .. } => words,
            Call::Least { word, .. } => [word.clone(), word, Vec::new()],
            Call::Front { word, piece, .. } => [word.clone(), word, piece],
            Call::Sheet { .. } | Call::Held { .. } => continue,
        };
        loop {
            let (row, next) = round(&book, [&u, &v, &p]);
            met[row] += 1;
            let Next::Go { u: next_u, v: next_v, p: next_p } = next else { break };
            (u, v, p) = (next_u, next_v, next_p);
        }
    }
    assert!(met[3..].iter().all(|&rounds| rounds > 5), "rounds by row {met:?}");
}
