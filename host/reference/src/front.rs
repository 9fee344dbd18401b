//! Taking a front off, by looking at all words that a chain reaches, for small cases (document 01, "Taking a front off").

use crate::least::order;
use crate::Word;

/// Of all words that a chain reaches those that begin with the front, without it: the first of them in dictionary order, where there is one.
pub fn least_rest<'a>(reached: impl IntoIterator<Item = &'a Word>, front: &[u8]) -> Option<Word> {
    let rests = reached.into_iter().filter_map(|word| word.strip_prefix(front));
    rests.min_by(|a, b| order(a, b)).map(<[u8]>::to_vec)
}
