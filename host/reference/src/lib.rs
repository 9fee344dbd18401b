//! An independent implementation of document 01, for tests only.
//!
//! It is written literally from document 01 and from document 003, section 1: words are vectors, pieces are found by listing every factor of
//! every distinct relation word, numbers of pieces by trying every start of the last piece, families by breadth-first search over the relations, the rows
//! stand in the order and by the words of the paper, chains are found by breadth-first search over single exchanges, the least word by looking at every
//! word that a chain reaches, what is left behind a front by looking at those of them that begin with it, and a change of a held book by writing the new
//! book out from its list of rules: it is proposed, and then its ticket is posted.
//! It shares nothing with any other implementation, and is made to be read, not to be fast.
//!
//! Document 01's words: a step is a letter, a run a word, a side a relation word, a rule a relation, a book a presentation.

pub mod book;
pub mod chains;
pub mod entries;
pub mod families;
pub mod front;
pub mod held;
pub mod least;
pub mod pieces;
pub mod program;
pub mod rows;
pub mod tickets;

pub use book::{accept, Accepted, SHEET_SIDE};
pub use entries::{check, compare, compare_under, cut_sheet, front, front_under, least, least_under, round, round_under, Comparison, RoundEnd};
pub use held::{add, book_of, load, withdraw};
pub use program::program;
pub use tickets::{post, propose_add, propose_withdraw};

/// A list of letters (document 01: a run of steps).
pub type Word = Vec<u8>;

/// A refusal is its number and place (document 01, "Refusals by number").
#[derive(Debug, Clone, Copy, PartialEq, Eq, PartialOrd, Ord, Hash)]
pub struct Refusal {
    pub number: u32,
    pub place: u64,
}

/// A refusal as the error of a result.
pub(crate) fn refuse<T>(number: u32, place: usize) -> Result<T, Refusal> {
    Err(Refusal { number, place: place as u64 })
}
