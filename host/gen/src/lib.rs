//! Generators of books, also of those whose relations share words, of words, marks, fronts to take off, damage, program inputs, stories of held books and tickets, for
//! tests and benchmarks.
//! Everything follows from a seed.
//!
//! Document 01's words: a step is a letter, a run a word, a side a relation word, a rule a relation, a book a presentation.

pub mod books;
pub mod chance;
pub mod damage;
pub mod fronts;
pub mod inputs;
pub mod shared;
pub mod stories;
pub mod tickets;
pub mod words;

pub use books::Book;
pub use chance::Chance;
