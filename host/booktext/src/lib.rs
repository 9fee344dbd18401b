//! The readable form of books, comparisons and runs, for people who write them, and the bytes that it stands for (docs/SPECIFICATION.md, "Book bytes" and "The program").
//!
//! Outside the proof: this crate only turns text into bytes and back. What it says of a book is decided by the library alone, so that a text may say more than is
//! accepted, such as 70 letters or a 33rd rule.
//!
//! A text has one item a line; `#` begins a comment.
//!
//! ```text
//! letters 4               # the number of letters (steps), first and once
//! abdc = cadb             # a rule: its left side and its right side
//! compare abdc cadb 100   # two runs to compare and the allowance of rounds; behind all rules
//! ```
//!
//! A run is written with the letters a to z, which are the codes 0 to 25, or as numbers with dots between them: `0.1.27`. The empty run is `-`. A line whose second item is `=` is a
//! rule, whatever its first item spells.
//!
//! ```
//! use booktext::{decode, Text};
//!
//! let text = Text::parse("letters 4\nabdc = cadb # a rule\ncompare - 2.0 7\n")?;
//! assert_eq!(text.book(), [1, 0, 1, 0, 4, 10, 0, 2, 0, 4, 4, 0, 1, 3, 2, 2, 0, 3, 1]);
//! assert_eq!(decode(&text.bytes()).unwrap(), "letters 4\nabdc = cadb\ncompare - ca 7\n");
//!
//! let error = Text::parse("letters 4\nabdc = caDb\n").unwrap_err();
//! assert_eq!((error.line, error.column), (2, 10));
//! # Ok::<(), booktext::TextError>(())
//! ```

mod bytes;
mod error;
mod run;
mod text;

pub use bytes::{decode, BytesError};
pub use error::{shown, TextError};
pub use run::{letter_text, run_text, Run};
pub use text::{Comparison, Head, Record, Rule, Text};
