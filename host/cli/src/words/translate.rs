//! `encode` and `decode`: text to bytes and back.

use crate::failure::Failure;
use crate::input;
use crate::json::{hex, Object};
use crate::words::Answered;
use crate::Desk;

/// The bytes of a text: the book, and the comparisons behind it.
pub fn encode(desk: &mut Desk) -> Answered {
    let bytes = desk.book()?.text.bytes();
    desk.give(&bytes, || Object::new("bytes").number("length", bytes.len()).text("bytes", &hex(&bytes)))
}

/// The text of bytes; comments are not in them.
pub fn decode(desk: &mut Desk) -> Answered {
    let file = &desk.call.arguments[0];
    let bytes = desk.read(file)?;
    let text = booktext::decode(&bytes).map_err(|error| Failure::Bytes { file: input::name(file), error })?;
    desk.give(text.as_bytes(), || Object::new("text").number("length", bytes.len()).text("text", &text))
}
