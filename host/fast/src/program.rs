//! The whole program: input bytes to output bytes in a lent buffer (document 01, "The program").

use crate::reader::{record, two_bytes};
use crate::rounds::{Comparison, Prepared};
use crate::{refuse, Refusal};

const INPUT: usize = 60_000;

/// The least size of the lent output buffer, enough for the output of every input.
pub const OUTPUT: usize = 110_022;

/// Text that grows in a lent buffer.
struct Printer<'a> {
    buffer: &'a mut [u8],
    length: usize,
}

impl Printer<'_> {
    fn text(&mut self, text: &str) {
        self.buffer[self.length..self.length + text.len()].copy_from_slice(text.as_bytes());
        self.length += text.len();
    }

    fn number(&mut self, mut number: u64) {
        let mut digits = [0u8; 20];
        let mut at = 20;
        loop {
            at -= 1;
            digits[at] = b'0' + (number % 10) as u8;
            number /= 10;
            if number == 0 {
                break;
            }
        }
        self.buffer[self.length..self.length + 20 - at].copy_from_slice(&digits[at..]);
        self.length += 20 - at;
    }

    fn line(&mut self, word: &str, number: u64) {
        self.text(word);
        self.number(number);
        self.text("\n");
    }

    fn refusal(&mut self, refusal: Refusal) {
        self.text("refused ");
        self.number(refusal.number as u64);
        self.line(" ", refusal.place);
    }
}

/// Where the book ends: at the first record whose kind field is present and is 3, or at the end of the input.
fn book_end(input: &[u8]) -> usize {
    let mut at = 0;
    while at + 4 <= input.len() {
        if two_bytes(input, at + 2) == 3 {
            return at;
        }
        at += 4 + two_bytes(input, at);
    }
    input.len()
}

/// One record of the kind 3 part, and where it ends.
struct Question<'a> {
    allowance: u32,
    u: &'a [u8],
    v: &'a [u8],
    end: usize,
}

fn question(input: &[u8], at: usize) -> Result<Question<'_>, Refusal> {
    let (end, kind) = record(input, at)?;
    if kind != 3 {
        return refuse(2, at);
    }
    let payload = &input[at + 4..end];
    if payload.len() < 8 {
        return refuse(3, at);
    }
    let (m, n) = (two_bytes(payload, 4), two_bytes(payload, 6));
    if payload.len() != 8 + m + n {
        return refuse(3, at);
    }
    let allowance = u32::from_le_bytes([payload[0], payload[1], payload[2], payload[3]]);
    Ok(Question { allowance, u: &payload[8..8 + m], v: &payload[8 + m..], end })
}

/// Writes the whole output for the input and gives its length; a buffer below `OUTPUT` bytes is refused by 12.
pub fn program(input: &[u8], output: &mut [u8]) -> Result<usize, Refusal> {
    if output.len() < OUTPUT {
        return refuse(12, 0);
    }
    let mut printer = Printer { buffer: output, length: 0 };
    if input.len() > INPUT {
        printer.text("refused 13 60000\n");
        return Ok(printer.length);
    }
    let mut at = book_end(input);
    let book = match Prepared::new(&input[..at]) {
        Ok(book) => book,
        Err(refusal) => {
            printer.refusal(refusal);
            return Ok(printer.length);
        }
    };
    printer.line("book ", book.relations() as u64);
    while at < input.len() {
        match question(input, at) {
            Err(refusal) => {
                printer.refusal(refusal);
                break;
            }
            Ok(Question { allowance, u, v, end }) => {
                match book.compare(u, v, allowance) {
                    Ok(Comparison::Same(count)) => printer.line("same ", count),
                    Ok(Comparison::Different(count)) => printer.line("different ", count),
                    Err(refusal) => printer.refusal(refusal),
                }
                at = end;
            }
        }
    }
    Ok(printer.length)
}
