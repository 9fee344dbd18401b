//! Text to bytes, and bytes to text.

use std::fmt;

use vanecitron::BookWriter;

use crate::text::COMPARISON_FIELDS;
use crate::{run_text, Record, Run, Text};

/// The bytes of a record before its payload: its length and its kind.
const RECORD_FIELDS: usize = 4;
/// The bytes of a rule's payload before its sides.
const RULE_FIELDS: usize = 2;
const HEAD: usize = RECORD_FIELDS + 1;
const KIND_HEAD: u16 = 1;
const KIND_RULE: u16 = 2;
const KIND_COMPARISON: u16 = 3;

impl Text {
    /// The bytes of the book: the head and the rules.
    pub fn book(&self) -> Vec<u8> {
        self.written(0)
    }

    /// The bytes of the program's input: the book and the comparisons.
    pub fn bytes(&self) -> Vec<u8> {
        self.written(self.comparisons.len())
    }

    /// The record that holds a byte of the input.
    pub fn record_at(&self, byte: usize) -> Record {
        let mut behind = 0;
        self.sizes()
            .find(|(_, size)| {
                behind += size;
                byte < behind
            })
            .map_or(Record::End, |(record, _)| record)
    }

    /// The bytes of the book and of so many comparisons.
    fn written(&self, comparisons: usize) -> Vec<u8> {
        let size = self.sizes().take(1 + self.rules.len() + comparisons).map(|(_, size)| size).sum();
        let mut lent = vec![0; size];
        let fits = "room is made for every record, and a text has none that is too long for its fields";
        let mut book = BookWriter::new(&mut lent, self.head.letters).expect(fits);
        for rule in &self.rules {
            book.rule(&rule.sides[0].steps, &rule.sides[1].steps).expect(fits);
        }
        for comparison in &self.comparisons[..comparisons] {
            book.comparison(comparison.allowance, &comparison.runs[0].steps, &comparison.runs[1].steps).expect(fits);
        }
        assert_eq!(book.bytes().len(), size, "the sizes of the records are those that are written");
        lent
    }

    /// Each record in turn, and its number of bytes.
    fn sizes(&self) -> impl Iterator<Item = (Record, usize)> + '_ {
        let steps = |runs: &[Run; 2]| runs[0].steps.len() + runs[1].steps.len();
        let rules = self.rules.iter().map(move |rule| RECORD_FIELDS + RULE_FIELDS + steps(&rule.sides));
        let comparisons = self.comparisons.iter().map(move |comparison| RECORD_FIELDS + COMPARISON_FIELDS + steps(&comparison.runs));
        let rules = rules.enumerate().map(|(index, size)| (Record::Rule(index), size));
        let comparisons = comparisons.enumerate().map(|(index, size)| (Record::Comparison(index), size));
        std::iter::once((Record::Head, HEAD)).chain(rules).chain(comparisons)
    }
}

/// Bytes that no text says: the first byte of the record that is wrong, and what is wrong with it.
#[derive(Debug, Clone, PartialEq, Eq)]
pub struct BytesError {
    pub place: usize,
    pub message: String,
}

impl fmt::Display for BytesError {
    fn fmt(&self, f: &mut fmt::Formatter<'_>) -> fmt::Result {
        write!(f, "byte {}: {}", self.place, self.message)
    }
}

impl std::error::Error for BytesError {}

/// The text of a book's or an input's bytes, a line for each record. They must be whole records, a head first and comparisons last.
pub fn decode(bytes: &[u8]) -> Result<String, BytesError> {
    let mut text = String::new();
    let (mut place, mut before) = (0, None);
    while place < bytes.len() {
        let error = |message: String| BytesError { place, message };
        let (kind, payload) = record(&bytes[place..]).ok_or_else(|| error("the bytes end inside a record".into()))?;
        let belongs = match before {
            None => kind == KIND_HEAD,
            Some(KIND_COMPARISON) => kind == KIND_COMPARISON,
            Some(_) => kind == KIND_RULE || kind == KIND_COMPARISON,
        };
        if !belongs {
            return Err(error(format!("a record of kind {kind} does not belong here")));
        }
        text.push_str(&line(kind, payload).map_err(error)?);
        text.push('\n');
        place += RECORD_FIELDS + payload.len();
        before = Some(kind);
    }
    match before {
        None => Err(BytesError { place: 0, message: "there are no bytes".into() }),
        Some(_) => Ok(text),
    }
}

/// The kind and the payload of the record that the bytes begin with.
fn record(bytes: &[u8]) -> Option<(u16, &[u8])> {
    let (fields, behind) = bytes.split_at_checked(RECORD_FIELDS)?;
    Some((two_bytes(&fields[2..]), behind.get(..two_bytes(fields).into())?))
}

/// The line of one record.
fn line(kind: u16, payload: &[u8]) -> Result<String, String> {
    let least = match kind {
        KIND_HEAD => 1,
        KIND_RULE => RULE_FIELDS,
        _ => COMPARISON_FIELDS,
    };
    let (fields, runs) = payload.split_at_checked(least).ok_or_else(|| format!("a record of kind {kind} has at least {least} payload bytes"))?;
    let lengths = match kind {
        KIND_HEAD => [0, 0],
        KIND_RULE => [fields[0].into(), fields[1].into()],
        _ => [two_bytes(&fields[4..]).into(), two_bytes(&fields[6..]).into()],
    };
    let needed: usize = least + lengths[0] + lengths[1];
    if payload.len() != needed {
        return Err(format!("the length {} does not fit the record, which needs {needed}", payload.len()));
    }
    let (first, second) = runs.split_at(lengths[0]);
    let (first, second) = (run_text(first), run_text(second));
    Ok(match kind {
        KIND_HEAD => format!("letters {}", fields[0]),
        KIND_RULE => format!("{first} = {second}"),
        _ => format!("compare {first} {second} {}", u32::from_le_bytes([fields[0], fields[1], fields[2], fields[3]])),
    })
}

/// The number in the first two bytes, the lowest first.
fn two_bytes(bytes: &[u8]) -> u16 {
    u16::from_le_bytes([bytes[0], bytes[1]])
}
