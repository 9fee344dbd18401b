//! Places: the record that a byte lies in, and the column of a step.

use booktext::{decode, Record, Run, Text};
use gen::{books, inputs, Chance};

/// The record of each byte, by the length and the kind that stand in the bytes.
fn records_of(bytes: &[u8]) -> Vec<Record> {
    let (mut records, mut counts) = (Vec::new(), [0; 2]);
    while records.len() < bytes.len() {
        let fields = &bytes[records.len()..];
        let record = match fields[2] {
            1 => Record::Head,
            2 => Record::Rule(counts[0]),
            _ => Record::Comparison(counts[1]),
        };
        counts[0] += usize::from(fields[2] == 2);
        counts[1] += usize::from(fields[2] == 3);
        let length = usize::from(fields[0]) + 256 * usize::from(fields[1]);
        records.extend(vec![record; 4 + length]);
    }
    records
}

#[test]
fn the_record_of_a_byte_as_worked_out_by_hand() {
    // 5, 14, 11 and 12 bytes
    let text = Text::parse("letters 4\nabdc = cadb\nbb = bbb\ncompare - - 1\n").unwrap();
    for (first, last, record) in [(0, 4, Record::Head), (5, 18, Record::Rule(0)), (19, 29, Record::Rule(1)), (30, 41, Record::Comparison(0))] {
        assert!((first..=last).all(|byte| text.record_at(byte) == record), "{record:?}");
    }
    for byte in [42, 43, 1000, usize::MAX] {
        assert_eq!(text.record_at(byte), Record::End);
    }
}

#[test]
fn the_record_of_every_byte() {
    for seed in 0..100 {
        let mut chance = Chance::new(seed);
        let book = books::any(&mut chance);
        let comparisons = chance.below(5);
        let bytes = inputs::input(&mut chance, &book, comparisons, 30);
        let text = Text::parse(&decode(&bytes).unwrap()).unwrap();
        let records = records_of(&bytes);
        for (byte, &record) in records.iter().enumerate() {
            assert_eq!(text.record_at(byte), record, "seed {seed}, byte {byte}");
        }
        assert_eq!(text.record_at(bytes.len()), Record::End, "seed {seed}");
        let in_book = records.iter().filter(|record| !matches!(record, Record::Comparison(_))).count();
        assert_eq!(text.book(), bytes[..in_book], "seed {seed}");
    }
}

#[test]
fn the_column_of_a_step_as_worked_out_by_hand() {
    for (item, columns) in [
        ("abdc", &[10, 11, 12, 13][..]),
        ("z", &[10]),
        ("0.1.27", &[10, 12, 14]),
        ("007.1", &[10, 14]),
        ("255.0000.3.26", &[10, 14, 19, 21]),
        ("7", &[10]),
        ("-", &[]),
    ] {
        let run = Run::parse(item, 1, 10).unwrap();
        assert_eq!(run.steps.len(), columns.len());
        for (position, &column) in columns.iter().enumerate() {
            assert_eq!(run.column_of(position), column, "{item}, step {position}");
        }
        for position in [columns.len(), columns.len() + 1, 1000, usize::MAX] {
            assert_eq!(run.column_of(position), 10 + item.len(), "{item}, position {position}");
        }
    }
}

/// A run in numbers, some of them with zeros before them, or in letters, where all its codes have one.
fn spelled(chance: &mut Chance, steps: &[u8]) -> String {
    if steps.is_empty() {
        return "-".to_string();
    }
    if steps.iter().all(|&code| code < 26) && chance.once_in(2) {
        return steps.iter().map(|&code| (b'a' + code) as char).collect();
    }
    let numbers: Vec<String> = steps.iter().map(|code| "0".repeat(chance.below(8).saturating_sub(4)) + &code.to_string()).collect();
    numbers.join(".")
}

/// The step that begins at a column of a line, which must be no part of one that begins before.
fn step_at(line: &[char], column: usize) -> u8 {
    let from = &line[column - 1..];
    if from[0].is_ascii_lowercase() {
        return from[0] as u8 - b'a';
    }
    assert!(column == 1 || !line[column - 2].is_ascii_digit(), "a number begins");
    let digits: String = from.iter().take_while(|character| character.is_ascii_digit()).collect();
    digits.parse().expect("a code")
}

#[test]
fn the_character_at_its_column_begins_a_step() {
    for seed in 0..500 {
        let mut chance = Chance::new(seed);
        let letters = *chance.pick(&[4, 26, 64, 255]);
        let runs = chance.words(4, 0, 12, letters);
        let items: Vec<String> = runs.iter().map(|run| spelled(&mut chance, run)).collect();
        let blank = |chance: &mut Chance| chance.pick(&[" ", "\t", "   ", "\u{3000}\u{a0}"]).to_string();
        let rule = format!("{}{}{}={}", blank(&mut chance), items[0], blank(&mut chance), items[1]);
        let comparison = ["compare", &items[2], &items[3], "7\r"].join(&blank(&mut chance));
        let source = format!("letters 64\n# \u{e9}\n{rule}#\n{comparison}\n");
        let text = Text::parse(&source).unwrap();

        let lines: Vec<Vec<char>> = source.split('\n').map(|line| line.chars().collect()).collect();
        let found = text.rules[0].sides.iter().chain(&text.comparisons[0].runs);
        for ((run, steps), item) in found.zip(&runs).zip(&items) {
            let line = &lines[run.line - 1];
            assert_eq!(&run.steps, steps, "{source:?}");
            let at = |column: usize| -> String { line[column - 1..].iter().take(item.len()).collect() };
            assert_eq!(&at(run.column), item, "{source:?}");
            for (position, &step) in steps.iter().enumerate() {
                assert_eq!(step_at(line, run.column_of(position)), step, "{source:?}: step {position} of {item}");
                assert!(position == 0 || run.column_of(position - 1) < run.column_of(position));
            }
            assert_eq!(run.column_of(steps.len()), run.column + item.len(), "{source:?}: behind {item}");
        }
    }
}
