//! Text to bytes: the specification's example, all the ways to write a text, and what can be written though the library refuses it.

mod common;

use booktext::{letter_text, run_text, Rule, Run, Text, TextError};
use common::{hex, records, COMPARISON, EXAMPLE, HEAD, RULE};

fn bytes(text: &str) -> Vec<u8> {
    Text::parse(text).unwrap_or_else(|error| panic!("{error}")).bytes()
}

/// The record of a rule, by the specification's table ("Book bytes").
fn rule_record(left: &[u8], right: &[u8]) -> Vec<u8> {
    let [low, high] = (2 + left.len() as u16 + right.len() as u16).to_le_bytes();
    [&[low, high, 2, 0, left.len() as u8, right.len() as u8], left, right].concat()
}

#[test]
fn the_example_of_the_specification_byte_for_byte() {
    assert_eq!(bytes(EXAMPLE), records(&[HEAD, RULE, COMPARISON]));
}

#[test]
fn a_book_is_the_head_and_the_rules_alone() {
    assert_eq!(Text::parse(EXAMPLE).unwrap().book(), records(&[HEAD, RULE]));
    assert_eq!(Text::parse("letters 4\ncompare a b 1\n").unwrap().book(), hex(HEAD));
}

#[test]
fn what_a_text_says_and_where_it_stands() -> Result<(), TextError> {
    let text = Text::parse("# a book\n\n  letters   4 # four\n\tabdc=cadb\ncompare  - 2.0 7")?;
    assert_eq!((text.head.letters, text.head.line, text.head.column), (4, 3, 13));
    let place = |run: &Run| (run.steps.clone(), run.line, run.column);
    assert_eq!(text.rules.len(), 1);
    assert_eq!(text.rules[0].sides.each_ref().map(place), [(vec![0, 1, 3, 2], 4, 2), (vec![2, 0, 3, 1], 4, 7)]);
    assert_eq!(text.comparisons.len(), 1);
    assert_eq!(text.comparisons[0].runs.each_ref().map(place), [(vec![], 5, 10), (vec![2, 0], 5, 12)]);
    assert_eq!(text.comparisons[0].allowance, 7);
    Ok(())
}

#[test]
fn comments_blank_lines_spacing_and_line_ends() {
    let spaced = "# a book\n\n  letters   4 # four\n\tabdc=cadb\ncompare abdc  cadb 100#end";
    for text in [
        spaced.to_string(),
        EXAMPLE.trim_end().to_string(), // no last newline
        EXAMPLE.replace('\n', "\r\n"),
        spaced.replace('\n', "\r\n"),
        format!("\u{feff}{EXAMPLE}"), // a mark of the byte order
        format!("\u{feff}{}", spaced.replace('\n', "\r\n")),
        format!("\n\n{}", EXAMPLE.replace('\n', " \t\n\n")),
        EXAMPLE.replace(" = ", "="),
        EXAMPLE.replace(" = ", " ="),
        EXAMPLE.replace(" = ", "= "),
        EXAMPLE.replace(' ', "\t"),
        EXAMPLE.replace(' ', "\u{a0}\u{2003}"), // blanks of Unicode
        EXAMPLE.replace('\n', "# letters 9 = # \u{e9}\n"),
    ] {
        assert_eq!(bytes(&text), records(&[HEAD, RULE, COMPARISON]), "{text:?}");
    }
}

#[test]
fn numbers_and_the_empty_run() {
    for (text, expected) in [
        ("letters 4\n0.1.3.2 = 2.0.3.1\ncompare 0.1.3.2 cadb 100", records(&[HEAD, RULE, COMPARISON])),
        (
            "letters 0004\n00.001.3.2 = 2.0.003.000000000000000000000001\ncompare abdc cadb 00000000000000000000100",
            records(&[HEAD, RULE, COMPARISON]),
        ),
        ("letters 64\n63 = 27.0\n", hex("01 00 01 00 40 05 00 02 00 01 02 3f 1b 00")),
        ("letters 1\ncompare - - 0\n", hex("01 00 01 00 01 08 00 03 00 00 00 00 00 00 00 00 00")),
        ("letters 1\ncompare - a 1\n", hex("01 00 01 00 01 09 00 03 00 01 00 00 00 00 00 01 00 00")),
        ("letters 1\ncompare a - 1\n", hex("01 00 01 00 01 09 00 03 00 01 00 00 00 01 00 00 00 00")),
    ] {
        assert_eq!(bytes(text), expected, "{text}");
    }
}

#[test]
fn a_run_may_spell_a_keyword() {
    // l e t t e r s and c o m p a r e, counted from a = 0
    let (letters, compare) = ([11, 4, 19, 19, 4, 17, 18], [2, 14, 12, 15, 0, 17, 4]);
    assert_eq!(bytes("letters 26\nletters = compare\n")[5..], rule_record(&letters, &compare));
    assert_eq!(bytes("letters 26\ncompare = letters\n")[5..], rule_record(&compare, &letters));
    assert_eq!(bytes("letters 26\ncompare=letters\n")[5..], rule_record(&compare, &letters));
    let comparison = bytes("letters 26\ncompare compare letters 1\n");
    assert_eq!(comparison[5..17], hex("16 00 03 00 01 00 00 00 07 00 07 00"));
    assert_eq!(comparison[17..], [compare, letters].concat());
}

#[test]
fn what_the_library_refuses_can_still_be_written() {
    for letters in [0, 70, 255] {
        assert_eq!(bytes(&format!("letters {letters}\n")), [1, 0, 1, 0, letters]);
    }
    assert_eq!(bytes("letters 1\n- = z\n")[5..], rule_record(&[], &[25]));
    assert_eq!(bytes("letters 1\nz = -\n")[5..], rule_record(&[25], &[]));
    assert_eq!(bytes("letters 1\n- = -\n")[5..], rule_record(&[], &[]));
    let side = [1; 255];
    assert_eq!(bytes(&format!("letters 1\n{} = {}\n", "b".repeat(255), "b".repeat(255)))[5..], rule_record(&side, &side));
    let many = "a = b\n".repeat(33);
    assert_eq!(bytes(&format!("letters 2\n{many}"))[5..], rule_record(&[0], &[1]).repeat(33));
}

#[test]
fn long_runs_and_the_highest_allowance() {
    let comparison = bytes(&format!("letters 1\ncompare {} b 4294967295\n", "a".repeat(5000)));
    // 8 + 5001 = 0x1391, and 5000 = 0x1388
    assert_eq!(comparison[5..17], hex("91 13 03 00 ff ff ff ff 88 13 01 00"));
    assert_eq!(comparison[17..], [vec![0; 5000], vec![1]].concat());
    // the longest record: its payload is 65,535 bytes, of which 8 are fields
    let longest = bytes(&format!("letters 1\ncompare {} {} 0\n", "a".repeat(65_000), "b".repeat(527)));
    assert_eq!(longest.len(), 5 + 4 + 65_535);
    assert_eq!(longest[5..9], hex("ff ff 03 00"));
    // more bytes than the program reads, 60,000
    assert_eq!(bytes(&format!("letters 1\n{}", "compare - - 1\n".repeat(5001))).len(), 5 + 5001 * 12);
}

#[test]
fn every_code_has_its_number_and_the_first_26_a_letter() {
    for code in 0..=255u8 {
        let number = Run::parse(&code.to_string(), 1, 1).unwrap();
        assert_eq!(number.steps, [code]);
        assert_eq!(Run::parse(&format!("0.{code}.000{code}"), 1, 1).unwrap().steps, [0, code, code]);
    }
    for (code, letter) in (0..).zip("abcdefghijklmnopqrstuvwxyz".chars()) {
        assert_eq!(Run::parse(&letter.to_string(), 1, 1).unwrap().steps, [code]);
        assert_eq!(run_text(&[code]), letter.to_string());
        assert_eq!(letter_text(code), format!("{letter} (code {code})"));
    }
    for code in 26..=255 {
        assert_eq!(run_text(&[code]), code.to_string());
        assert_eq!(letter_text(code), code.to_string());
    }
}

#[test]
fn runs_as_text() {
    for (steps, text) in [
        (&[][..], "-"),
        (&[25, 0], "za"),
        (&[26], "26"),
        (&[0, 26], "0.26"),
        (&[26, 0], "26.0"),
        (&[63, 27, 0], "63.27.0"),
        (&[255, 1, 255], "255.1.255"),
    ] {
        assert_eq!(run_text(steps), text);
        assert_eq!(Run::parse(text, 1, 1).unwrap().to_string(), text);
    }
    assert_eq!(Run::parse("002.0.3.01", 1, 1).unwrap().to_string(), "cadb", "as it is written best, not as it was");
}

#[test]
fn a_rule_that_stands_alone() {
    for (text, sides, line, columns) in [
        ("abdc = cadb", [&[0, 1, 3, 2][..], &[2, 0, 3, 1]], 1, [1, 8]),
        ("abdc=cadb", [&[0, 1, 3, 2], &[2, 0, 3, 1]], 1, [1, 6]),
        ("  - = 0.27\r\n", [&[], &[0, 27]], 1, [3, 7]),
        ("letters = z", [&[11, 4, 19, 19, 4, 17, 18], &[25]], 1, [1, 11]),
        ("\u{feff}a = b # one = two\n\n# nothing\n", [&[0], &[1]], 1, [1, 5]),
        ("# first a comment\n\n a = b", [&[0], &[1]], 3, [2, 6]),
    ] {
        let rule = Rule::parse(text).unwrap_or_else(|error| panic!("{text:?}: {error}"));
        assert_eq!(rule.sides.each_ref().map(|side| &side.steps[..]), sides, "{text:?}");
        assert_eq!(rule.sides.each_ref().map(|side| (side.line, side.column)), columns.map(|column| (line, column)), "{text:?}");
    }
}

#[test]
fn runs_one_a_line() {
    let runs = Run::parse_lines("\u{feff}cadb\r\n\n  - # the empty run\n# nothing\n\t0.27\nletters").unwrap();
    let found: Vec<_> = runs.iter().map(|run| (run.to_string(), run.line, run.column)).collect();
    let expected = [("cadb", 1, 1), ("-", 3, 3), ("0.27", 5, 2), ("letters", 6, 1)];
    assert_eq!(found, expected.map(|(run, line, column)| (run.to_string(), line, column)));
    for none in ["", "\n", "# nothing", " \r\n\t\n"] {
        assert_eq!(Run::parse_lines(none), Ok(vec![]), "{none:?}");
    }
}
