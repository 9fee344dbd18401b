//! Bytes to text, and every error of bytes with its place.

mod common;

use booktext::{decode, BytesError};
use common::{hex, records, COMPARISON, EXAMPLE, HEAD, RULE};

#[test]
fn the_example_of_the_specification() {
    assert_eq!(decode(&records(&[HEAD, RULE, COMPARISON])).unwrap(), EXAMPLE);
    assert_eq!(decode(&records(&[HEAD, RULE])).unwrap(), "letters 4\nabdc = cadb\n");
    assert_eq!(decode(&hex(HEAD)).unwrap(), "letters 4\n");
}

#[test]
fn records_as_worked_out_by_hand() {
    for (record, line) in [
        ("02 00 02 00 00 00", "- = -"),
        ("03 00 02 00 00 01 19", "- = z"),
        ("03 00 02 00 01 00 1a", "26 = -"),
        ("05 00 02 00 01 02 3f 1b 00", "63 = 27.0"),
        ("06 00 02 00 02 02 00 1a 00 19", "0.26 = az"),
        ("04 00 02 00 01 01 ff 00", "255 = a"),
        ("09 00 02 00 07 00 0b 04 13 13 04 11 12", "letters = -"),
        ("08 00 03 00 00 00 00 00 00 00 00 00", "compare - - 0"),
        ("09 00 03 00 01 02 03 04 01 00 00 00 03", "compare d - 67305985"), // 4 * 256^3 + 3 * 256^2 + 2 * 256 + 1
        ("0a 00 03 00 ff ff ff ff 00 00 02 00 00 40", "compare - 0.64 4294967295"),
    ] {
        assert_eq!(decode(&records(&[HEAD, record])).unwrap(), format!("letters 4\n{line}\n"));
    }
    assert_eq!(decode(&hex("01 00 01 00 00")).unwrap(), "letters 0\n");
    assert_eq!(decode(&hex("01 00 01 00 ff")).unwrap(), "letters 255\n");
}

#[test]
fn the_longest_records() {
    let rule = [&hex(HEAD)[..], &hex("00 02 02 00 ff ff"), &[0; 255], &[1; 255]].concat();
    assert_eq!(decode(&rule).unwrap(), format!("letters 4\n{} = {}\n", "a".repeat(255), "b".repeat(255)));
    // runs of 65,526 and 1: 0xfff6 and 0x0001
    let comparison = [&hex(HEAD)[..], &hex("ff ff 03 00 07 00 00 00 f6 ff 01 00"), &[0; 65_526], &[1]].concat();
    assert_eq!(decode(&comparison).unwrap(), format!("letters 4\ncompare {} b 7\n", "a".repeat(65_526)));
}

#[test]
fn every_error_names_its_byte() {
    for (given, place, part) in [
        (&[][..], 0, "there are no bytes"),
        (&["01 00 01"], 0, "end inside a record"),
        (&["01 00 01 00"], 0, "end inside a record"),
        (&[RULE], 0, "kind 2 does not belong here"),
        (&[COMPARISON], 0, "kind 3 does not belong here"),
        (&[HEAD, HEAD], 5, "kind 1 does not belong here"),
        (&[HEAD, RULE, HEAD], 19, "kind 1 does not belong here"),
        (&[HEAD, RULE, "01"], 19, "end inside a record"),
        (&[HEAD, "0A 00 02 00 04 04 00 01 03 02 02 00 03"], 5, "end inside a record"),
        (&[HEAD, "ff ff 02 00 04 04"], 5, "end inside a record"),
        (&[HEAD, COMPARISON, RULE], 25, "kind 2 does not belong here"),
        (&[HEAD, COMPARISON, HEAD], 25, "kind 1 does not belong here"),
        (&[HEAD, RULE, COMPARISON, COMPARISON, "00"], 59, "end inside a record"),
        (&[HEAD, "00 00 09 00"], 5, "kind 9 does not belong here"),
        (&[HEAD, "00 00 00 00"], 5, "kind 0 does not belong here"),
        (&[HEAD, "02 00 02 01 00 00"], 5, "kind 258 does not belong here"), // both bytes of the kind count
        (&[HEAD, COMPARISON, "00 00 04 00"], 25, "kind 4 does not belong here"),
        (&["00 00 01 00"], 0, "kind 1 has at least 1 payload"),
        (&["02 00 01 00 04 04"], 0, "the length 2 does not fit the record, which needs 1"),
        (&[HEAD, "00 00 02 00"], 5, "kind 2 has at least 2 payload"),
        (&[HEAD, "01 00 02 00 01"], 5, "kind 2 has at least 2 payload"),
        (&[HEAD, "03 00 02 00 01 01 00"], 5, "the length 3 does not fit the record, which needs 4"),
        (&[HEAD, "05 00 02 00 01 01 00 00 00"], 5, "the length 5 does not fit the record, which needs 4"),
        (&[HEAD, "02 00 02 00 ff ff"], 5, "the length 2 does not fit the record, which needs 512"),
        (&[HEAD, "01 00 03 00 01"], 5, "kind 3 has at least 8 payload"),
        (&[HEAD, "07 00 03 00 00 00 00 00 00 00 00"], 5, "kind 3 has at least 8 payload"),
        (&[HEAD, "09 00 03 00 00 00 00 00 01 00 01 00 00"], 5, "the length 9 does not fit the record, which needs 10"),
        (&[HEAD, RULE, "08 00 03 00 00 00 00 00 ff ff ff ff"], 19, "the length 8 does not fit the record, which needs 131078"), // 8 + 2 * 65,535
    ] {
        let error = decode(&records(given)).expect_err("bytes that are wrong");
        assert_eq!(error.place, place, "{given:?}: {error}");
        assert!(error.message.contains(part), "{given:?}: {error}");
    }
}

#[test]
fn an_error_as_it_is_told() {
    let error = BytesError { place: 19, message: "a record of kind 9 does not belong here".into() };
    assert_eq!(decode(&records(&[HEAD, RULE, "00 00 09 00"])), Err(error.clone()));
    assert_eq!(error.to_string(), "byte 19: a record of kind 9 does not belong here");
}

#[test]
fn an_input_that_is_cut_off_is_whole_only_between_records() {
    let whole = records(&[HEAD, RULE, COMPARISON]);
    for kept in 0..=whole.len() {
        // the records have 5, 14 and 20 bytes, and their lines end with the characters 10, 22 and 44
        let expected = match kept {
            5 => Ok(&EXAMPLE[..10]),
            19 => Ok(&EXAMPLE[..22]),
            39 => Ok(&EXAMPLE[..44]),
            0..5 => Err(0),
            6..19 => Err(5),
            _ => Err(19),
        };
        let found = decode(&whole[..kept]);
        assert_eq!(found.as_deref().map_err(|error| error.place), expected, "{kept}");
    }
}
