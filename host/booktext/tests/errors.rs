//! Every error of a text, with its line and its column, which count from 1.

use booktext::{Rule, Run, Text, TextError};

/// A book before the line that is wrong, which so is line 3.
const BOOK: &str = "letters 4\nabdc = cadb\n";

#[track_caller]
fn check_error<T: std::fmt::Debug>(found: Result<T, TextError>, given: &str, line: usize, column: usize, part: &str) {
    let given: String = given.chars().take(80).collect();
    let error = found.map(drop).expect_err(&given);
    assert_eq!((error.line, error.column), (line, column), "{given:?}: {error}");
    assert!(error.message.contains(part), "{given:?}: {error}");
    assert!(error.message.chars().count() < 250, "{given:?}: a message of {} characters", error.message.chars().count());
    assert!(!error.message.contains(char::is_control), "{given:?}: {error:?}");
    assert_eq!(error.to_string(), format!("{line}:{column}: {}", error.message));
}

/// The error of a whole text.
#[track_caller]
fn check_text(text: &str, line: usize, column: usize, part: &str) {
    check_error(Text::parse(text), text, line, column, part);
}

/// The error of a line behind the book.
#[track_caller]
fn check_line(content: &str, column: usize, part: &str) {
    check_text(&format!("{BOOK}{content}\n"), 3, column, part);
    check_text(&format!("{BOOK}{content}"), 3, column, part);
    check_text(&format!("{BOOK}{content}  # {content}\r\n"), 3, column, part);
}

#[test]
fn an_empty_text() {
    for (text, line) in [("", 1), ("\n", 2), ("# nothing\n\n", 3), ("# nothing", 1), (" \t\r\n\u{a0}", 2), ("\u{feff}", 1), ("\u{feff}#\n", 2)] {
        check_text(text, line, 1, "the text is empty; the first item must be 'letters NUMBER'");
    }
}

#[test]
fn the_head_comes_first_and_once() {
    check_text("abdc = cadb\n", 1, 1, "first item must be 'letters NUMBER'");
    check_text("\n  compare a b 1\n", 2, 3, "first item");
    check_text("letters = compare\nletters 4\n", 1, 1, "first item");
    check_text("letters =\n", 1, 1, "first item");
    check_text("# a book\n\n \u{e9}letters 4\n", 3, 2, "first item");
    check_text("Letters 4\n", 1, 1, "first item");
    // that the head is missing is told first, whatever else is wrong with the line
    check_text("abDc = cadb\n", 1, 1, "first item");
    check_text("compare a\n", 1, 1, "first item");
    check_text("a = b = c\n", 1, 1, "first item");
    check_text("letters 4\n letters 4\n", 2, 2, "'letters' stands on line 1 already");
    check_text("letters 4\nletters\n", 2, 1, "line 1 already");
    check_text("\nletters 26\n\nletters = compare\ncompare a b 1\nletters 5 6\n", 6, 1, "line 2 already");
}

#[test]
fn the_number_of_letters() {
    check_text("letters\n", 1, 8, "something is missing; the form is: letters NUMBER");
    check_text("  letters  # 4\n", 1, 10, "missing");
    check_text("letters\r\n", 1, 8, "missing");
    check_text("letters 4 5\n", 1, 11, "'5' is too much; the form is: letters NUMBER");
    check_text("letters 4 = 5\n", 1, 11, "'=' is too much");
    check_text("letters four\n", 1, 9, "the number of letters must be a number, not 'four'");
    check_text("letters 256\n", 1, 9, "the number of letters is at most 255, not '256'");
    check_text("letters 0256\n", 1, 9, "at most 255");
    check_text("letters 18446744073709551616\n", 1, 9, "at most 255"); // 2 to the 64
    check_text("letters -1\n", 1, 9, "must be a number, not '-1'");
    check_text("letters +4\n", 1, 9, "must be a number, not '+4'");
    check_text("letters 4.\n", 1, 9, "must be a number");
    check_text("letters 0x4\n", 1, 9, "must be a number");
    check_text("letters \u{664}\n", 1, 9, "must be a number, not '\u{664}'"); // a digit, though none from 0 to 9
    check_text("letters 4,\n", 1, 9, "must be a number, not '4,'");
}

#[test]
fn the_forms_of_lines() {
    check_text(&format!("{BOOK}compare a b 1\nab = ba\n"), 4, 1, "a rule stands behind a comparison; all rules come first");
    check_text(&format!("{BOOK}compare a b 1\n  aB = ba\n"), 4, 3, "all rules come first");
    check_line("abdc cadb", 1, "'abdc' begins neither a rule (RUN = RUN) nor 'letters' nor 'compare'");
    check_line("abdc", 1, "'abdc' begins neither");
    check_line("= abdc", 1, "'=' begins neither");
    check_line("comparison a b 1", 1, "'comparison' begins neither");
    check_line("abdc == cadb", 9, "'cadb' is too much; the form is: RUN = RUN");
    check_line("abdc =", 7, "something is missing; the form is: RUN = RUN");
    check_line("abdc=", 6, "missing");
    check_line("abdc = cadb abdc", 13, "'abdc' is too much; the form is: RUN = RUN");
    check_line("abdc = cadb = abdc", 13, "'=' is too much");
    check_line("abdc = = cadb", 10, "'cadb' is too much");
    check_line("compare a b", 12, "something is missing; the form is: compare RUN RUN ALLOWANCE");
    check_line("compare", 8, "missing");
    check_line("compare a b   # 7", 12, "missing");
    check_line("compare a b 1 2", 15, "'2' is too much; the form is: compare RUN RUN ALLOWANCE");
    check_line("compare a = b 1", 15, "'1' is too much");
}

#[test]
fn runs_in_letters() {
    check_line("abdc = =", 8, "'=' is no letter from a to z; a run is letters, numbers with dots between them, or -");
    check_line("== cadb", 1, "'=' is no letter");
    check_line("abDc = cadb", 3, "'D' is no letter");
    check_line("abdc = ca4b", 10, "'4' is no letter");
    check_line("abdc = ca.b", 10, "'.' is no letter");
    check_line("abdc = cad-", 11, "'-' is no letter");
    check_line("-a = cadb", 1, "'-' is no letter");
    check_line("abdc = --", 8, "'-' is no letter");
    check_line("abdc = `", 8, "'`' is no letter"); // just before a
    check_line("abdc = {", 8, "'{' is no letter"); // just behind z
    check_line("abdc = '", 8, "''' is no letter");
    check_line("abdc = a\\", 9, "'\\' is no letter");
    check_line("abdc = \u{fffd}", 8, "'\u{fffd}' is no letter");
    check_line("compare a B 1", 11, "'B' is no letter");
    check_line("compare A B 1", 9, "'A' is no letter");
}

#[test]
fn runs_in_numbers() {
    check_line("abdc = 1..2", 10, "a number is missing at a dot");
    check_line("abdc = 1.2.", 12, "a number is missing at a dot");
    check_line("abdc = .1", 8, "a number is missing at a dot");
    check_line("abdc = .", 8, "a number is missing at a dot");
    check_line("abdc = 1.b.2", 10, "a letter's code must be a number, not 'b'");
    check_line("abdc = 1b", 8, "a letter's code must be a number, not '1b'");
    check_line("abdc = 1.-", 10, "must be a number, not '-'");
    check_line("abdc = 1.256", 10, "a letter's code is at most 255, not '256'");
    check_line("1.2.999 = 300", 5, "at most 255, not '999'");
    check_line("007.0000256 = a", 5, "at most 255, not '0000256'");
    check_line("abdc = 1.\u{663}", 10, "must be a number, not '\u{663}'");
    check_line("abdc = 1\u{e9}.2.x", 8, "must be a number, not '1\u{e9}'");
    check_line("compare 0.1 2.3.400 5", 17, "at most 255, not '400'");
}

#[test]
fn allowances() {
    check_line("compare a b many", 13, "an allowance must be a number, not 'many'");
    check_line("compare a b -1", 13, "an allowance must be a number");
    check_line("compare a b -", 13, "an allowance must be a number");
    check_line("compare a b 4294967296", 13, "an allowance is at most 4294967295, not '4294967296'");
    check_line("compare a b 18446744073709551617", 13, "at most 4294967295"); // 2 to the 64, and 1
    check_line(&format!("compare a b {}", "9".repeat(5000)), 13, "at most 4294967295");
}

#[test]
fn what_is_too_long_to_be_written() {
    let side = "a side of 256 steps cannot be written; a rule has room for 255, of which 64 are accepted";
    let long = "a".repeat(256);
    check_line(&format!("{long} = b"), 1, side);
    check_line(&format!("b = {long}"), 5, side);
    check_line(&format!("b = 7{}", ".7".repeat(255)), 5, side);
    check_line(&format!("{long} = {long}"), 1, side);
    // a payload has 65,535 bytes, of which 8 are fields: 65,527 are left
    check_line(&format!("compare {} {} 1", "a".repeat(65_000), "b".repeat(528)), 9, "runs of 65000 and 528 steps cannot be written in one record");
    check_line(&format!("compare - {} 1", "b".repeat(65_528)), 9, "runs of 0 and 65528 steps");
    check_line(&format!("compare  {} - 1", "b".repeat(100_000)), 10, "runs of 100000 and 0 steps");
}

#[test]
fn a_column_counts_characters() {
    // a tab is one character, and so is what has several bytes
    check_line("\tabdc\t=\tcaDb", 11, "'D' is no letter");
    check_line("\u{3000}abdc\u{2003}=\u{2009}caDb", 11, "'D' is no letter");
    check_line("abdc = ca\u{e9}b", 10, "'\u{e9}' is no letter");
    check_line("abdc = ca\u{1f41d}b", 10, "'\u{1f41d}' is no letter");
    check_line("\u{e9}\u{1f41d} = b c", 8, "'c' is too much");
    check_line("\u{e9}\u{1f41d} =", 5, "missing");
    check_line("compare \u{a0}\u{1f41d} b", 13, "missing");
    check_text("letters\u{2003}\u{2003}four", 1, 10, "must be a number");
}

#[test]
fn line_ends_and_marks_of_the_byte_order() {
    check_text("letters 4\r\n\r\nabdc = caDb\r\n", 3, 10, "'D' is no letter");
    check_text("letters 4\r\nabdc =\r\n", 2, 7, "missing");
    // a return alone is a blank and ends no line
    check_text("letters 4\ra = b\r", 1, 11, "'a' is too much");
    // so are what Unicode calls ends of lines
    check_text("letters 4\u{2028}a = b", 1, 11, "'a' is too much");
    check_text("letters 4\u{85}a = b", 1, 11, "'a' is too much");
    // a mark at the front has no column, as no editor shows it; elsewhere it is no blank
    check_text("\u{feff}letters four\n", 1, 9, "must be a number");
    check_text("\u{feff}letters 4\nabdc = caDb\n", 2, 10, "'D' is no letter");
    check_text("\u{feff}\u{feff}letters 4\n", 1, 1, "first item");
    check_line("\u{feff}a = b", 1, "'\\u{feff}' is no letter");
}

#[test]
fn what_cannot_be_printed_is_spelled_out() {
    check_line("a\0b = c", 2, "'\\0' is no letter");
    check_line("\u{1b}[31m = c", 1, "'\\u{1b}' is no letter");
    check_line("a\u{7f} = c", 2, "'\\u{7f}' is no letter");
    check_line("a\u{1c}b = c", 2, "'\\u{1c}' is no letter"); // a mark between files, no blank
    check_line("a\u{200b} = c", 2, "'\\u{200b}' is no letter"); // a blank without width, which is none
    check_line("a = b \u{202e}c", 7, "'\\u{202e}c' is too much"); // letters from right to left
    check_line("\u{8}\u{8}abdc", 1, "'\\u{8}\\u{8}abdc' begins neither");
    check_line("compare a b 1\u{1}", 13, "must be a number, not '1\\u{1}'");
    check_text("letters \u{1b}[2J\n", 1, 9, "must be a number, not '\\u{1b}[2J'");
}

#[test]
fn a_message_repeats_twenty_characters_of_an_item() {
    check_line(&"a".repeat(20), 1, "'aaaaaaaaaaaaaaaaaaaa' begins neither");
    check_line(&"a".repeat(21), 1, "'aaaaaaaaaaaaaaaaaaaa...' begins neither");
    let long = "x".repeat(100_000);
    let shown = "'xxxxxxxxxxxxxxxxxxxx...'";
    check_line(&long, 1, &format!("{shown} begins neither"));
    check_line(&format!("a = b {long}"), 7, &format!("{shown} is too much"));
    check_line(&format!("a = 1.{long}"), 7, &format!("must be a number, not {shown}"));
    check_line(&format!("compare a b {long}"), 13, &format!("must be a number, not {shown}"));
    check_line(&format!("a = {long}X"), 100_005, "'X' is no letter");
    check_line(&format!("a = {long}"), 5, "a side of 100000 steps");
    check_text(&format!("letters {long}"), 1, 9, &format!("must be a number, not {shown}"));
    check_text(&format!("letters {}", "7".repeat(100_000)), 1, 9, "at most 255, not '77777777777777777777...'");
    check_text(&format!("letters {}", "\u{e9}".repeat(100_000)), 1, 9, "not '\u{e9}\u{e9}");
    check_text(&format!("letters {}", "\u{1b}".repeat(100_000)), 1, 9, "\\u{1b}...'");
    check_error(Rule::parse(&format!("a {long} b")), &long, 1, 3, &format!("{shown} stands where = should"));
}

#[test]
fn a_rule_that_stands_alone() {
    let long = "a".repeat(256);
    for (text, line, column, part) in [
        ("", 1, 1, "something is missing; the form is: RUN = RUN"),
        ("  # a = b", 1, 1, "missing"),
        ("abdc", 1, 5, "missing"),
        ("abdc =", 1, 7, "missing"),
        ("abdc = # cadb", 1, 7, "missing"),
        ("abdc cadb", 1, 10, "missing"),
        ("abdc is cadb", 1, 6, "'is' stands where = should; the form is: RUN = RUN"),
        ("= cadb =", 1, 3, "'cadb' stands where = should"),
        ("abdc = cadb abdc", 1, 13, "'abdc' is too much; the form is: RUN = RUN"),
        ("= = abdc", 1, 1, "'=' is no letter"),
        ("abdc = caDb", 1, 10, "'D' is no letter"),
        ("\u{3000}abdc=1.256", 1, 9, "at most 255"),
        ("\n\nabdc = caDb\n", 3, 10, "'D' is no letter"),
        ("abdc =\ncadb", 1, 7, "missing"),
        ("abdc = cadb\n\n  ab = ba\n", 3, 3, "'ab' is too much; the form is: RUN = RUN"),
        (&format!("b = {long}"), 1, 5, "a side of 256 steps"),
    ] {
        check_error(Rule::parse(text), text, line, column, part);
    }
}

#[test]
fn runs_one_a_line() {
    for (text, line, column, part) in [
        ("a\n aBc\n", 2, 3, "'B' is no letter"),
        ("a\nb c\n", 2, 3, "'c' is too much; the form is: RUN"),
        ("a = b", 1, 3, "'=' is too much"),
        ("# a\n\n=\n", 3, 1, "'=' is no letter"),
        ("a\r\n1..2\r\n", 2, 3, "a number is missing at a dot"),
        ("\u{feff}ab1", 1, 3, "'1' is no letter"),
    ] {
        check_error(Run::parse_lines(text), text, line, column, part);
    }
}

#[test]
fn a_run_that_stands_alone() {
    for (item, column, part) in [
        ("", 9, "a run has no letters; the empty run is -"),
        ("aBc", 10, "'B' is no letter"),
        ("a b", 10, "' ' is no letter"),
        ("a#", 10, "'#' is no letter"),
        ("1..2", 11, "a number is missing at a dot"),
        ("1 2", 9, "must be a number, not '1 2'"),
        ("0.1.256", 13, "at most 255"),
    ] {
        check_error(Run::parse(item, 3, 9), item, 3, column, part);
    }
}
