//! The built command on files that a test makes: what is at a limit or beyond it, bytes, texts of any bytes, and files that it writes.

mod common;

use std::ffi::{OsStr, OsString};
use std::fs::OpenOptions;
use std::os::unix::ffi::OsStringExt;
use std::process::{Command, Stdio};

use common::{root, run, Folder, Printed};

/// Book Q of the specification.
const Q: &str = "letters 4\nabdc = cadb\n";

/// A call prints these lines, nothing on standard error, and has this status.
#[track_caller]
fn prints(printed: &Printed, lines: &[&str], status: i32) {
    let expected: String = lines.iter().flat_map(|line| [line, "\n"]).collect();
    assert_eq!((&printed.output()[..], &printed.errors()[..], printed.status), (&expected[..], "", status));
}

/// A call prints this line on standard error and nothing else, and its status is 2.
#[track_caller]
fn fails(printed: &Printed, line: &str) {
    assert_eq!((&printed.output()[..], &printed.errors()[..], printed.status), ("", &format!("{line}\n")[..], 2));
}

/// A run of so many times one letter.
fn times(number: usize, letter: &str) -> String {
    letter.repeat(number)
}

// ---- books at their limits ----

#[test]
fn a_side_has_at_most_64_steps() {
    // b stands nowhere else, so that the side is no product of pieces; of its 63 a's the last 62 stand at two places
    let side = |steps: usize| format!("letters 3\nb{} = c\n", times(steps - 1, "a"));
    let folder = Folder::new("sides").with("64.txt", side(64)).with("65.txt", side(65));
    let cut = format!("   1  left   2:1   |ba|{}  none    b stands nowhere else", times(62, "a"));
    let lines = folder.run(&["sheet", "64.txt"]).output();
    assert_eq!(lines.lines().nth(1), Some(&cut[..]), "{lines}");
    prints(&folder.run(&["check", "65.txt"]), &["65.txt:2:1: refused 4 5: range: rule 1, left side has 65 steps; a side has 1 to 64"], 2);
}

#[test]
fn a_book_has_at_most_32_rules() {
    // the head takes 5 bytes and each rule 8, so that the 33rd begins at 5 + 32 * 8
    let book = |rules: usize| format!("letters 2\n{}", times(rules, "a = b\n"));
    let folder = Folder::new("rules").with("32.txt", book(32)).with("33.txt", book(33));
    let sheet = folder.run(&["sheet", "32.txt"]);
    assert_eq!((sheet.output().lines().count(), sheet.status), (1 + 64, 0));
    let refused = "refused 6 261: thick: rule 33 is one too many; a book has at most 32";
    prints(&folder.run(&["check", "33.txt"]), &[&format!("33.txt:34:1: {refused}")], 2);
    prints(&folder.run(&["explain", "33.txt", "refused 6 261"]), &[&format!("{refused} (33.txt:34:1)")], 0);
    // the place of an addition is the length of the held book
    prints(&folder.run(&["change", "32.txt", "add b = a"]), &[&format!("change 1, column 5: {refused}")], 2);
}

#[test]
fn a_side_of_64_letters_and_the_same_backwards() {
    let codes: Vec<String> = (0..64).map(|code: u8| code.to_string()).collect();
    let backwards: Vec<String> = codes.iter().rev().cloned().collect();
    let book = format!("letters 64\n{} = {}\n", codes.join("."), backwards.join("."));
    let folder = Folder::new("backwards").with("book.txt", book);
    let object = folder.run(&["sheet", "--json", "book.txt"]).output();
    // letter by letter: the cut is 1 62 1, and 64 pieces make each side
    assert_eq!(object.matches(r#""x":1,"y":62,"z":1,"pieces":64,"made_of":[["#).count(), 2, "{object}");
    let [front, back] = [codes.join("],["), backwards.join("],[")].map(|codes| object.contains(&format!(r#""made_of":[[{codes}]]"#)));
    assert!(front && back, "{object}");
}

// ---- runs at their limits ----

#[test]
fn runs_of_4096_steps_are_compared() {
    let (most, more) = (times(4_096, "a"), times(4_097, "a"));
    let runs = format!("# the second one is too long\n{most}\n  {more}\n");
    let folder = Folder::new("long").with("none.txt", "letters 4\n").with("q.txt", Q).with("runs.txt", runs);
    // without rules each round drops a letter
    let shown = "aaaaaaaaaaaa...[4,072]...aaaaaaaaaaaa";
    let same = format!("same: a chain of exchanges joins {shown} and {shown}; 4,096 rounds");
    prints(&folder.run(&["compare", "none.txt", &most, &most]), &[&same], 0);

    let long = |name: &str, place: u32| format!("refused 9 {place}: long: {name} has 4,097 steps; 4,096 at most are taken");
    let [u, v] = [long("the first run", 0), long("the second run", 5_000)];
    prints(&folder.run(&["compare", "q.txt", &more, &more]), &[&format!("the first run, column 1: {u}")], 2);
    prints(&folder.run(&["trace", "q.txt", &most, &more]), &[&format!("the second run, column 1: {v}")], 2);
    prints(&folder.run(&["compare", "q.txt", "@runs.txt"]), &[&format!("runs.txt:3:3: {v}")], 2);
    prints(&folder.run(&["least", "q.txt", "@runs.txt"]), &[&most, &format!("runs.txt:3:3: {}", long("run 2", 0))], 2);
    prints(&folder.run(&["front", "q.txt", &more, "a"]), &[&format!("the run, column 1: {}", long("the run", 0))], 2);
    let stranger = "the first run, column 1: refused 10 0: stranger: the first run has the letter e (code 4); the book has 4 letters, a to d";
    prints(&folder.run(&["compare", "q.txt", "e", &more]), &[stranger], 2);
}

#[test]
fn a_comparison_of_the_text_with_a_long_run() {
    let book = format!("letters 4\ncompare a {} 100\ncompare a a 100\n", times(4_097, "b"));
    let folder = Folder::new("long-text").with("book.txt", book);
    let long = "refused 9 5000: long: the second run has 4,097 steps; 4,096 at most are taken";
    let same = "book.txt:3: same: a chain of exchanges joins a and a; 1 round";
    prints(&folder.run(&["compare", "book.txt"]), &[&format!("book.txt:2:11: {long}"), same], 2);
    let explained = folder.run_with(&["explain", "book.txt"], b"book 0\nrefused 9 5000\n").output();
    let (number, meaning) = long.split_once(": ").expect("a meaning");
    let expected = format!("book 0: the book is accepted, with 0 rules\n{number}: comparison 1 on line 2: {meaning} (book.txt:2:11)\n");
    assert_eq!(explained, expected);
}

#[test]
fn a_front_of_more_than_64_steps() {
    let folder = Folder::new("fronts").with("q.txt", Q);
    let not_piece =
        "refused 18 0: not a piece: aaaaaaaaaaaa...[40]...aaaaaaaaaaaa is no piece of the book; a piece stands at two places of the sides, \
                     each distinct side counted once. This command finds it in no side";
    prints(&folder.run(&["front", "q.txt", "abdc", &times(64, "a")]), &[not_piece], 2);
    let long = "the piece, column 1: refused 9 10000: long: the piece has 65 steps; 64 at most are taken";
    prints(&folder.run(&["front", "q.txt", "abdc", &times(65, "a")]), &[long], 2);
}

#[test]
fn least_runs_of_262144_steps() {
    // b = a and 63 times c: the right side comes first, and stands for every b
    let right = format!("a{}", times(63, "c"));
    let folder = Folder::new("least").with("book.txt", format!("letters 3\nb = {right}\n"));
    prints(&folder.run(&["least", "book.txt", "bbb", &times(4_096, "b")]), &[&right.repeat(3), &right.repeat(4_096)], 0);
}

#[test]
fn a_long_trace_has_one_head() {
    // each round drops a letter: a line for the head, for each round and for the end, a blank one, and two for the answer
    let run = times(2_500, "b");
    let trace = Folder::new("trace").with("q.txt", Q).run(&["trace", "--width", "2", "q.txt", &run, &run]);
    let output = trace.output();
    let lines: Vec<&str> = output.lines().collect();
    assert_eq!((lines.len(), trace.status), (1 + 2_500 + 1 + 1 + 2, 0));
    assert_eq!(lines.iter().filter(|line| line.contains("what is done")).count(), 2, "the head, and the last line's sentence");
    for (round, line) in (1..=2_500).zip(&lines[1..]) {
        assert!(line.starts_with(&format!("{round:>5}    2  ")), "{line}");
    }
    assert_eq!(lines[2_502], "");
    assert_eq!(lines[2_503], "same: a chain of exchanges joins b...[2,498]...b and b...[2,498]...b; 2,500 rounds");
}

// ---- files that are large, and texts of any bytes ----

#[test]
fn a_file_that_is_too_large() {
    let most = 4 << 20;
    let text = |bytes: usize| format!("letters 4 #{}\n", times(bytes - 12, "x"));
    let folder = Folder::new("large").with("most.txt", text(most)).with("more.txt", text(most + 1));
    assert_eq!(folder.run(&["check", "most.txt"]).status, 0);
    let sentence = "there are more than 4,194,304 bytes, which is more than is read";
    fails(&folder.run(&["check", "more.txt"]), &format!("vanecitron: more.txt: {sentence}"));
    fails(&folder.run(&["decode", "more.txt"]), &format!("vanecitron: more.txt: {sentence}"));
    fails(&folder.run(&["compare", "most.txt", "@more.txt"]), &format!("vanecitron: more.txt: {sentence}"));
    let large = text(most + 1);
    fails(&folder.run_with(&["check", "-"], large.as_bytes()), &format!("vanecitron: standard input: {sentence}"));
    let object = format!("{{\"answer\":\"error\",\"message\":\"{sentence}\",\"file\":\"more.txt\"}}");
    prints(&folder.run(&["check", "--json", "more.txt"]), &[&object], 2);
    // a file without an end is given up too
    fails(&folder.run(&["check", "/dev/zero"]), &format!("vanecitron: /dev/zero: {sentence}"));
}

#[test]
fn an_input_that_is_too_large_for_the_program() {
    // the head takes 5 bytes and each comparison 12 and its steps
    let comparison = format!("compare {0} {0} 1\n", times(4_096, "a"));
    let folder = Folder::new("heavy").with("book.txt", format!("letters 1\n{}", comparison.repeat(8)));
    let meaning = "heavy: the text makes 65,637 bytes of input, and the program takes at most 60,000";
    prints(&folder.run(&["explain", "book.txt", "refused 13 60000"]), &[&format!("refused 13 60000: {meaning}")], 0);
}

#[test]
fn texts_of_any_bytes() {
    let folder = Folder::new("bytes");
    for (bytes, expected) in [
        (&b"letters 4\nab\xffc = d\n"[..], "2:3: '\u{fffd}' is no letter from a to z; a run is letters, numbers with dots between them, or -"),
        (b"\xfe\xff\0l\0e", "1:1: the first item must be 'letters NUMBER'"),
        (b"letters 4\na\0 = d\n", "2:2: '\\0' is no letter from a to z; a run is letters, numbers with dots between them, or -"),
        (b"letters 4\n\x1b[31m\n", "2:1: '\\u{1b}[31m' begins neither a rule (RUN = RUN) nor 'letters' nor 'compare'"),
        (b"letters 4\r\n\r\nabdc = caDb\r\n", "3:10: 'D' is no letter from a to z; a run is letters, numbers with dots between them, or -"),
    ] {
        fails(&folder.run_with(&["check", "-"], bytes), &format!("standard input:{expected}"));
    }
    // what is no letter is spelled out in an object
    let object = folder.run_with(&["check", "--json", "-"], b"letters 4\nab\xffc = d\n").output();
    assert!(object.starts_with(r#"{"answer":"error","message":"'\ufffd' is no letter"#), "{object}");
}

#[test]
fn texts_as_some_editors_write_them() {
    let folder = Folder::new("editors").with("mark.txt", "\u{feff}letters 4\r\nabdc = cadb").with("q.txt", Q);
    // neither the mark of the byte order, nor the returns, nor the missing end of the last line are part of the book
    assert_eq!(folder.run(&["encode", "mark.txt"]), folder.run(&["encode", "q.txt"]));
    let changed = folder.run(&["change", "mark.txt", "drop 1", "add ab = c"]).output();
    assert!(changed.ends_with("\nletters 4\nab = c\n"), "{changed:?}");
}

#[test]
fn arguments_of_any_bytes() {
    let folder = Folder::new("arguments").with("q.txt", Q);
    let bytes = |bytes: &[u8]| OsString::from_vec(bytes.to_vec());
    let run = |arguments: &[OsString]| folder.run(arguments);
    let wrong = "'\u{fffd}' is no letter from a to z; a run is letters, numbers with dots between them, or -";
    let given = [bytes(b"compare"), bytes(b"q.txt"), bytes(b"ab\xff"), bytes(b"a")];
    fails(&run(&given), &format!("vanecitron: the first run, column 3: {wrong}"));
    fails(&run(&[bytes(b"change"), bytes(b"q.txt"), bytes(b"add \xff = a")]), &format!("vanecitron: change 1, column 5: {wrong}"));
    fails(&run(&[bytes(b"check"), bytes(b"no\xff.txt")]), "vanecitron: no\u{fffd}.txt: No such file or directory");
    fails(&run(&[bytes(b"\xff")]), "vanecitron: there is no word '\u{fffd}' (vanecitron --help)");
    fails(&run(&[bytes(b"check"), bytes(b"--\xff")]), "vanecitron: there is no option '--\u{fffd}' (vanecitron check --help)");
}

// ---- bytes, and files that are written ----

/// The bytes of the specification's example.
const EXAMPLE: [u8; 39] = [1, 0, 1, 0, 4, 10, 0, 2, 0, 4, 4, 0, 1, 3, 2, 2, 0, 3, 1, 16, 0, 3, 0, 100, 0, 0, 0, 4, 0, 4, 0, 0, 1, 3, 2, 2, 0, 3, 1];
const EXAMPLE_TEXT: &str = "letters 4\nabdc = cadb\ncompare abdc cadb 100\n";

#[test]
fn bytes_on_standard_output_and_in_a_file() {
    let folder = Folder::new("encode").with("q.txt", EXAMPLE_TEXT).with("example.in", EXAMPLE);
    assert_eq!(folder.run(&["encode", "q.txt"]), Printed { output: EXAMPLE.into(), errors: Vec::new(), status: 0 });
    for (option, file) in [(&["-o", "1.in"][..], "1.in"), (&["--output", "2.in"], "2.in"), (&["--output=3.in"], "3.in")] {
        prints(&folder.run(&[&["encode", "q.txt"], option].concat()), &[], 0);
        assert_eq!(folder.read(file), EXAMPLE, "{option:?}");
    }
    // an object is printed beside the file
    let object = folder.run(&["encode", "q.txt", "--json", "-o", "4.in"]).output();
    assert!(object.starts_with(r#"{"answer":"bytes","length":39,"#) && object.lines().count() == 1, "{object}");
    assert_eq!(folder.read("4.in"), EXAMPLE);
    prints(&folder.run(&["decode", "example.in"]), &["letters 4", "abdc = cadb", "compare abdc cadb 100"], 0);
    prints(&folder.run_with(&["decode", "-"], &EXAMPLE), &["letters 4", "abdc = cadb", "compare abdc cadb 100"], 0);
    prints(&folder.run(&["decode", "example.in", "-o", "text.txt"]), &[], 0);
    assert_eq!(folder.read("text.txt"), EXAMPLE_TEXT.as_bytes());
    fails(&folder.run(&["encode", "q.txt", "-o", "none/1.in"]), "vanecitron: none/1.in: No such file or directory");
    let text = "these are the bytes of a book and no text; `vanecitron decode` makes a text of them";
    fails(&folder.run_with(&["check", "-"], &EXAMPLE), &format!("vanecitron: standard input: {text}"));
}

#[test]
fn a_file_with_an_error_is_not_written() {
    let folder = Folder::new("unwritten").with("wrong.txt", "letters\n").with("kept.in", "kept").with("kept.txt", "kept").with("q.txt", Q);
    fails(&folder.run(&["encode", "wrong.txt", "-o", "kept.in"]), "wrong.txt:1:8: something is missing; the form is: letters NUMBER");
    assert_eq!(folder.read("kept.in"), b"kept");
    prints(
        &folder.run(&["change", "q.txt", "drop 2", "-o", "kept.txt"]),
        &["refused 15 0: no such rule: there is no rule 2; the book has 1 rule"],
        2,
    );
    assert_eq!(folder.read("kept.txt"), b"kept");
}

#[test]
fn a_changed_book_in_a_file() {
    let folder = Folder::new("changed").with("q.txt", format!("# Q\n{Q}compare a a 1 # kept\n"));
    let lines = ["# change 1, drop 1: posted; the book has 0 rules", "#   k was 1; it is 0"];
    prints(&folder.run(&["change", "q.txt", "drop 1", "-o", "new.txt"]), &lines, 0);
    let new = "# Q\nletters 4\ncompare a a 1 # kept\n";
    assert_eq!(String::from_utf8_lossy(&folder.read("new.txt")), new);
    // a book may be written over itself
    assert_eq!(folder.run(&["change", "new.txt", "add abdc = cadb", "--output", "new.txt", "--json"]).output().lines().count(), 2);
    assert_eq!(String::from_utf8_lossy(&folder.read("new.txt")), "# Q\nletters 4\nabdc = cadb\ncompare a a 1 # kept\n");
}

#[test]
fn what_change_prints_is_a_text() {
    let folder = Folder::new("text").with("q.txt", Q);
    // also where a change is given with comments, or in several lines
    for changes in [
        &["drop 1"][..],
        &["add abdc = abdc", "drop 2"],
        &["add abdc = abdc # why"],
        &["add abdc = abdc\n# why\n"],
        &["drop\n1\n", "\r\nadd\n\nab = ab"],
    ] {
        let changed = folder.run(&[&["change", "q.txt"], changes].concat());
        assert_eq!((changed.errors(), changed.status), (String::new(), 0), "{changes:?}");
        let again = folder.run_with(&["check", "-"], &changed.output);
        assert_eq!((again.errors(), again.status), (String::new(), 0), "{changes:?}: {}", changed.output());
    }
}

#[test]
fn answers_that_cannot_be_written() {
    let call = |arguments: &[&str]| {
        let full = OpenOptions::new().write(true).open("/dev/full").expect("there is a file that is always full");
        let mut command = Command::new(env!("CARGO_BIN_EXE_vanecitron"));
        let done = command.current_dir(root()).args(arguments).stdin(Stdio::null()).stdout(full).output().expect("the command ends");
        (String::from_utf8_lossy(&done.stderr).into_owned(), done.status.code())
    };
    let sentence = "vanecitron: standard output: No space left on device\n";
    for arguments in [&["check", "examples/q.txt"][..], &["trace", "examples/q.txt", "abdc", "cadb"], &["encode", "examples/q.txt"], &["--help"]] {
        assert_eq!(call(arguments), (sentence.to_string(), Some(2)), "{arguments:?}");
    }
}

#[test]
fn a_file_is_what_the_system_says_it_is() {
    // a name is taken as it is: only - is standard input
    fails(&run(&["check", "./-"]), "vanecitron: ./-: No such file or directory");
    let folder = Folder::new("names").with("-", Q).with("@x", "cadb\n").with("x", "cad\n");
    assert_eq!(folder.run(&["check", "./-"]).status, 0);
    prints(&folder.run(&["least", "./-", "@x", "@@x"]), &["cad", "abdc"], 0);
    fails(&folder.run(&[OsStr::new("least"), OsStr::new("./-"), OsStr::new("@")]), "vanecitron: '': No such file or directory");
}
