//! Stored calls of the command and what they print: every file `tests/sessions/*.session` is run, call by call, at the root of the tree.
//!
//! ```text
//! # what the call shows
//! $ vanecitron compare - ab ba
//! < letters 2
//! < ab = ab
//! different: no chain of exchanges, however long, joins ab and ba; 0 rounds
//! = 1
//! ```
//!
//! Lines that begin with `<` right under a call are its standard input, those with `!` its standard error, and all others up to `= STATUS` its standard output. Between
//! calls stand blank lines and comments. Arguments are quoted by '...', and no shell is run.

mod common;

use std::fmt::Write;
use std::fs;
use std::path::PathBuf;

use common::{root, run_in, split, words, Printed};

/// A stored call.
#[derive(Debug, Default)]
struct Call {
    /// its line in the file, from 1, and as it is written there
    line: usize,
    text: String,
    arguments: Vec<String>,
    input: String,
    output: String,
    errors: String,
    status: i32,
}

const COMMAND: &str = "vanecitron";

/// The calls of a session file; an error has its line.
fn read(text: &str) -> Result<Vec<Call>, String> {
    let (mut calls, mut open): (Vec<Call>, Option<Call>) = (Vec::new(), None);
    for (number, line) in (1..).zip(text.lines()) {
        let wrong = |message: &str| format!("{number}: {message}");
        match open.as_mut() {
            None if line.starts_with("$ ") => open = Some(begun(number, line).map_err(|message| wrong(&message))?),
            None if line.is_empty() || line.starts_with('#') => {}
            None => return Err(wrong("a line belongs to no call; a call begins with $ and ends with = STATUS")),
            Some(_) if line.starts_with("$ ") => return Err(wrong("a call begins before the one above it has ended with = STATUS")),
            Some(call) => match line.split_once(' ').unwrap_or((line, "")) {
                ("=", status) => {
                    call.status = status.parse().map_err(|_| wrong("behind = stands a status"))?;
                    calls.extend(open.take());
                }
                ("<", rest) if call.output.is_empty() && call.errors.is_empty() => add(&mut call.input, rest),
                ("<", _) => return Err(wrong("standard input stands right under the call")),
                ("!", rest) => add(&mut call.errors, rest),
                _ => add(&mut call.output, line),
            },
        }
    }
    match open {
        Some(call) => Err(format!("{}: the call does not end with = STATUS", call.line)),
        None if calls.is_empty() => Err("1: there is no call".into()),
        None => Ok(calls),
    }
}

fn begun(line: usize, text: &str) -> Result<Call, String> {
    let mut arguments = split(&text[2..])?;
    if arguments.first().is_none_or(|first| first != COMMAND) {
        return Err(format!("a call begins with {COMMAND}"));
    }
    arguments.remove(0);
    Ok(Call { line, text: text.into(), arguments, ..Call::default() })
}

fn add(text: &mut String, line: &str) {
    text.extend([line, "\n"]);
}

/// What is printed, as a session file has it.
fn form(output: &str, errors: &str, status: i32) -> String {
    let mut text = String::new();
    output.lines().for_each(|line| add(&mut text, line));
    errors.lines().for_each(|line| add(&mut text, &format!("! {line}")));
    for (name, stream) in [("output", output), ("error", errors)] {
        if !stream.is_empty() && !stream.ends_with('\n') {
            add(&mut text, &format!("(the standard {name} has no end of line)"));
        }
    }
    text + &format!("= {status}\n")
}

/// What is wrong with a session: each call that prints something else, with its line, what is expected and what is printed.
fn failures(file: &str, text: &str) -> Vec<String> {
    let calls = match read(text) {
        Err(error) => return vec![format!("{file}:{error}")],
        Ok(calls) => calls,
    };
    let failure = |call: &Call| {
        let Printed { output, errors, status } = run_in(root(), &call.arguments, call.input.as_bytes());
        let is_good = output == call.output.as_bytes() && errors == call.errors.as_bytes() && status == call.status;
        let expected = form(&call.output, &call.errors, call.status);
        let printed = form(&String::from_utf8_lossy(&output), &String::from_utf8_lossy(&errors), status);
        (!is_good).then(|| format!("{file}:{}: {}\n-- expected:\n{expected}-- printed:\n{printed}", call.line, call.text))
    };
    calls.iter().filter_map(failure).collect()
}

/// The session files, in order of their names.
fn files() -> Vec<PathBuf> {
    let folder = root().join("host/cli/tests/sessions");
    let entries = fs::read_dir(&folder).expect("the folder of the sessions is there");
    let mut files: Vec<PathBuf> = entries.map(|entry| entry.expect("an entry").path()).collect();
    files.retain(|file| file.extension().is_some_and(|extension| extension == "session"));
    files.sort();
    files
}

#[test]
fn every_stored_call_prints_what_is_stored() {
    let (mut told, mut failed) = (String::new(), 0);
    for file in files() {
        let name = format!("host/cli/tests/sessions/{}", file.file_name().expect("a name").to_string_lossy());
        for failure in failures(&name, &fs::read_to_string(&file).expect("a session is text")) {
            failed += 1;
            writeln!(told, "{failure}").expect("a string takes everything");
        }
    }
    assert!(failed == 0, "{failed} failed\n\n{told}");
}

#[test]
fn every_word_has_a_session() {
    let files = files();
    for word in words() {
        assert!(files.iter().any(|file| file.file_stem().is_some_and(|stem| *stem == *word)), "there is no {word}.session");
    }
}

#[test]
fn a_session_is_read_as_it_is_written() {
    let calls = read("# one\n\n$ vanecitron check 'a b' # two\n< letters 4\n<\n\n# printed\n! wrong\n  x\n= 2\n\n$ vanecitron\n= 0\n").expect("good");
    let [first, second] = &calls[..] else { panic!("{calls:?}") };
    assert_eq!((first.line, &first.arguments[..], first.status), (3, &["check".to_string(), "a b".to_string()][..], 2));
    assert_eq!((&first.input[..], &first.output[..], &first.errors[..]), ("letters 4\n\n", "\n# printed\n  x\n", "wrong\n"));
    assert_eq!((second.line, second.arguments.len(), &second.output[..], second.status), (12, 0, "", 0));
}

#[test]
fn a_session_of_another_form_fails() {
    for (text, expected) in [
        ("", "1: there is no call"),
        ("# a comment\n\n", "1: there is no call"),
        ("\nsame\n", "2: a line belongs to no call; a call begins with $ and ends with = STATUS"),
        ("$ vanecitron check\n= 0\n= 0\n", "3: a line belongs to no call; a call begins with $ and ends with = STATUS"),
        ("$ vanecitron check\n", "1: the call does not end with = STATUS"),
        ("$ vanecitron check\n\n$ vanecitron sheet\n= 0\n", "3: a call begins before the one above it has ended with = STATUS"),
        ("$ vanecitron check\n= good\n", "2: behind = stands a status"),
        ("$ vanecitron check\nsame\n< a\n= 0\n", "3: standard input stands right under the call"),
        ("$ cat examples/q.txt\n= 0\n", "1: a call begins with vanecitron"),
        ("\n$ vanecitron 'check\n= 0\n", "2: a ' is not closed"),
    ] {
        assert_eq!(read(text).map(|calls| calls.len()), Err(expected.to_string()), "{text:?}");
    }
}

#[test]
fn a_difference_is_told_with_its_line_and_both_texts() {
    let wrong = [
        ("chekc", "there is a word\n", "", 2),
        ("chekc", "", "! there is no word 'chekc'\n", 2),
        ("chekc", "", "! vanecitron: there is no word 'chekc' (vanecitron --help)\n", 1),
        ("chekc", "\n", "! vanecitron: there is no word 'chekc' (vanecitron --help)\n", 2),
    ];
    for (word, output, errors, status) in wrong {
        let expected = format!("{output}{errors}= {status}\n");
        let told = failures("some.session", &format!("# wrong\n$ vanecitron {word}\n{expected}"));
        let printed = "! vanecitron: there is no word 'chekc' (vanecitron --help)\n= 2\n";
        assert_eq!(told, [format!("some.session:2: $ vanecitron chekc\n-- expected:\n{expected}-- printed:\n{printed}")]);
    }
    let good = "$ vanecitron chekc\n! vanecitron: there is no word 'chekc' (vanecitron --help)\n= 2\n";
    assert_eq!(failures("some.session", good), [""; 0]);
    assert_eq!(failures("some.session", "# no call\n"), ["some.session:1: there is no call"]);
}

#[test]
fn an_output_without_the_end_of_its_line_is_told_apart() {
    assert_eq!(form("a\nb", "", 0), "a\nb\n(the standard output has no end of line)\n= 0\n");
    assert_eq!(form("a\n", "b\n", 1), "a\n! b\n= 1\n");
}

#[test]
fn arguments_are_split_as_a_shell_splits_them() {
    let cases: [(&str, &[&str]); 8] = [
        ("", &[]),
        ("  a  b ", &["a", "b"]),
        ("'add ab = c' 'drop 2'", &["add ab = c", "drop 2"]),
        ("a'b c'd", &["ab cd"]),
        ("'' a ''", &["", "a", ""]),
        ("'a\"$b' x", &["a\"$b", "x"]),
        ("a #b c", &["a"]),
        ("a#b '#' @- --width=4", &["a#b", "#", "@-", "--width=4"]),
    ];
    for (line, arguments) in cases {
        assert_eq!(split(line).expect(line), arguments, "{line}");
    }
    for line in ["'a", "a 'b' '", "\"a\"", "a > b", "a | b", "$a", "a\\ b", "a; b", "*.txt"] {
        assert!(split(line).is_err(), "{line}");
    }
}
