//! The built command: it ends and prints as the command in this process does, and says so where its standard output is full.

mod support;

use std::ffi::OsString;
use std::fs::File;
use std::io::Write;
use std::os::unix::ffi::OsStringExt;
use std::process::{Child, Command, Stdio};

use gen::{books, Chance};
use support::texts::{spelled, written, Question};
use support::tries::{arguments, good_call, good_input, runs_in, tried, GOOD, WORDS};
use support::{directory, json, Called, Tally};

/// Starts the built command.
fn started(arguments: &[OsString], output: Stdio) -> Child {
    let mut command = Command::new(env!("CARGO_BIN_EXE_vanecitron"));
    command.args(arguments).stdin(Stdio::piped()).stdout(output).stderr(Stdio::piped()).spawn().expect("the command starts")
}

/// Gives it its standard input and waits for its end, which is one with a status.
fn ended(mut child: Child, input: &[u8]) -> Called {
    // it need not read what it is given
    let _ = child.stdin.take().expect("a pipe").write_all(input);
    let ended = child.wait_with_output().expect("it ends");
    let status = ended.status.code().unwrap_or_else(|| panic!("it ends by a signal: {ended:?}"));
    Called { status: status as u8, output: ended.stdout, errors: ended.stderr }
}

fn built(arguments: &[OsString], input: &[u8]) -> Called {
    ended(started(arguments, Stdio::piped()), input)
}

#[test]
fn it_does_what_the_command_in_this_process_does() {
    let mut tally = Tally::default();
    let directory = directory("built");
    for seed in 0..250 {
        let mut chance = Chance::new(seed);
        let book = if chance.once_in(3) { books::any(&mut chance) } else { books::linked(&mut chance) };
        let questions: Vec<Question> = (0..3).map(|_| Question::any(&mut chance, &book, 20)).collect();
        let text = written(&mut chance, &book, &questions).text;
        let (file, runs) = (directory.join("book"), directory.join("runs"));
        let items = questions[0].runs.each_ref().map(|run| spelled(&mut chance, run));
        std::fs::write(&file, &text).expect("a file is written");
        std::fs::write(&runs, items.join("\n")).expect("a file is written");
        let word = WORDS[seed as usize % WORDS.len()];
        let behind = match word {
            "compare" | "trace" | "front" if chance.once_in(2) => vec![runs_in(&runs)],
            "compare" | "trace" | "front" => arguments(&items),
            "least" => vec![runs_in(&runs), "@-".into()],
            "change" => arguments(&["drop 1"]),
            _ => Vec::new(),
        };
        let mut call = [vec![word.into(), file.into()], behind].concat();
        if chance.once_in(3) {
            call.push("--json".into());
        }
        let input = *chance.pick(&[&b""[..], b"a\n", b"book 1\nsame 2\n", b"\xff"]);
        let called = built(&call, input);
        assert_eq!(called, tried(&call, input), "{call:?}");
        tally.meet(format!("{word}, {}", called.status));
        tally.meet(format!("status {}", called.status));
    }
    tally.expect(&[("status 0", 50), ("status 1", 10), ("status 2", 50), ("compare, 1", 3), ("trace, 1", 3), ("change, 0", 3), ("front, 2", 5)]);
}

#[test]
fn any_arguments() {
    let plain =
        ["--json", "-", "@-", "--help", "--version", "--width", "0", "abdc", "", "--", "/dev/null", "/no/such/file", "--allowance=2", "drop 1"];
    let mut tally = Tally::default();
    for seed in 0..150 {
        let mut chance = Chance::new(seed);
        let any = |chance: &mut Chance| match chance.below(6) {
            0 | 1 => OsString::from(*chance.pick(&WORDS)),
            2 => OsString::from_vec(chance.pick(&[&b"\xff"[..], b"@\xff", b"a\xc3("]).to_vec()),
            _ => OsString::from(*chance.pick(&plain)),
        };
        let mut call: Vec<OsString> = (0..chance.below(5)).map(|_| any(&mut chance)).collect();
        if chance.once_in(2) {
            call.splice(0..0, arguments(&[*chance.pick(&WORDS), "-"]));
        }
        let called = built(&call, GOOD.as_bytes());
        assert_eq!(called, tried(&call, GOOD.as_bytes()), "{call:?}");
        tally.meet(format!("status {}", called.status));
    }
    tally.expect(&[("status 0", 10), ("status 2", 80)]);
}

#[test]
fn a_full_output_is_told() {
    let full = || Stdio::from(File::options().write(true).open("/dev/full").expect("it is there"));
    for word in WORDS {
        for option in [&[][..], &["--json"]] {
            let call = [good_call(word), arguments(option)].concat();
            let called = ended(started(&call, full()), &good_input(word));
            assert!(called.status == 2 && called.faults().starts_with("vanecitron: standard output: No space left"), "{call:?}: {called:?}");
        }
    }
    let wrong = ended(started(&arguments(&["check", "--json", "/no/such/file"]), full()), b"");
    assert!(wrong.status == 2 && wrong.faults().starts_with("vanecitron: standard output: "), "{wrong:?}");
}

#[test]
fn an_output_that_nobody_reads_is_no_fault_to_speak_of() {
    for word in WORDS {
        for option in [&[][..], &["--json"]] {
            let call = [good_call(word), arguments(option)].concat();
            let mut child = started(&call, Stdio::piped());
            // it waits for its input, and so has not written yet
            drop(child.stdout.take());
            let called = ended(child, &good_input(word));
            assert_eq!((called.status, called.faults()), (2, String::new()), "{call:?}");
        }
    }
}

#[test]
fn much_output_is_whole() {
    // a round for each step: more lines than are held back at a time
    let run = "a".repeat(2_500);
    let call = arguments(&["trace", "-", &run, &run]);
    let lines = |called: &Called| called.text().lines().count();
    let plain = built(&call, b"letters 1\n");
    assert_eq!((plain.status, lines(&plain)), (0, 1 + 2_501 + 3));
    let objects = built(&[call, arguments(&["--json"])].concat(), b"letters 1\n");
    assert_eq!((objects.status, json::lines(&objects.text()).map(|objects| objects.len())), (0, Ok(2_502)));
}
