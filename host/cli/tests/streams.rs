//! Outputs that are closed or full, and an input that breaks off.

mod support;

use std::ffi::OsString;
use std::io::{self, ErrorKind, Read, Write};
use std::panic::{catch_unwind, AssertUnwindSafe};

use support::tries::{arguments, good_call, good_input, tried, GOOD, WORDS};
use support::{Called, Tally};

/// An output that has room for so many bytes, and then fails in its way.
struct Narrow {
    room: usize,
    fault: Fault,
    taken: Vec<u8>,
}

#[derive(Debug, Clone, Copy, PartialEq, Eq)]
enum Fault {
    Closed,
    Full,
    /// it takes nothing more, and has no reason
    TakesNothing,
    /// it takes everything, and then cannot pass it on
    Flush,
}

impl Write for Narrow {
    fn write(&mut self, bytes: &[u8]) -> io::Result<usize> {
        // a byte or two at a time
        let taken = bytes.len().min(self.room).min(2);
        match self.fault {
            Fault::Closed if taken == 0 => return Err(ErrorKind::BrokenPipe.into()),
            Fault::Full if taken == 0 => return Err(ErrorKind::StorageFull.into()),
            _ => {}
        }
        self.room -= taken;
        self.taken.extend(&bytes[..taken]);
        Ok(taken)
    }

    fn flush(&mut self) -> io::Result<()> {
        match self.fault {
            Fault::Flush => Err(io::Error::other("it cannot be passed on")),
            _ => Ok(()),
        }
    }
}

/// A call with an output that fails: its status, what it took, and what was said among the errors.
fn called_with(call: &[OsString], input: &[u8], room: usize, fault: Fault) -> Called {
    let (mut output, mut errors) = (Narrow { room, fault, taken: Vec::new() }, Vec::new());
    let mut input = input;
    let status = catch_unwind(AssertUnwindSafe(|| cli::run(call, &mut input, &mut output, &mut errors)));
    Called { status: status.unwrap_or_else(|_| panic!("it panicked: {call:?}, {room}, {fault:?}")), output: output.taken, errors }
}

#[test]
fn outputs_that_fail() {
    let mut tally = Tally::default();
    let mut calls: Vec<(Vec<OsString>, Vec<u8>)> = WORDS.iter().map(|word| (good_call(word), good_input(word))).collect();
    calls.push((arguments(&["compare", "-"]), GOOD.as_bytes().to_vec()));
    calls.push((arguments(&["--help"]), Vec::new()));
    calls.push((arguments(&["--version"]), Vec::new()));
    calls.push((arguments(&["check", "-"]), b"letters 4\nabdc = acbd\n".to_vec()));
    let plain = calls.clone();
    calls.iter_mut().for_each(|(call, _)| call.push("--json".into()));
    // wrong calls, texts and files are told in objects too
    for call in [&["chek", "--json"][..], &["check", "--json", "/no/such/file"], &["check", "--json", "-"]] {
        calls.push((arguments(call), b"letters four\n".to_vec()));
    }
    for (call, input) in plain.iter().chain(&calls) {
        let whole = tried(call, input);
        let size = whole.output.len();
        assert!(size > 2, "{call:?}");
        for fault in [Fault::Closed, Fault::Full, Fault::TakesNothing] {
            for room in [0, 1, size / 2, size - 1] {
                let called = called_with(call, input, room, fault);
                assert_eq!((called.status, &called.output[..]), (2, &whole.output[..room]), "{call:?}, {room}, {fault:?}");
                // where nobody reads any more, nothing is said
                let says = called.faults().starts_with("vanecitron: standard output: ") && called.faults().lines().count() == 1;
                assert_eq!(
                    (called.errors.is_empty(), says),
                    (fault == Fault::Closed, fault != Fault::Closed),
                    "{call:?}, {room}, {fault:?}: {}",
                    called.faults()
                );
                tally.meet(format!("{fault:?}"));
            }
            let called = called_with(call, input, size, fault);
            assert_eq!(
                (called.status, called.output, called.errors),
                (whole.status, whole.output.clone(), whole.errors.clone()),
                "{call:?}, {fault:?}"
            );
        }
        let called = called_with(call, input, usize::MAX, Fault::Flush);
        assert!(called.status == 2 && called.faults().starts_with("vanecitron: standard output: "), "{call:?}: {}", called.faults());
        // where nothing can be said anywhere, the status says it
        let mut nowhere = Narrow { room: 0, fault: Fault::Full, taken: Vec::new() };
        let mut errors = Narrow { room: 0, fault: Fault::Full, taken: Vec::new() };
        assert_eq!(cli::run(call, &mut &input[..], &mut nowhere, &mut errors), 2, "{call:?}");
    }
    tally.expect(&[("Closed", 100), ("Full", 100), ("TakesNothing", 100)]);
}

/// An input that gives some bytes, is interrupted, and then fails.
struct Broken<'a> {
    bytes: &'a [u8],
    interrupted: bool,
}

impl Read for Broken<'_> {
    fn read(&mut self, room: &mut [u8]) -> io::Result<usize> {
        match (self.bytes.read(room)?, self.interrupted) {
            (0, false) => {
                self.interrupted = true;
                Err(ErrorKind::Interrupted.into())
            }
            (0, true) => Err(io::Error::other("the line is dead")),
            (some, _) => Ok(some),
        }
    }
}

#[test]
fn an_input_that_fails() {
    for word in WORDS {
        let input = good_input(word);
        for bytes in [&[][..], &input[..3], &input] {
            for json in [false, true] {
                let call = if json { [good_call(word), arguments(&["--json"])].concat() } else { good_call(word) };
                let (mut output, mut errors) = (Vec::new(), Vec::new());
                let status = cli::run(&call, &mut Broken { bytes, interrupted: false }, &mut output, &mut errors);
                let called = Called { status, output, errors };
                if json {
                    let object = called.object();
                    assert_eq!((status, object["file"].text(), object["message"].text()), (2, "standard input", "the line is dead"), "{call:?}");
                } else {
                    assert_eq!(
                        (status, called.text(), &called.faults()[..]),
                        (2, String::new(), "vanecitron: standard input: the line is dead\n"),
                        "{call:?}"
                    );
                }
            }
        }
    }
    for call in
        [&["compare", "-", "@-"][..], &["least", "-", "@-"], &["least", "-"], &["explain", "-"], &["trace", "-", "@-"], &["front", "-", "a", "@-"]]
    {
        let called = tried(&arguments(call), GOOD.as_bytes());
        assert!(
            called.status == 2 && called.faults().starts_with("vanecitron: standard input can be read once in a call ("),
            "{call:?}: {}",
            called.faults()
        );
    }
}
