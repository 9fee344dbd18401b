//! Any bytes as texts, runs, bytes, outputs and arguments, and any arguments in any order: the command ends with the status 0, 1 or 2, says something where it is 2, and prints objects
//! that are valid where objects are asked for.

mod support;

use std::ffi::{OsStr, OsString};
use std::os::unix::ffi::{OsStrExt, OsStringExt};
use std::path::{Path, PathBuf};

use gen::damage::damaged;
use gen::{books, inputs, Chance};
use support::texts::{written, written_runs, Question};
use support::tries::{arguments, runs_in, tried, GOOD, WORDS};
use support::{directory, json, Tally};

/// A text as authors write them.
fn good_text(chance: &mut Chance) -> String {
    let book = if chance.once_in(3) { books::any(chance) } else { books::linked(chance) };
    let questions: Vec<Question> = (0..chance.below(3)).map(|_| Question::any(chance, &book, 8)).collect();
    written(chance, &book, &questions).text
}

/// Runs under the good book, mostly as many as a comparison wants.
fn good_runs(chance: &mut Chance) -> String {
    let count = *chance.pick(&[2, 2, 2, 0, 1, 3]);
    if chance.once_in(3) {
        return written_runs(chance, &[vec![0, 1, 3, 2], vec![2, 0, 3, 1]]).0;
    }
    let runs: Vec<Vec<u8>> = (0..count).map(|_| chance.pick(&[&[0, 1, 3, 2][..], &[2, 0, 3, 1], &[2], &[], &[0, 1, 3, 2, 0]]).to_vec()).collect();
    written_runs(chance, &runs).0
}

/// Lines of an output, right and wrong.
fn good_output(chance: &mut Chance) -> String {
    let number = |chance: &mut Chance| [0, 1, 5, 8, 9, 10, 13, 18, 19, 31, 100, 5_000, 5_001, 10_000, 60_000, u32::MAX][chance.below(16)];
    let line = |chance: &mut Chance| match chance.below(6) {
        0 => format!("book {}\n", number(chance)),
        1 => format!("same {}\n", number(chance)),
        2 => format!("different {}\n", number(chance)),
        _ => format!("refused {} {}\n", number(chance), number(chance)),
    };
    (0..chance.between(1, 4)).map(|_| line(chance)).collect()
}

/// Bytes that are no text.
const NO_TEXT: [&[u8]; 5] = [&[0xff], &[0xc3, 0x28], &[0xed, 0xa0, 0x80], &[0xf0, 0x9f], &[0x80]];

/// A text with one thing done to it that an author, an editor or a transfer can do.
fn mutated(chance: &mut Chance, text: &str) -> Vec<u8> {
    let mut lines: Vec<String> = text.split('\n').map(String::from).collect();
    let line = chance.below(lines.len());
    let mut bytes = text.as_bytes().to_vec();
    let at = chance.below(bytes.len() + 1);
    let mut put = |part: &[u8]| {
        bytes.splice(at..at, part.iter().copied());
        bytes.clone()
    };
    match chance.below(13) {
        0 | 1 => return damaged(chance, text.as_bytes()),
        2 => return bytes[..at].to_vec(),
        3 => return put(&[0]),
        4 => return put(NO_TEXT[chance.below(NO_TEXT.len())]),
        5 => return put("\u{feff}".as_bytes()),
        6 => return text.replace('\n', "\r").into_bytes(),
        7 => lines.insert(line, lines[line].clone()),
        8 => drop(lines.remove(line)),
        9 => {
            let mut tokens: Vec<&str> = text.split(' ').collect();
            let (one, other) = (chance.below(tokens.len()), chance.below(tokens.len()));
            tokens.swap(one, other);
            return tokens.join(" ").into_bytes();
        }
        10 => {
            let number = *chance.pick(&["0", "64", "65", "255", "256", "4294967295", "4294967296", "99999999999999999999999", "-1", "1e9"]);
            let mut tokens: Vec<&str> = text.split(' ').collect();
            let token = chance.below(tokens.len());
            tokens[token] = number;
            return tokens.join(" ").into_bytes();
        }
        11 => lines[line].push_str(&chance.pick(&["a", "0.", "\u{e9}", "#", "="]).repeat(*chance.pick(&[65, 300, 5_000, 70_000]))),
        _ => return [text, text].concat().into_bytes(),
    }
    lines.join("\n").into_bytes()
}

/// Whole lines.
const LINES: [&str; 7] = [
    "letters 4\n",
    "letters 4\nabdc = cadb\n",
    "abdc = cadb\n",
    "compare a b 7\n",
    "refused 8 0\n",
    "refused 4294967295 18446744073709551615\n",
    "different 99999999999\n",
];

/// Parts of lines.
const PARTS: [&str; 20] = [
    "letters", "compare", " = ", "abdc", "-", "27.1", "..", "@", "@-", "\n", "\n", " ", "\t", "#", "\r", "\u{3000}", "add", "drop 1", "book 1",
    "same",
];

/// What is put in a place where this is expected: it, mostly with something done to it, or bytes at random, or parts of texts.
fn content(chance: &mut Chance, expected: &str) -> Vec<u8> {
    let good = match expected {
        "book" => good_text(chance),
        "runs" => good_runs(chance),
        "output" => good_output(chance),
        "bytes" => return inputs::any(chance),
        _ => chance.pick(&["abdc", "c", "-", "add ab = ba", "drop 1", "refused 8 0", "0.1.3.2"]).to_string(),
    };
    match chance.below(8) {
        0 => (0..chance.below(60)).map(|_| chance.number() as u8).collect(),
        1 => {
            (0..chance.below(12)).map(|_| *if chance.once_in(3) { chance.pick(&LINES) } else { chance.pick(&PARTS) }).collect::<String>().into_bytes()
        }
        2 => inputs::any(chance),
        3..=5 => mutated(chance, &good),
        _ => good.into_bytes(),
    }
}

/// The rest of a call of a word behind its book.
fn behind(chance: &mut Chance, word: &str) -> Vec<OsString> {
    let items = match word {
        "compare" | "trace" => *chance.pick(&["abdc,cadb", "-,a", "7.1,abd"]),
        "least" | "front" => "abdc,c",
        "change" => *chance.pick(&["drop 1", "add ab = ba", "drop 9,add a = b"]),
        "explain" => *chance.pick(&["refused 8 0", "refused 4 0", "refused 5 5", "book 1"]),
        _ => return Vec::new(),
    };
    items.split(',').map(OsString::from).collect()
}

/// Files of a test: what a call can name.
struct Files {
    any: PathBuf,
    book: PathBuf,
}

impl Files {
    fn new(directory: &Path) -> Files {
        let files = Files { any: directory.join("any"), book: directory.join("book") };
        std::fs::write(&files.book, GOOD).expect("a file is written");
        files
    }
}

#[test]
fn any_bytes_in_any_place() {
    let mut tally = Tally::default();
    let files = Files::new(&directory("any_bytes"));
    let of_runs = ["compare", "trace", "least", "front"];
    for seed in 0..20_000 {
        let mut chance = Chance::new(seed);
        let role = *chance.pick(&["book", "book", "runs", "bytes", "output", "argument"]);
        let content = content(&mut chance, role);
        let word = match role {
            "runs" => *chance.pick(&of_runs),
            "bytes" => "decode",
            "output" => "explain",
            _ => *chance.pick(&WORDS),
        };
        // on standard input, or in a file
        let in_file = chance.once_in(4);
        if in_file {
            std::fs::write(&files.any, &content).expect("a file is written");
        }
        let (book, any): (&OsStr, &OsStr) = (files.book.as_ref(), files.any.as_ref());
        let first = [OsStr::new(word)];
        let mut call: Vec<OsString> = match (role, in_file) {
            ("book" | "bytes", false) => [arguments(&[word, "-"]), behind(&mut chance, word)].concat(),
            ("book" | "bytes", true) => [arguments(&[first[0], any]), behind(&mut chance, word)].concat(),
            ("runs", false) => arguments(&[first[0], book, "@-".as_ref()]),
            ("runs", true) => arguments(&[first[0], "-".as_ref(), &runs_in(&files.any)]),
            ("output", false) => arguments(&[first[0], book]),
            ("output", true) => arguments(&[first[0], "-".as_ref(), any]),
            _ => {
                let mut call = [arguments(&[word, "-"]), behind(&mut chance, word)].concat();
                let at = if chance.once_in(6) { 0 } else { chance.between(1, call.len() - 1) };
                call[at] = OsString::from_vec(content.clone());
                call
            }
        };
        if chance.once_in(2) {
            call.insert(chance.below(call.len() + 1), "--json".into());
        }
        let called = tried(&call, if in_file || role == "argument" { GOOD.as_bytes() } else { &content });
        tally.meet(format!("{role}, {}", called.status));
        if role != "argument" {
            tally.meet(format!("{word}, {}", called.status));
        }
    }
    tally.expect(&["book", "runs", "bytes", "output", "argument"].map(|role| format!("{role}, 0")).each_ref().map(|kind| (&kind[..], 50)));
    tally.expect(&["book", "runs", "bytes", "argument"].map(|role| format!("{role}, 2")).each_ref().map(|kind| (&kind[..], 300)));
    tally.expect(&WORDS.map(|word| format!("{word}, 0")).each_ref().map(|kind| (&kind[..], 15)));
    tally.expect(&WORDS.map(|word| format!("{word}, 2")).each_ref().map(|kind| (&kind[..], 30)));
    tally.expect(&[("compare, 1", 30), ("trace, 1", 30)]);
}

#[test]
fn any_arguments_in_any_order() {
    let mut tally = Tally::default();
    let directory = directory("any_arguments");
    let files = Files::new(&directory);
    let book = files.book.to_str().expect("a name");
    let made = directory.join("made");
    let long = "a".repeat(5_000);
    let named = format!("--output={}", made.display());
    let plain: Vec<&str> = "- @- @ -- --json --json --help -h --version --allowance --allowance=0 --allowance=4294967295 --allowance=4294967296 --allowance= --width --width=0 \
                            --width=262145 --json=1 --nope -x abdc cadb a 0.1 7 Z /dev/null /no/such/file"
        .split(' ')
        .chain([book, book, book, "", "drop 1", "add ab = ba", "refused 8 0", &long, &named])
        .collect();
    let read: [&[u8]; 4] = [b"", GOOD.as_bytes(), b"abdc\ncadb\n", b"\xff\x00"];
    let strange: [&[u8]; 6] = [b"\xff", b"@\xff\xfe", b"--out\xffput", b"a\0b", b"-\xff", b"add \xff = a"];
    for seed in 0..20_000 {
        let mut chance = Chance::new(seed);
        let any = |chance: &mut Chance| match chance.below(8) {
            0 | 1 => OsString::from(*chance.pick(&WORDS)),
            2 => OsString::from_vec(chance.pick(&strange).to_vec()),
            _ => OsString::from(*chance.pick(&plain)),
        };
        let mut call: Vec<OsString> = (0..chance.below(7)).map(|_| any(&mut chance)).collect();
        if chance.once_in(2) {
            call.splice(0..0, arguments(&[*chance.pick(&WORDS), book]));
        }
        let called = tried(&call, read[chance.below(read.len())]);
        tally.meet(format!("status {}", called.status));
        if called.faults().contains("(vanecitron ") {
            tally.meet("a wrong call");
        }
    }
    tally.expect(&[("status 0", 300), ("status 1", 10), ("status 2", 2_000), ("a wrong call", 2_000)]);
}

/// The value of an option that is inline is taken as it is, byte for byte.
#[test]
fn a_file_may_have_a_name_that_is_no_text() {
    let directory = directory("names");
    let mut name = directory.clone().into_os_string();
    name.push(OsStr::from_bytes(b"/\xff\xfe.txt"));
    for (option, at) in [(vec![OsString::from("-o"), name.clone()], 1), (vec![[OsStr::new("--output="), &name].into_iter().collect()], 2)] {
        let call = [arguments(&["encode", "-"]), option].concat();
        assert_eq!(tried(&call, GOOD.as_bytes()).status, 0);
        assert_eq!(std::fs::read_dir(&directory).expect("a directory").count(), 1, "way {at}");
        assert!(Path::new(&name).exists(), "way {at}");
        let decoded = tried(&[OsString::from("decode"), name.clone()], b"");
        assert_eq!((decoded.status, decoded.text().lines().count()), (0, 4), "way {at}");
        std::fs::remove_file(&name).expect("it is there");
    }
}

#[test]
fn what_is_no_object_is_not_taken_for_one() {
    for good in [r#"{}"#, r#"{"a":0}"#, r#"{"a":[],"b":[1,23],"c":{"a":"\"\\\/\n\u00e9\ud83d\ude00"}}"#] {
        assert!(json::lines(&format!("{good}\n")).is_ok(), "{good}");
    }
    for bad in [
        "",
        "1",
        "[]",
        "\"a\"",
        "{",
        "}",
        "{}{}",
        "{} ",
        " {}",
        "{\"a\"}",
        "{\"a\":}",
        "{\"a\":1,}",
        "{,}",
        "{\"a\":01}",
        "{\"a\":-1}",
        "{\"a\":1.5}",
        "{\"a\":[1,]}",
        "{\"a\":[,1]}",
        "{\"a\":[1 ,2]}",
        "{\"a\":1,\"a\":2}",
        "{a:1}",
        "{'a':1}",
        "{\"a\":\"\t\"}",
        "{\"a\":\"\u{e9}\"}",
        "{\"a\":\"\\x\"}",
        "{\"a\":\"\\u12g4\"}",
        "{\"a\":\"\\u12\"}",
        "{\"a\":\"\\ud83d\"}",
        "{\"a\":\"\\ude00\\ud83d\"}",
        "{\"a\":\"b}",
        "{\"a\":99999999999999999999}",
        "{\"a\":1}\r",
        "{\"a\":nul}",
    ] {
        assert!(json::lines(&format!("{bad}\n")).is_err(), "{bad}");
    }
    assert!(json::lines("{}").is_err() && json::lines("{}\n\n{}\n").is_err() && json::lines("{}\n{}\n").is_ok());
}
