//! Files of all kinds and sizes, and books and runs at their limits and beyond: a clear sentence each.

mod support;

use std::ffi::OsString;

use gen::{books, Book, Chance};
use support::tries::{arguments, good_call, good_input, runs_in, tried, GOOD, WORDS};
use support::{directory, grouped};

#[test]
fn files_of_all_kinds() {
    let directory = directory("files");
    let large = directory.join("large");
    std::fs::write(&large, vec![b'#'; 5_000_000]).expect("a file is written");
    let name = |file: &str| directory.join(file).to_str().expect("a name").to_string();
    let (missing, inside, large, folder) = (name("missing"), name("large/inside"), name("large"), directory.to_str().expect("a name").to_string());
    let more = "there are more than 4,194,304 bytes, which is more than is read";
    let mut bad = vec![
        (missing, "No such file or directory"),
        (inside, "Not a directory"),
        (folder, "Is a directory"),
        (large, more),
        ("/dev/zero".to_string(), more),
        ("".to_string(), "No such file or directory"),
        ("a\0b".to_string(), "file name contained an unexpected NUL byte"),
        ("n".repeat(5_000), "File name too long"),
    ];
    let closed = name("closed");
    std::fs::write(&closed, GOOD).expect("a file is written");
    std::fs::set_permissions(&closed, std::os::unix::fs::PermissionsExt::from_mode(0o000)).expect("it is closed");
    if std::fs::read(&closed).is_err() {
        bad.push((closed, "Permission denied")); // not where everything may be read
    }
    for (file, says) in &bad {
        let (runs, name) = (format!("@{file}"), named(file));
        let mut calls: Vec<Vec<OsString>> = WORDS.iter().map(|word| good_call(word)).collect();
        for call in &mut calls {
            call[1] = file.into();
        }
        calls.extend([
            arguments(&["compare", "-", &runs]),
            arguments(&["compare", "-", "abdc", &runs]),
            arguments(&["trace", "-", &runs]),
            arguments(&["least", "-", &runs]),
            arguments(&["front", "-", &runs, "c"]),
            arguments(&["explain", "-", file]),
        ]);
        for call in calls {
            let called = tried(&call, GOOD.as_bytes());
            assert_eq!((called.status, called.faults()), (2, format!("vanecitron: {name}: {says}\n")), "{call:?}");
            let object = tried(&[call, arguments(&["--json"])].concat(), GOOD.as_bytes()).object();
            assert_eq!((object.answer(), object["file"].text(), object["message"].text()), ("error", name, *says));
        }
    }
    // what cannot be written
    for word in ["change", "encode", "decode"] {
        for file in [directory.to_str().expect("a name"), "", "/dev/full", "/no/such/directory/file"] {
            let called = tried(&[good_call(word), arguments(&["-o", file])].concat(), &good_input(word));
            assert!(called.status == 2 && called.faults().starts_with(&format!("vanecitron: {}: ", named(file))), "{word}: {}", called.faults());
        }
    }
}

#[test]
fn a_file_with_nothing_in_it() {
    let null = "/dev/null";
    for (call, status, says) in [
        (&["check", null][..], 2, "/dev/null:1:1: the text is empty; the first item must be 'letters NUMBER'\n"),
        (&["decode", null], 2, "/dev/null: byte 0: there are no bytes\n"),
        (&["compare", "-", "@/dev/null"], 2, "vanecitron: 2 runs are wanted, not 0 (vanecitron compare --help)\n"),
        (&["least", "-", "@/dev/null"], 0, ""),
        (&["explain", "-", null], 0, ""),
    ] {
        let called = tried(&arguments(call), GOOD.as_bytes());
        assert_eq!((called.status, &called.text()[..], &called.faults()[..]), (status, "", says), "{call:?}");
    }
}

#[test]
fn as_much_is_read_as_the_limit_says() {
    let limit = 4_194_304;
    let filled = |size: usize| [GOOD.as_bytes(), &vec![b'#'; size - GOOD.len()]].concat();
    assert_eq!(tried(&arguments(&["check", "-"]), &filled(limit)).status, 0);
    let over = tried(&arguments(&["check", "-"]), &filled(limit + 1));
    assert_eq!(
        (over.status, &over.faults()[..]),
        (2, "vanecitron: standard input: there are more than 4,194,304 bytes, which is more than is read\n")
    );
    // what is in it does not matter: most is no text, and what is said of it is short
    for (word, byte) in [
        ("check", 0),
        ("check", b'a'),
        ("compare", b'='),
        ("least", b'\n'),
        ("explain", b'.'),
        ("encode", 0xff),
        ("decode", 0),
        ("decode", 1),
        ("change", b' '),
    ] {
        let called = tried(&good_call(word), &vec![byte; limit]);
        assert_eq!(called.status, 2, "{word} of {byte}");
        assert!(called.faults().len() < 300, "{word} of {byte}: {} bytes are said", called.faults().len());
    }
}

/// A file as a sentence names it.
fn named(file: &str) -> &str {
    if file.is_empty() {
        "''"
    } else {
        file
    }
}

/// The text of a book in numbers, a rule a line.
fn text_of(book: &Book) -> String {
    let item = |side: &Vec<u8>| side.iter().map(u8::to_string).collect::<Vec<_>>().join(".");
    let rules: String = book.words.chunks(2).map(|rule| format!("{} = {}\n", item(&rule[0]), item(&rule[1]))).collect();
    format!("letters {}\n{rules}", book.letters)
}

#[test]
fn books_at_the_limits() {
    for number in 0..books::AT_THE_LIMITS {
        let mut chance = Chance::new(number as u64);
        let book = books::at_the_limits(&mut chance, number);
        let text = text_of(&book);
        for word in ["check", "sheet", "compare", "least", "change"] {
            for json in [&["--json"][..], &[]] {
                let behind: &[&str] = if word == "change" { &["drop 1", "drop 30"] } else { &[] };
                let call = arguments(&[&[word, "-"], behind, json].concat());
                // standard input is the book, so that least has no runs; and the text has no comparisons
                let expected = if ["least", "compare"].contains(&word) { 2 } else { 0 };
                assert_eq!(tried(&call, text.as_bytes()).status, expected, "{call:?}, book {number}");
            }
        }
        let (u, v) = (vec!["0"; 4_096].join("."), vec!["1"; 4_096].join("."));
        assert!(tried(&arguments(&["compare", "-", &u, &v]), text.as_bytes()).status < 2, "book {number}");
    }
    let full = books::full_letter_by_letter();
    let rule = "0 = 1\n";
    for (text, says) in [
        (text_of(&full) + rule, "standard input:34:1: refused 6 4293: thick: rule 33 is one too many; a book has at most 32\n"),
        (format!("letters 65\n{rule}"), "standard input:1:9: refused 4 0: range: 'letters' says 65; a book has 1 to 64 letters\n"),
        (format!("letters 0\n{rule}"), "standard input:1:9: refused 4 0: range: 'letters' says 0; a book has 1 to 64 letters\n"),
        (
            format!("letters 64\na = {}\n", "b".repeat(65)),
            "standard input:2:5: refused 4 5: range: rule 1, right side has 65 steps; a side has 1 to 64\n",
        ),
    ] {
        for word in ["check", "compare", "change"] {
            let call = [good_call(word)[..2].to_vec(), arguments(if word == "change" { &["drop 1"] } else { &[] })].concat();
            let called = tried(&call, text.as_bytes());
            assert_eq!((called.status, &called.text()[..]), (2, says), "{word}");
        }
    }
    let added = tried(&arguments(&["change", "-", "add 0 = 1"]), text_of(&full).as_bytes());
    assert_eq!(added.text(), "change 1, column 5: refused 6 4293: thick: rule 33 is one too many; a book has at most 32\n");
    let long = tried(&arguments(&["check", "-"]), format!("letters 64\na = {}\n", "b".repeat(256)).as_bytes());
    assert_eq!((long.status, long.faults().starts_with("standard input:2:5: a side of 256 steps cannot be written")), (2, true));
}

#[test]
fn runs_at_the_limits() {
    let directory = directory("long_runs");
    for (steps, good) in [(4_096, true), (4_097, false), (65_536, false), (300_000, false)] {
        let file = directory.join(steps.to_string());
        std::fs::write(&file, format!("{}\n", "a".repeat(steps))).expect("a file is written");
        let run = runs_in(&file);
        let with = |items: &[&str]| -> Vec<OsString> { items.iter().map(|item| if *item == "RUN" { run.clone() } else { item.into() }).collect() };
        for (call, status) in [
            (with(&["compare", "-", "RUN", "a"]), 1),
            (with(&["compare", "-", "a", "RUN"]), 1),
            (with(&["compare", "-", "RUN", "RUN", "--allowance", "4294967295"]), 0),
            (with(&["compare", "-", "RUN", "RUN", "--allowance", "0"]), 2),
            (with(&["trace", "-", "RUN", "a"]), 1),
            (with(&["least", "-", "RUN"]), 0),
            (with(&["front", "-", "RUN", "a"]), 0),
        ] {
            for json in [false, true] {
                let call = if json { [call.clone(), arguments(&["--json"])].concat() } else { call.clone() };
                let called = tried(&call, GOOD.as_bytes());
                assert_eq!(called.status, if good { status } else { 2 }, "{call:?}");
                if !good {
                    let says = format!("has {} steps; 4,096 at most are taken", grouped(steps));
                    assert!(called.text().contains(&says) && called.text().len() < 500, "{call:?}: {}", called.text());
                }
            }
        }
        let piece = tried(&with(&["front", "-", "a", "RUN"]), GOOD.as_bytes());
        assert!(piece.status == 2 && piece.text().contains("refused 9 10000: long: the piece has "), "{}", piece.text());
    }
    // as arguments, and as comparisons of a text
    for steps in [4_096, 4_097, 300_000] {
        let run = "a".repeat(steps);
        let expected = if steps == 4_096 { 0 } else { 2 };
        assert_eq!(tried(&arguments(&["compare", "-", &run, &run]), GOOD.as_bytes()).status, expected);
        assert_eq!(tried(&arguments(&["compare", "-"]), format!("letters 4\ncompare {run} {run} 4294967295\n").as_bytes()).status, expected);
    }
    for (allowance, status, says) in
        [("0", 2, "refused 11 0: spent: "), ("1", 2, "refused 11 1: spent: "), ("2", 0, "same: "), ("4294967295", 0, "same: ")]
    {
        let called = tried(&arguments(&["compare", "-", "abdc", "cadb", "--allowance", allowance]), GOOD.as_bytes());
        assert_eq!((called.status, called.text().starts_with(says)), (status, true), "{allowance}: {}", called.text());
    }
}

/// A text can have more rules and longer sides than a book; no such book is loose by the library's answer, and nothing is looked for in it.
#[test]
fn a_line_of_an_output_about_a_text_over_the_limits() {
    let side = |code: u8, steps: usize| vec![code.to_string(); steps].join(".");
    let explained = |text: &str, line: &str| {
        let called = tried(&arguments(&["explain", "-", line]), text.as_bytes());
        assert_eq!(called.status, 0);
        called.text()
    };
    let rules = |count: usize, steps: usize| (0..count).map(|_| format!("{} = {}\n", side(1, steps), side(2, steps))).collect::<String>();
    let within = explained(&format!("letters 4\n{}", rules(32, 64)), "refused 8 0");
    assert!(within.contains("is made of 2 pieces"), "{within}");
    for (count, steps) in [(33, 64), (1, 65)] {
        let over = explained(&format!("letters 4\n{}", rules(count, steps)), "refused 8 0");
        assert!(over.contains("is a product of three or fewer pieces"), "{over}");
    }
    let mut chance = Chance::new(1);
    let item = |chance: &mut Chance| chance.word(255, 200).iter().map(u8::to_string).collect::<Vec<_>>().join(".");
    let large = (0..2_000).fold(String::from("letters 4\n"), |text, _| format!("{text}{} = {}\n", item(&mut chance), item(&mut chance)));
    assert!(large.len() > 3_000_000 && large.len() < 4_194_304, "{}", large.len());
    for line in ["refused 8 3999", "refused 8 4000", "refused 5 1000000", "refused 13 60000", "refused 4 0", "refused 10 3"] {
        assert!(explained(&large, line).starts_with(line), "{line}");
    }
}
