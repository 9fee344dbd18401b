//! Every word with every option, and with too few and too many arguments.

mod support;

use support::tries::{arguments, good_call, good_input, tried};
use support::{call, directory};

#[test]
fn every_word_with_every_option() {
    let directory = directory("options");
    let made = directory.join("made").to_str().expect("a name").to_string();
    let taken: [(&str, &[&str]); 10] = [
        ("check", &[]),
        ("sheet", &[]),
        ("compare", &["allowance", "width"]),
        ("trace", &["width"]),
        ("least", &[]),
        ("front", &[]),
        ("change", &["output"]),
        ("encode", &["output"]),
        ("decode", &["output"]),
        ("explain", &[]),
    ];
    let inline = format!("--output={made}");
    let good: [(&str, &[&str]); 9] = [
        ("allowance", &["--allowance", "2"]),
        ("allowance", &["--allowance=4294967295"]),
        ("width", &["--width", "0"]),
        ("width", &["--width=262144"]),
        ("output", &["-o", &made]),
        ("output", &["--output", &made]),
        ("output", &[&inline]),
        ("json", &["--json"]),
        ("json", &["--json", "--json"]),
    ];
    let bad: [&[&str]; 16] = [
        &["--allowance", "4294967296"],
        &["--allowance", "-1"],
        &["--allowance", ""],
        &["--allowance="],
        &["--allowance=two"],
        &["--allowance=+2"],
        &["--width=262145"],
        &["--width", "1.5"],
        &["--json=1"],
        &["--help=yes"],
        &["--nope"],
        &["-x"],
        &["--Json"],
        &["---json"],
        &["-j"],
        &["--output"],
    ];
    for (word, options) in taken {
        let (call, input) = (good_call(word), good_input(word));
        assert_eq!(tried(&call, &input).status, 0, "{word}");
        // an option may stand anywhere
        let placed = |option: &[&str]| (0..=call.len()).map(|at| [&call[..at], &arguments(option), &call[at..]].concat()).collect::<Vec<_>>();
        for (name, option) in good {
            for call in placed(option) {
                let called = tried(&call, &input);
                if name == "json" || options.contains(&name) {
                    assert_eq!(called.status, 0, "{call:?}");
                } else {
                    assert_eq!(
                        (called.status, called.faults()),
                        (2, format!("vanecitron: {word} takes no --{name} (vanecitron {word} --help)\n")),
                        "{call:?}"
                    );
                }
            }
        }
        for option in bad {
            // an option that wants a value and stands last has none
            let calls = if option == ["--output"] { placed(option).split_off(call.len()) } else { placed(option) };
            for call in calls {
                let called = tried(&call, &input);
                assert!(called.status == 2 && called.output.is_empty() && called.faults().starts_with("vanecitron: "), "{call:?}: {called:?}");
            }
        }
        for help in ["--help", "-h"] {
            assert!(placed(&[help]).iter().all(|call| tried(call, &input).text().starts_with(&format!("vanecitron {word} "))), "{word}");
            assert_eq!(tried(&arguments(&[word, help]), b"").status, 0, "{word}");
        }
        assert_eq!(tried(&arguments(&[word, "--version"]), b"").text(), format!("vanecitron {}\n", env!("CARGO_PKG_VERSION")));
    }
}

#[test]
fn every_word_with_too_few_and_too_many_arguments() {
    let most = usize::MAX;
    for (word, least, most) in [
        ("check", 1, 1),
        ("sheet", 1, 1),
        ("compare", 1, 3),
        ("trace", 2, 3),
        ("least", 1, most),
        ("front", 2, 3),
        ("change", 2, most),
        ("encode", 1, 1),
        ("decode", 1, 1),
        ("explain", 1, 2),
    ] {
        for given in 0..6 {
            let call = arguments(&[&[word, "--"][..], &["-"; 6][..given]].concat());
            let called = tried(&call, good_input(word).as_slice());
            let says = |part: &str| called.faults().contains(part);
            assert_eq!((says("something is missing"), says("that is too much")), (given < least, given > most), "{call:?}: {}", called.faults());
        }
    }
    for call in [&[][..], &["--json"], &["--"], &["chek", "-"], &["-"], &[""], &["Check"], &["check "], &["--", "--check"]] {
        assert_eq!(tried(&arguments(call), b"").status, 2, "{call:?}");
    }
}

/// A value may look like an option, and is none.
#[test]
fn the_value_of_an_option_is_no_option() {
    let directory = directory("values");
    let missing = directory.join("missing").to_str().expect("a name").to_string();
    for (behind, json) in
        [(&["-o", "--json"][..], false), (&["--output", "--json"], false), (&["-o", "--", "--json"], true), (&["--json", "-o", "--"], true)]
    {
        let called = call(&[&["encode", &missing], behind].concat(), b"");
        let sentence = format!("vanecitron: {missing}: No such file or directory\n");
        if json {
            assert_eq!(called.object()["message"].text(), "No such file or directory", "{behind:?}");
        } else {
            assert_eq!((called.status, called.text(), called.faults()), (2, String::new(), sentence), "{behind:?}");
        }
    }
}
