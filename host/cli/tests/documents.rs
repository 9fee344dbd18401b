//! The examples in the documents and in the help of each word: every call of the command in them prints just what stands behind it.

mod common;

use std::fs;

use common::{root, run, split, words};

/// The documents whose examples are run.
const DOCUMENTS: [&str; 2] = ["README.md", "docs/COMMAND.md"];

/// How a call of the command begins in an example.
const CALLS: [&str; 2] = ["$ vanecitron", "$ ./vanecitron"];

/// A call, its line in the document, and what stands behind it.
#[derive(Debug, PartialEq, Eq)]
struct Example {
    line: usize,
    call: String,
    printed: String,
}

/// A part of a document that is shown as it is written: the number of its first line, and its lines without what they are indented by.
type Block<'a> = (usize, Vec<&'a str>);

/// The blocks of a document: what is fenced, and what is indented by at least four blanks.
fn blocks(text: &str) -> Vec<Block<'_>> {
    let mut blocks = Vec::new();
    let mut lines = (1..).zip(text.lines()).peekable();
    let mut after_blank = true;
    while let Some((number, line)) = lines.next() {
        let indent = line.len() - line.trim_start_matches(' ').len();
        let is_fence = |line: &str| line.trim_start().starts_with("```");
        let stripped = |line| without(indent, line);
        if is_fence(line) {
            let inside = std::iter::from_fn(|| lines.next().map(|(_, line)| line).filter(|line| !is_fence(line)));
            blocks.push((number + 1, inside.map(stripped).collect()));
        } else if indent >= 4 && indent < line.len() && after_blank {
            let goes_on = |line: &str| line.trim().is_empty() || line.len() - line.trim_start_matches(' ').len() >= indent;
            let behind = std::iter::from_fn(|| lines.next_if(|(_, line)| goes_on(line)));
            blocks.push((number, std::iter::once(line).chain(behind.map(|(_, line)| line)).map(stripped).collect()));
        }
        after_blank = line.trim().is_empty();
    }
    blocks
}

/// A line without so many blanks at its front.
fn without(blanks: usize, line: &str) -> &str {
    let front = line.len() - line.trim_start_matches(' ').len();
    &line[front.min(blanks)..]
}

/// The calls of the command in the blocks of a document. What a call prints goes up to the next line that begins with `$`, or to the end of the block.
fn examples(text: &str) -> Vec<Example> {
    let mut examples: Vec<Example> = Vec::new();
    for (first, lines) in blocks(text) {
        let mut open = false;
        for (line, content) in (first..).zip(lines) {
            if content.starts_with("$ ") {
                open = CALLS.iter().any(|call| content.strip_prefix(call).is_some_and(|rest| rest.is_empty() || rest.starts_with(' ')));
                examples.extend(open.then(|| Example { line, call: content.to_string(), printed: String::new() }));
            } else if let Some(example) = examples.last_mut().filter(|_| open) {
                example.printed.extend([content, "\n"]);
            }
        }
    }
    // blank lines at an end part the example from what follows
    for example in &mut examples {
        let printed = example.printed.trim_end_matches('\n').len();
        example.printed.truncate(printed + usize::from(printed > 0));
    }
    examples
}

/// What is wrong with the examples of a text: each that prints something else, or that there is none.
fn problems(name: &str, text: &str) -> Vec<String> {
    let examples = examples(text);
    if examples.is_empty() {
        return vec![format!("{name} has no example of the command\n")];
    }
    examples.iter().filter_map(|example| problem(example).map(|problem| format!("{name}:{}: {problem}", example.line))).collect()
}

fn problem(Example { call, printed, .. }: &Example) -> Option<String> {
    let arguments = match split(&call["$ ".len()..]) {
        Err(error) => return Some(format!("{error}\n")),
        Ok(arguments) => arguments,
    };
    let answer = run(&arguments.iter().skip(1).map(String::as_str).collect::<Vec<_>>());
    // a terminal shows both
    let found = answer.output() + &answer.errors();
    (found != *printed).then(|| format!("{call}\n-- the document has:\n{printed}-- printed:\n{found}"))
}

#[test]
fn the_examples_of_the_documents() {
    let text = |document: &str| fs::read_to_string(root().join(document)).expect("the document is there");
    let problems: String = DOCUMENTS.iter().map(|document| problems(document, &text(document)).concat()).collect();
    assert!(problems.is_empty(), "\n{problems}");
}

#[test]
fn the_example_of_each_word() {
    let help = |word: &String| run(&[word, "--help"]).output();
    let problems: String = words().iter().map(|word| problems(&format!("vanecitron {word} --help"), &help(word)).concat()).collect();
    assert!(problems.is_empty(), "\n{problems}");
}

#[test]
fn the_help_of_a_word_says_its_form_and_its_options() {
    let options: [(&str, &[&str]); 10] = [
        ("check", &[]),
        ("sheet", &[]),
        ("compare", &["--allowance N", "--width N"]),
        ("trace", &["--width N"]),
        ("least", &[]),
        ("front", &[]),
        ("change", &["--output FILE"]),
        ("encode", &["--output FILE"]),
        ("decode", &["--output FILE"]),
        ("explain", &[]),
    ];
    assert_eq!(words(), options.map(|(word, _)| word));
    let whole = run(&["--help"]).output();
    for (word, options) in options {
        let help = run(&[word, "--help"]);
        assert_eq!((help.errors(), help.status), (String::new(), 0), "{word}");
        let first = help.output().lines().next().expect("a line").to_string();
        let form = first.strip_prefix(&format!("vanecitron {word} ")).unwrap_or_else(|| panic!("{first}")).to_string();
        assert!(whole.contains(&format!("    {word:<8} {form} ")), "the whole help has {word} in another form than {form}");
        for option in ["--allowance N", "--width N", "--output FILE", "--json"] {
            let is_taken = option == "--json" || options.contains(&option);
            let is_told = help.output().lines().any(|line| line.starts_with("    -") && line.contains(option));
            assert_eq!(is_told, is_taken, "{word} {option}");
        }
    }
}

#[test]
fn help_is_asked_for_in_several_ways() {
    let same: [&[&[&str]]; 3] = [
        &[&["--help"], &["-h"]],
        &[&["front", "--help"], &["front", "-h"], &["--help", "front"], &["front", "nowhere.txt", "--help"]],
        &[&["--json", "--help"], &["-h", "--json"]],
    ];
    for calls in same {
        let first = run(calls[0]);
        assert_eq!((first.status, first.errors()), (0, String::new()));
        assert!(calls.iter().all(|call| run(call) == first), "{calls:?}");
    }
    let object = run(&["front", "--help", "--json"]).output();
    assert!(object.starts_with(r#"{"answer":"help","text":"vanecitron front BOOK.txt RUN PIECE\n\n"#), "{object}");
    assert!(object.ends_with("\\n    adb\"}\n"), "{object}");
}

#[test]
fn the_version_is_that_of_the_package() {
    let version = env!("CARGO_PKG_VERSION");
    assert_eq!(run(&["--version"]).output(), format!("vanecitron {version}\n"));
    // its parts have two digits each
    let number = version.split('.').fold(0, |number, part| 100 * number + part.parse::<u32>().expect("a number"));
    assert_eq!(run(&["--version", "--json"]).output(), format!("{{\"answer\":\"version\",\"version\":{number}}}\n"));
}

#[test]
fn examples_are_found_where_they_stand() {
    let text = "\
Text, and `$ vanecitron none` in it.
    $ vanecitron none, since no blank line stands before it

    $ vanecitron one
    printed

        more
    $ ./vanecitron two
    $ other
    of another command

Text.

- A list:

      first
      $ vanecitron three
      printed

```sh
$ ./vanecitron four

printed
```
$ vanecitron none
";
    let example = |line, call: &str, printed: &str| Example { line, call: call.into(), printed: printed.into() };
    let expected = [
        example(4, "$ vanecitron one", "printed\n\n    more\n"),
        example(8, "$ ./vanecitron two", ""),
        example(17, "$ vanecitron three", "printed\n"),
        example(21, "$ ./vanecitron four", "\nprinted\n"),
    ];
    assert_eq!(examples(text), expected);
}

#[test]
fn a_document_that_says_otherwise_fails() {
    let call = "$ vanecitron front examples/q.txt abdc c";
    let other = format!("{call}\n-- the document has:\nbda\n-- printed:\nadb\n");
    for (text, expected) in [
        (format!("\n    {call}\n    adb\n"), vec![]),
        ("Text alone.\n".to_string(), vec!["some.md has no example of the command\n".to_string()]),
        (
            format!("\n    {call}\n    bda\n    {call}\n    adb\n\n    {call}\n    bda\n"),
            vec![format!("some.md:2: {other}"), format!("some.md:7: {other}")],
        ),
        ("```\n$ vanecitron check a > b\n```\n".to_string(), vec!["some.md:2: > stands outside of '...', and no shell is run\n".to_string()]),
    ] {
        assert_eq!(problems("some.md", &text), expected, "{text}");
    }
}
