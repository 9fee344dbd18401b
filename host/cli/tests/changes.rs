//! `change` on seeded stories of a held book: the book that it prints is the one that the changed list of rules makes, the text's comments and comparisons are kept, the sheet that it tells
//! after each change is the library's of the book then, and what is refused is what a held book refuses, and prints no book.

mod support;

use booktext::{Record, Text};
use gen::stories::{loose_record, Change, Story};
use gen::{books, shared, Book, Chance};
use support::json::Json;
use support::texts::{spelled, written, Question, Written};
use support::{call, directory, Called, Tally};
use vanecitron::{Cut, HeldBook, Refusal};

/// What makes books of one kind.
type Make = fn(&mut Chance) -> Book;

const KINDS: [Make; 5] = [books::any, books::marked, shared::any, shared::linked, shared::loose];

/// A change of a call: a rule put behind the others, or the rule of an index, from 0, withdrawn.
#[derive(Debug, Clone)]
enum Asked {
    Add([Vec<u8>; 2]),
    Drop(usize),
}

/// A rule of the book while it is changed, and which rule of the text it was, from 0.
#[derive(Debug, Clone, PartialEq, Eq)]
struct Rule {
    sides: [Vec<u8>; 2],
    of_text: Option<usize>,
}

/// The book by its list of rules.
fn book_of(letters: u8, rules: &[Rule]) -> Book {
    Book::new(letters, rules.iter().flat_map(|rule| rule.sides.clone()).collect())
}

/// The list of rules once a change is made; none where there is no such rule.
fn changed(rules: &[Rule], asked: &Asked) -> Option<Vec<Rule>> {
    let mut rules = rules.to_vec();
    match asked {
        Asked::Add(sides) => rules.push(Rule { sides: sides.clone(), of_text: None }),
        Asked::Drop(rule) if *rule < rules.len() => drop(rules.remove(*rule)),
        Asked::Drop(_) => return None,
    }
    Some(rules)
}

/// The sides of a record of a rule; none of other bytes.
fn sides_of(record: &[u8]) -> Option<[Vec<u8>; 2]> {
    let [low, high, 2, 0, m, n, steps @ ..] = record else { return None };
    let fits = usize::from(*low) + 256 * usize::from(*high) == 2 + steps.len() && usize::from(*m) + usize::from(*n) == steps.len();
    let (left, right) = steps.split_at(usize::from(*m).min(steps.len()));
    fits.then(|| [left.to_vec(), right.to_vec()])
}

/// The next change of a story that a call can ask for.
fn asked(chance: &mut Chance, story: &mut Story, held: &Book) -> Asked {
    loop {
        let change = if chance.once_in(12) { Change::Add { record: loose_record(chance, held), size: 0 } } else { story.change(chance, held) };
        match change {
            Change::Add { record, .. } => {
                if let Some(sides) = sides_of(&record) {
                    return Asked::Add(sides);
                }
            }
            Change::Withdraw { relation, .. } if relation < u32::MAX as usize => return Asked::Drop(relation),
            Change::Withdraw { .. } => {}
        }
    }
}

/// A change as an argument, in one of the ways that it can be written.
fn argument(chance: &mut Chance, asked: &Asked) -> String {
    let blank = *chance.pick(&[" ", " ", "  ", "\t"]);
    match asked {
        Asked::Add([left, right]) => {
            let [left, right] = [left, right].map(|side| spelled(chance, side));
            let before = *chance.pick(&["", "", " "]);
            let behind = *chance.pick(&["", "", " ", " # new", "\n"]);
            format!("{before}add{blank}{left}{}={}{right}{behind}", chance.pick(&["", " "]), chance.pick(&["", " "]))
        }
        Asked::Drop(rule) => format!("drop{blank}{}{}", rule + 1, chance.pick(&["", "", " ", "\n"])),
    }
}

/// A story in one call: a text, its changes, and what a held book makes of them.
struct Told {
    written: Written,
    letters: u8,
    arguments: Vec<String>,
    /// each change that a held book takes, with the rules and the sheet then; those of the text come first
    states: Vec<(Option<Asked>, Vec<Rule>, Vec<Cut>)>,
    /// the first change that it refuses, if there is one
    refused: Option<Refusal>,
}

/// A call with some changes. The first that is refused, if any, stands anywhere among them.
fn told(chance: &mut Chance, make: Make) -> Told {
    let accepted = std::iter::repeat_with(|| make(chance)).find(|book| vanecitron::check(&book.bytes()).is_ok()).expect("some book is accepted");
    let mut story = Story::new(chance, &accepted);
    let book = story.book.clone();
    let questions: Vec<Question> = (0..chance.below(4)).map(|_| Question::any(chance, &book, 12)).collect();
    let written = written(chance, &book, &questions);

    let mut rules: Vec<Rule> =
        book.words.chunks(2).enumerate().map(|(index, rule)| Rule { sides: [rule[0].clone(), rule[1].clone()], of_text: Some(index) }).collect();
    let mut held = HeldBook::load(&book.bytes()).expect("the story's book is accepted");
    let mut states = vec![(None, rules.clone(), vanecitron::cut_sheet(&book.bytes()).expect("accepted"))];
    let (mut arguments, mut refused) = (Vec::new(), None);
    for _ in 0..chance.between(1, 7) {
        let asked = asked(chance, &mut story, &book_of(book.letters, &rules));
        arguments.push(argument(chance, &asked));
        if refused.is_some() {
            continue; // what stands behind a change that is refused is not made
        }
        let made = match &asked {
            Asked::Add([left, right]) => held.add(&books::rule(left, right)),
            Asked::Drop(rule) => held.withdraw(*rule),
        };
        match made {
            Err(refusal) => refused = Some(refusal),
            Ok(_) => {
                rules = changed(&rules, &asked).expect("a held book has made it");
                let bytes = book_of(book.letters, &rules).bytes();
                assert_eq!(held.book(), bytes, "the held book is that of the changed list");
                states.push((Some(asked), rules.clone(), vanecitron::cut_sheet(&bytes).expect("a held book is accepted")));
            }
        }
    }
    Told { written, letters: book.letters, arguments, states, refused }
}

/// The four numbers of a side on a sheet.
fn numbers(cut: &Cut) -> [usize; 4] {
    [cut.x, cut.y, cut.z, cut.pieces.number()].map(usize::from)
}

fn told_numbers(side: &Json) -> [usize; 4] {
    ["x", "y", "z", "pieces"].map(|key| side[key].number())
}

fn longest_tail(cuts: &[Cut]) -> usize {
    cuts.iter().map(|cut| usize::from(cut.z)).max().unwrap_or(0)
}

/// The object of a change tells the sheet after it, and of each side that was there its number and its cut before.
fn check_posted(object: &Json, count: usize, told: &Told) {
    let (asked, rules, cuts) = &told.states[count];
    let (_, rules_before, cuts_before) = &told.states[count - 1];
    let (name, index) = match asked.as_ref().expect("a change") {
        Asked::Add(_) => ("add", rules.len() - 1),
        Asked::Drop(rule) => ("drop", *rule),
    };
    assert_eq!((object.answer(), object["change"].text(), object["index"].number()), ("posted", name, index));
    assert_eq!(["rules", "changes", "k"].map(|key| object[key].number()), [rules.len(), count, longest_tail(cuts)]);
    let sides = object["sides"].list();
    assert_eq!(sides.len(), cuts.len());
    for (number, side) in sides.iter().enumerate() {
        assert_eq!(
            (side["side"].number(), side["run"].run(), told_numbers(side)),
            (number, rules[number / 2].sides[number % 2].clone(), numbers(&cuts[number]))
        );
        // an added rule is the last; those behind one that was dropped had an index more
        let rule_before = match asked {
            Some(Asked::Drop(dropped)) if number / 2 >= *dropped => Some(number / 2 + 1),
            Some(Asked::Add(_)) if number / 2 == index => None,
            _ => Some(number / 2),
        };
        assert_eq!(side.get("before").is_some(), rule_before.is_some());
        if let (Some(before), Some(rule_before)) = (side.get("before"), rule_before) {
            let number_before = 2 * rule_before + number % 2;
            assert_eq!((before["side"].number(), told_numbers(before)), (number_before, numbers(&cuts_before[number_before])));
            assert_eq!(rules_before[rule_before], rules[number / 2]);
        }
    }
}

/// The lines of a text, without their ends.
fn lines(text: &str) -> Vec<&str> {
    text.strip_prefix('\u{feff}').unwrap_or(text).lines().collect()
}

/// A new text says just the new book and the old comparisons; the lines of added rules aside, it is the old text without the lines of the rules that are gone.
fn check_text(text: &str, told: &Told) {
    let (_, rules, _) = told.states.last().expect("a state");
    let (new, old) = (Text::parse(text).unwrap_or_else(|error| panic!("{error}: {text}")), Text::parse(&told.written.text).expect("a text"));
    assert_eq!(new.book(), book_of(told.letters, rules).bytes(), "{text}");
    let said = |text: &Text| {
        text.comparisons.iter().map(|comparison| (comparison.runs.clone().map(|run| run.steps), comparison.allowance)).collect::<Vec<_>>()
    };
    assert_eq!(said(&new), said(&old), "{text}");

    let line_of = |text: &Text, rule: usize| text.rules[rule].sides[0].line - 1;
    let added: Vec<usize> = (0..rules.len()).filter(|&rule| rules[rule].of_text.is_none()).map(|rule| line_of(&new, rule)).collect();
    let is_gone = |rule: &usize| !rules.iter().any(|left| left.of_text == Some(*rule));
    let gone: Vec<usize> = (0..old.rules.len()).filter(is_gone).map(|rule| line_of(&old, rule)).collect();
    let without = |text: &'_ str, left_out: &[usize]| -> Vec<String> {
        lines(text).iter().enumerate().filter(|(index, _)| !left_out.contains(index)).map(|(_, line)| line.to_string()).collect()
    };
    assert_eq!(without(text, &added), without(&told.written.text, &gone), "{text}");
}

/// The changes of a story in objects: one for each that is posted, and then the book, or the refusal.
fn check_objects(called: &Called, told: &Told, tally: &mut Tally) -> Option<String> {
    let objects = called.objects();
    let (last, posted) = objects.split_last().expect("an answer");
    assert_eq!(posted.len(), told.states.len() - 1, "{last:?}");
    for (index, object) in posted.iter().enumerate() {
        check_posted(object, index + 1, told);
        tally.meet(object["change"].text());
    }
    let Some(refusal) = told.refused else {
        let (_, rules, _) = told.states.last().expect("a state");
        let digits: String = book_of(told.letters, rules).bytes().iter().map(|byte| format!("{byte:02x}")).collect();
        assert_eq!((called.status, last.answer(), last["rules"].number(), last["bytes"].text()), (0, "book", rules.len(), &digits[..]));
        check_text(last["text"].text(), told);
        return Some(last["text"].text().to_string());
    };
    let numbers = (last["number"].number() as u32, last["place"].number() as u64);
    assert_eq!((called.status, last.answer(), numbers), (2, "refused", (refusal.reason.number(), refusal.place.number())));
    tally.meet(format!("refused {}", refusal.reason.number()));
    None
}

#[test]
fn changes_make_the_book_of_the_changed_list_of_rules() {
    let mut tally = Tally::default();
    let directory = directory("changes");
    let file = directory.join("new.txt");
    for seed in 0..1_500 {
        let mut chance = Chance::new(seed);
        let told = told(&mut chance, KINDS[seed as usize % KINDS.len()]);
        let input = told.written.text.as_bytes();
        let with = |more: &[&str]| -> Vec<String> {
            [&["change", "-"], more].concat().into_iter().map(String::from).chain(told.arguments.clone()).collect()
        };
        let text = check_objects(&call(&with(&["--json"]), input), &told, &mut tally);

        // the plain output is the same text behind comments, or no text
        let plain = call(&with(&[]), input);
        assert_eq!((plain.status, plain.faults()), (if text.is_some() { 0 } else { 2 }, String::new()), "seed {seed}");
        let output = plain.text();
        match &text {
            Some(text) => {
                let report = output.strip_suffix(&text[..]).unwrap_or_else(|| panic!("seed {seed}: {output}"));
                assert!(report.lines().all(|line| line.starts_with('#')), "seed {seed}: {output}");
                assert_eq!(report.lines().filter(|line| line.starts_with("# change ")).count(), told.states.len() - 1, "seed {seed}: {output}");
                let (whole, alone) = (Text::parse(&output), Text::parse(text));
                assert_eq!(whole.map(|text| text.bytes()), alone.map(|text| text.bytes()), "seed {seed}: {output}");
                tally.meet("a book");
            }
            None => assert!(Text::parse(&output).is_err() && !output.contains("letters "), "seed {seed}: {output}"),
        }

        // a file is written for a book alone
        let _ = std::fs::remove_file(&file);
        let to_file = call(&with(&["-o", file.to_str().expect("a name")]), input);
        assert_eq!(to_file.status, plain.status, "seed {seed}");
        assert_eq!(std::fs::read_to_string(&file).ok(), text, "seed {seed}");
        if text.is_some() {
            assert!(to_file.text().lines().all(|line| line.starts_with('#')), "seed {seed}: {}", to_file.text());
        }
        if told.states.len() > 3 {
            tally.meet("several changes");
        }
        let (first, last) = (&told.states[0].1, &told.states[told.states.len() - 1].1);
        if first.iter().any(|rule| !last.contains(rule)) && !told.written.questions.is_empty() && text.is_some() {
            tally.meet("a rule of the text is gone, and comparisons are kept");
        }
    }
    tally.expect(&[
        ("add", 500),
        ("drop", 500),
        ("a book", 300),
        ("several changes", 200),
        ("a rule of the text is gone, and comparisons are kept", 100),
        ("refused 4", 20),
        ("refused 5", 50),
        ("refused 6", 50),
        ("refused 8", 100),
        ("refused 15", 100),
    ]);
}

/// Where a refused addition stands: as the text of the change has it.
#[test]
fn a_refused_addition_is_told_by_its_column() {
    for (change, number, argument, column) in [
        ("add ab = -", 4, "change 1", 10),
        ("add - = ab", 4, "change 1", 5),
        ("  add  ab  =  az", 5, "change 1", 16),
        ("add 1.2.0009 = 1", 5, "change 1", 9),
        ("add\nab = az", 5, "change 1", 11),
    ] {
        let object = call(&["change", "--json", "-", change], b"letters 4\n").object();
        assert_eq!((object["number"].number(), object["argument"].text(), object["column"].number()), (number, argument, column), "{change}");
    }
}

/// A change is one line: an end of a line in it is a blank, and the output is a text all the same.
#[test]
fn a_line_end_in_a_change_is_a_blank() {
    for change in ["add\nab = cd", "add ab\n=\ncd", "\nadd ab = cd\n", "add ab = cd # new\nletters 5", "drop\n1"] {
        let called = call(&["change", "-", change], b"letters 6\ne = e\ncompare a b 7\n");
        let text = called.text();
        let parsed = Text::parse(&text).unwrap_or_else(|error| panic!("{change:?}: {error}: {text}"));
        assert_eq!(called.status, 0, "{change:?}");
        let rules: &[u8] = if change.starts_with("drop") { &[] } else { &[4, 0, 2, 0, 1, 1, 4, 4, 6, 0, 2, 0, 2, 2, 0, 1, 2, 3] };
        assert_eq!(parsed.book(), [&[1, 0, 1, 0, 6], rules].concat(), "{change:?}");
        assert_eq!(parsed.record_at(parsed.bytes().len() - 1), Record::Comparison(0), "{change:?}");
    }
}
