//! Every recorded call, every recorded input of the program, and every executed case.

use reference::entries::{find_front, find_least};
use reference::{accept, book, check, compare, cut_sheet, front, least, program, round, Comparison, Refusal, RoundEnd};
use vectors::held::{told, Holder};
use vectors::{bytes, call, hex, placed, Answer, Call, Case};

fn refused(refusal: Refusal) -> String {
    format!("refused {} {}", refusal.number, refusal.place)
}

/// The reference as what loads and changes held books, proposes and posts.
struct Reference;

fn numbers(refusal: Refusal) -> (u32, u64) {
    (refusal.number, refusal.place)
}

impl Holder for Reference {
    fn load(&self, book: &[u8], held: &mut [u8]) -> Answer {
        reference::load(book, held).map_err(numbers)
    }

    fn add(&self, held: &mut [u8], record: &[u8], sheet: &mut [u8]) -> Answer {
        reference::add(held, record, sheet).map_err(numbers)
    }

    fn withdraw(&self, held: &mut [u8], rule: usize, sheet: &mut [u8]) -> Answer {
        reference::withdraw(held, rule, sheet).map_err(numbers)
    }

    fn propose_add(&self, held: &[u8], record: &[u8], sheet: &mut [u8], ticket: &mut [u8]) -> Answer {
        reference::propose_add(held, record, sheet, ticket).map_err(numbers)
    }

    fn propose_withdraw(&self, held: &[u8], rule: usize, sheet: &mut [u8], ticket: &mut [u8]) -> Answer {
        reference::propose_withdraw(held, rule, sheet, ticket).map_err(numbers)
    }

    fn post(&self, held: &mut [u8], ticket: &[u8], sheet: &mut [u8]) -> Answer {
        reference::post(held, ticket, sheet).map_err(numbers)
    }
}

/// The answer to a call as it is recorded.
fn answer(call: &Call) -> String {
    match call {
        Call::Compare { book, u, v, allowance } => match compare(book, u, v, *allowance) {
            Ok(Comparison::Same(count)) => format!("same {count}"),
            Ok(Comparison::Different(count)) => format!("different {count}"),
            Err(refusal) => refused(refusal),
        },
        Call::Sheet { book, size } => {
            let mut sheet = vec![0xaa; *size];
            cut_sheet(book, &mut sheet).map_or_else(refused, |_| format!("sheet {}", hex(&sheet)))
        }
        Call::Round { book, words, sizes } => {
            let mut next = sizes.map(|size| vec![0xaa; size]);
            match round(book, words.each_ref().map(|word| &word[..]), next.each_mut().map(|buffer| &mut buffer[..])) {
                Ok(RoundEnd::Same) => "end same".to_string(),
                Ok(RoundEnd::Different) => "end different".to_string(),
                Ok(RoundEnd::Next([u, v, p])) => {
                    format!("next {} {} {}", hex(&next[0][..u as usize]), hex(&next[1][..v as usize]), hex(&next[2][..p as usize]))
                }
                Err(refusal) => refused(refusal),
            }
        }
        Call::Least { book, word, size, offset } => placed("least", *size, *offset, |buffer| least(book, word, buffer, *offset).map_err(numbers)),
        Call::Front { book, word, piece, size, offset } => {
            placed("front", *size, *offset, |buffer| front(book, word, piece, buffer, *offset).map_err(numbers))
        }
        Call::Held { book, operations } => told(&Reference, book, operations),
    }
}

#[test]
fn recorded_calls() {
    for recorded in vectors::calls() {
        assert_eq!(answer(&recorded.call), recorded.answer, "{}", recorded.line);
    }
}

#[test]
fn recorded_inputs_of_the_program() {
    for run in vectors::runs() {
        assert_eq!(String::from_utf8_lossy(&program(&run.input)), run.output, "{}", run.name);
    }
}

/// The answer to an executed case; none where a word is asked for that no search finds.
fn executed_answer(line: &str) -> Option<String> {
    let (word, fields) = line.split_once(' ').expect("a word and its fields");
    Some(match word {
        "read" => book::read(&bytes(fields)).map_or_else(refused, |read| format!("read {} {}", read.letters, read.sides.len() / 2)),
        "check" => check(&bytes(fields)).map_or_else(refused, |relations| format!("accepted {relations}")),
        _ => {
            let call = call(line);
            if is_beyond_search(&call) {
                return None;
            }
            answer(&call)
        }
    })
}

/// A least word is asked for or what a front leaves, and a chain reaches more words than can be searched.
fn is_beyond_search(call: &Call) -> bool {
    match call {
        Call::Least { book, word, .. } => accept(book).is_ok_and(|accepted| matches!(find_least(&accepted, word, 10_000), Ok(None))),
        Call::Front { book, word, piece, .. } => accept(book).is_ok_and(|accepted| matches!(find_front(&accepted, word, piece, 10_000), Ok(None))),
        _ => false,
    }
}

#[test]
fn executed_cases() {
    let mut beyond = 0;
    for Case { line, answer } in vectors::executed() {
        match executed_answer(&line) {
            Some(expected) => assert_eq!(answer, expected, "{line}"),
            None => beyond += 1,
        }
    }
    assert!(beyond < 10, "{beyond} cases beyond search");
}
