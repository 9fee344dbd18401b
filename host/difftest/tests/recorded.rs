//! The recorded calls and inputs, the executed fronts and the executed changes and tickets of held books, and document 01's bench cases, with answers that are
//! written down: the reference has no part in these.

use difftest::entries::{Compared, Refused, Rounded};
use difftest::trial::{SHEET, SHEET_SIDE};
use difftest::{chosen, Entries};
use gen::{books, Book};
use vectors::held::{told, Answer, Holder};
use vectors::{bytes, hex, placed, Call};

fn refused((number, place): Refused) -> String {
    format!("refused {number} {place}")
}

fn compared(answer: Result<Compared, Refused>) -> String {
    match answer {
        Ok(Compared::Same(count)) => format!("same {count}"),
        Ok(Compared::Different(count)) => format!("different {count}"),
        Err(refusal) => refused(refusal),
    }
}

/// The entries of held books.
struct Held<'a>(&'a dyn Entries);

impl Holder for Held<'_> {
    fn load(&self, book: &[u8], held: &mut [u8]) -> Answer {
        self.0.load(book, held)
    }

    fn add(&self, held: &mut [u8], record: &[u8], sheet: &mut [u8]) -> Answer {
        self.0.add(held, record, sheet)
    }

    fn withdraw(&self, held: &mut [u8], rule: usize, sheet: &mut [u8]) -> Answer {
        self.0.withdraw(held, rule, sheet)
    }

    fn propose_add(&self, held: &[u8], record: &[u8], sheet: &mut [u8], ticket: &mut [u8]) -> Answer {
        self.0.propose_add(held, record, sheet, ticket)
    }

    fn propose_withdraw(&self, held: &[u8], rule: usize, sheet: &mut [u8], ticket: &mut [u8]) -> Answer {
        self.0.propose_withdraw(held, rule, sheet, ticket)
    }

    fn post(&self, held: &mut [u8], ticket: &[u8], sheet: &mut [u8]) -> Answer {
        self.0.post(held, ticket, sheet)
    }
}

/// The answer to a call as it is recorded.
fn answer(entries: &dyn Entries, call: &Call) -> String {
    match call {
        Call::Compare { book, u, v, allowance } => compared(entries.compare(book, u, v, *allowance)),
        Call::Sheet { book, size } => {
            let mut sheet = vec![0xaa; *size];
            entries.cut_sheet(book, &mut sheet).map_or_else(refused, |_| format!("sheet {}", hex(&sheet)))
        }
        Call::Round { book, words, sizes } => {
            let mut next = sizes.map(|size| vec![0xaa; size]);
            match entries.round(book, words.each_ref().map(|word| &word[..]), next.each_mut().map(|buffer| &mut buffer[..])) {
                Ok(Rounded::Same) => "end same".to_string(),
                Ok(Rounded::Different) => "end different".to_string(),
                Ok(Rounded::Next(lengths)) => {
                    let word = |i: usize| hex(&next[i][..lengths[i] as usize]);
                    format!("next {} {} {}", word(0), word(1), word(2))
                }
                Err(refusal) => refused(refusal),
            }
        }
        Call::Least { book, word, size, offset } => placed("least", *size, *offset, |buffer| entries.least(book, word, buffer, *offset)),
        Call::Front { book, word, piece, size, offset } => {
            placed("front", *size, *offset, |buffer| entries.front(book, word, piece, buffer, *offset))
        }
        Call::Held { book, operations } => told(&Held(entries), book, operations),
    }
}

fn printed(entries: &dyn Entries, input: &[u8]) -> String {
    let mut output = vec![0; entries.output_size()];
    let length = entries.program(input, &mut output).expect("room enough");
    String::from_utf8(output[..length].to_vec()).expect("text")
}

#[test]
fn recorded_calls() {
    for recorded in vectors::calls() {
        assert_eq!(answer(&chosen(), &recorded.call), recorded.answer, "{}", recorded.line);
    }
}

/// The executed cases of one line form, of which there are more than `least`.
fn executed(form: &str, least: usize) {
    let cases: Vec<_> = vectors::executed().into_iter().filter(|case| case.line.split(' ').next() == Some(form)).collect();
    assert!(cases.len() > least, "{} lines", cases.len());
    for case in cases {
        assert_eq!(answer(&chosen(), &vectors::call(&case.line)), case.answer, "{}", case.line);
    }
}

#[test]
fn executed_changes_of_held_books() {
    executed("held", 200);
}

#[test]
fn executed_fronts() {
    executed("front", 100);
}

#[test]
fn recorded_inputs_of_the_program() {
    for run in vectors::runs() {
        assert_eq!(printed(&chosen(), &run.input), run.output, "{}", run.name);
    }
}

fn word(text: &str) -> Vec<u8> {
    text.bytes().map(|letter| letter - b'a').collect()
}

/// A book, its rules written as in the paper.
fn book_over(letters: u8, rules: &str) -> Vec<u8> {
    let sides = rules.split(", ").filter(|rule| !rule.is_empty()).flat_map(|rule| rule.split(" = ")).map(word).collect();
    Book::new(letters, sides).bytes()
}

/// A book over four letters.
fn book(rules: &str) -> Vec<u8> {
    book_over(4, rules)
}

/// The number of relations, and for each side the lengths of X, Y, Z and the number of pieces; or the refusal.
fn sheet(book: &[u8], size: usize) -> String {
    let mut sheet = vec![0; size];
    match chosen().cut_sheet(book, &mut sheet) {
        Ok(relations) => {
            let sides = sheet.chunks(SHEET_SIDE).take(2 * relations as usize);
            let rows: Vec<String> = sides.map(|row| row.iter().map(u8::to_string).collect::<Vec<_>>().join(" ")).collect();
            format!("{relations}: {}", rows.join(", "))
        }
        Err(refusal) => refused(refusal),
    }
}

#[test]
fn bench_cases_of_books() {
    let cases = [
        ("", "0: "),
        ("a = aa", "refused 8 0"),
        ("aa = b", "refused 8 0"),
        ("a = b", "1: 0 1 0 255, 0 1 0 255"),
        // a word may stand on several sides; pieces are counted over distinct words
        ("ab = ab", "1: 0 2 0 255, 0 2 0 255"),
        ("abdc = acbd", "refused 8 0"),
        ("abdc = cadb", "1: 1 2 1 4, 1 2 1 4"),
        ("daaa = dc", "refused 8 0"),
        // document 000, section 1
        ("abc = cba", "refused 8 0"),
        ("acba = aabc", "1: 1 2 1 4, 1 2 1 4"),
        ("acba = aabc, acba = dbbbd", "2: 1 2 1 4, 1 2 1 4, 1 2 1 4, 1 3 1 4"),
        ("aabc = aabd", "1: 3 1 0 255, 3 1 0 255"),
        // words at fault that stand on several sides, and behind sides that are repeated
        ("aa = aa", "refused 8 0"),
        ("b = aa, aa = c", "refused 8 1"),
        ("b = b, aa = b, cc = aa", "refused 8 2"),
        ("b = c, c = b, d = aa, aa = b", "refused 8 5"),
    ];
    for (rules, expected) in cases {
        assert_eq!(sheet(&book(rules), SHEET), expected, "{rules}");
        let checked = chosen().check(&book(rules)).map_or_else(refused, |relations| relations.to_string());
        assert_eq!(checked, expected.split(':').next().expect("a part"), "{rules}");
    }
}

#[test]
fn numbers_of_pieces() {
    let cases = [
        ("abcde = edcba", "1: 1 3 1 5, 1 3 1 5"),
        ("abdc = cadbe", "1: 1 2 1 4, 1 4 0 255"),
        ("caedb = abdc", "1: 1 3 1 255, 1 2 1 4"),
        ("abcdghef = efabghcd", "1: 2 4 2 4, 2 4 2 4"),
        ("abdcf = cadbg, gfabe = h", "2: 2 2 1 4, 1 3 1 5, 1 4 0 255, 0 1 0 255"),
        ("bcaaade = edcb", "1: 1 5 1 6, 1 2 1 4"),
        ("abdc = cadbe, eacfde = fbcedaf", "2: 1 2 1 4, 1 3 1 5, 1 4 1 6, 1 5 1 7"),
        // numbers below 4
        ("abdc = b", "refused 8 1"),
        ("cab = aa", "refused 8 1"),
        ("cdbea = abc", "refused 8 1"),
        ("abdc = cadb, bcd = a", "refused 8 2"),
        ("abdc = cadb, a = bcd", "refused 8 2"),
        ("abdc = cadb, eaf = ba", "refused 8 3"),
        ("abdc = cadb, abe = f", "refused 8 0"),
    ];
    for (rules, expected) in cases {
        let bytes = book_over(8, rules);
        assert_eq!(sheet(&bytes, SHEET), expected, "{rules}");
        if let Some(relations) = expected.split_once(": ").map(|(relations, _)| relations.parse::<usize>().expect("a number")) {
            let fits = 2 * relations * SHEET_SIDE;
            assert_eq!([sheet(&bytes, fits - 1), sheet(&bytes, fits)], ["refused 12 0", expected], "{rules}");
        }
    }
    let forwards: Vec<u8> = (0..64).collect();
    let backwards: Vec<u8> = (0..64).rev().collect();
    assert_eq!(sheet(&Book::new(64, vec![forwards, backwards]).bytes(), SHEET), "1: 1 62 1 64, 1 62 1 64");
    let full = vec!["1 62 1 64"; 64].join(", ");
    assert_eq!(sheet(&books::full_letter_by_letter().bytes(), SHEET), format!("32: {full}"));
}

#[test]
fn bench_cases_of_comparisons() {
    let q = "abdc = cadb";
    let cases = [
        (q, "", "", 100, "same 0"),
        (q, "a", "", 100, "different 0"),
        (q, "abd", "abd", 100, "same 1"),
        (q, "abd", "cad", 100, "different 0"),
        (q, "abdc", "cadb", 100, "same 2"),
        (q, "abdcad", "cadbad", 100, "same 2"),
        (q, "cadbadb", "abdabdc", 100, "same 3"),
        (q, "cadbadb", "abdabdc", 2, "refused 11 2"),
        (q, "cadbadb", "abdabdc", 3, "same 3"),
        ("", "a", "b", 100, "different 0"),
        ("", "ab", "ab", 100, "same 2"),
    ];
    for (rules, u, v, allowance, expected) in cases {
        assert_eq!(compared(chosen().compare(&book(rules), &word(u), &word(v), allowance)), expected, "{u} {v} under {rules}");
    }
}

/// Three ways of rinsing that may replace each other, written down in several ways.
const RINSING: [&str; 6] = [
    "abdc = cadb, cadb = bcda",
    "abdc = cadb, bcda = abdc",
    "abdc = cadb, cadb = bcda, bcda = abdc",
    "abdc = cadb, abdc = cadb, cadb = bcda, bcda = cadb",
    "abdc = abdc, abdc = cadb, cadb = bcda",
    "abdc = cadb, cadb = cadb, bcda = cadb, bcda = bcda",
];

/// The comparisons of the reference's hand-worked cases, where their derivations stand.
#[test]
fn bench_cases_where_a_word_is_shared() {
    let cases = [
        ("ab = ab", "ab", "ab", "same 1"),
        ("ab = ab", "ab", "ba", "different 0"),
        ("ad = c, c = aea", "cea", "cd", "same 2"),
        ("ad = c, c = aea", "ce", "cd", "different 2"),
        ("d = d, cac = d", "d", "d", "same 2"),
        ("d = d, cac = d", "cac", "d", "same 1"),
        ("ada = ca", "adca", "cca", "same 3"),
        ("ada = ca, ca = e", "ade", "ce", "same 3"),
        ("c = e, d = c", "e", "d", "same 1"),
        ("c = e, d = c", "ecd", "dde", "same 3"),
    ];
    for (rules, u, v, expected) in cases {
        assert_eq!(compared(chosen().compare(&book_over(5, rules), &word(u), &word(v), u32::MAX)), expected, "{u} {v} under {rules}");
    }
    let cases = [
        ("abdc", "bcda", "same 2"),
        ("abdcbdc", "cadbbdc", "same 3"),
        ("abdcbdc", "bcdcadb", "same 3"),
        ("bcdcadb", "abdcbdc", "same 3"),
        ("abdcad", "bcdaad", "same 2"),
        ("abdc", "acdb", "different 0"),
        ("abda", "cada", "different 0"),
    ];
    for rules in RINSING {
        let sides = 2 * rules.split(", ").count();
        assert_eq!(sheet(&book(rules), SHEET), format!("{}: {}", sides / 2, vec!["1 2 1 4"; sides].join(", ")));
        for (u, v, expected) in cases {
            assert_eq!(compared(chosen().compare(&book(rules), &word(u), &word(v), u32::MAX)), expected, "{u} {v} under {rules}");
        }
        for run in ["abdcbdc", "cadbbdc", "bcdabdc", "bcdcadb", "bcdbcda"] {
            let mut buffer = [0; 7];
            assert_eq!((chosen().least(&book(rules), &word(run), &mut buffer, 0), &buffer[..]), (Ok(7), &word("abdcbdc")[..]), "{run} under {rules}");
        }
    }
}

#[test]
fn bench_cases_of_least_runs() {
    let q = "abdc = cadb";
    let cases = [
        ("", "dcba", "dcba"),
        ("a = b", "bcabd", "acaad"),
        (q, "", ""),
        (q, "abdc", "abdc"),
        (q, "cadb", "abdc"),
        (q, "cadbadb", "abdabdc"),
        (q, "abdcadb", "abdabdc"),
        (q, "cadcadb", "cadabdc"),
        ("ba = bcb", "bacb", "baa"),
        ("a = bcdc", "bcdcbcdca", "aaa"),
        ("b = acdc", "bab", "acdcaacdc"),
    ];
    for (rules, run, expected) in cases {
        let mut buffer = [0; 16];
        let length = chosen().least(&book(rules), &word(run), &mut buffer, 0).expect("room enough");
        assert_eq!(buffer[..length as usize], word(expected), "{run} under {rules}");
    }
    // the house table: 31 is the last of all, 32 the first
    let pair = Book::new(64, vec![vec![31], vec![32]]).bytes();
    let mut buffer = [0; 2];
    assert_eq!((chosen().least(&pair, &[31, 32], &mut buffer, 0), buffer), (Ok(2), [32, 32]));
}

#[test]
fn bench_cases_at_the_limits() {
    let entries = chosen();
    let long = |m: usize, n: usize| [books::head(64), books::rule(&vec![0; m], &vec![1; n])].concat();
    // sides of one letter over and over are loose, but not out of range
    assert_eq!(entries.check(&long(64, 64)), Err((8, 0)));
    assert_eq!(entries.check(&long(65, 64)), Err((4, 5)));
    assert_eq!(entries.check(&long(64, 65)), Err((4, 5)));
    let mut many = books::head(64);
    for i in 0..32 {
        many.extend(books::rule(&[2 * i], &[2 * i + 1]));
    }
    assert_eq!(entries.check(&many), Ok(32));
    let place = many.len() as u64;
    many.extend(books::rule(&[0], &[1]));
    assert_eq!(entries.check(&many), Err((6, place)));
    let run = vec![0; 4_097];
    assert_eq!(entries.compare(&book("abdc = cadb"), &run[1..], &run[1..], u32::MAX), Ok(Compared::Same(4_096)));
    assert_eq!(entries.compare(&book("abdc = cadb"), &run, &run, u32::MAX), Err((9, 0)));
    assert_eq!(entries.compare(&book("abdc = cadb"), &run[1..], &run, u32::MAX), Err((9, 5_000)));
}

#[test]
fn the_example_of_the_program() {
    let input = [bytes("0100010004"), bytes("0a00020004040001030202000301"), bytes("1000030064000000040004000001030202000301")].concat();
    assert_eq!(printed(&chosen(), &input), "book 1\nsame 2\n");
}
