//! Agrees with the reference on generated books, words, rounds, least words, fronts, damage, program inputs, changes of held books and tickets, and on the
//! recorded vectors.

use gen::fronts::Fronts;
use gen::stories::{Act, Change, Story};
use gen::{books, damage, inputs, shared, words, Book, Chance};
use vectors::held::{told, Answer, Holder};
use vectors::Call;

type Refused = (u32, u64);

fn ours(refusal: fast::Refusal) -> Refused {
    (refusal.number, refusal.place)
}

fn theirs(refusal: reference::Refusal) -> Refused {
    (refusal.number, refusal.place)
}

/// The book as the reference accepts it.
fn check(book: &[u8]) -> Option<reference::Accepted> {
    let expected = reference::accept(book).map_err(theirs);
    assert_eq!(fast::check(book).map_err(ours), expected.as_ref().map(|book| book.relations() as u64).map_err(|refused| *refused), "{book:?}");
    expected.ok()
}

/// The bytes of the sheet of a full book.
const SHEET: usize = 64 * fast::SHEET_SIDE;

/// The sheet in a buffer of this size. The answer, and every byte of the buffer, are as they should be.
fn sheet(book: &[u8], size: usize) {
    let mut sheets = [vec![170; size], vec![170; size]];
    let [one, two] = &mut sheets;
    assert_eq!(fast::cut_sheet(book, one).map_err(ours), reference::cut_sheet(book, two).map_err(theirs), "{book:?} {size}");
    assert_eq!(one, two, "{book:?} {size}");
}

/// True for 'same'.
fn compare(book: &[u8], accepted: &reference::Accepted, u: &[u8], v: &[u8], allowance: u32) -> bool {
    let expected = reference::compare_under(accepted, u, v, allowance).map_err(theirs);
    let answer = fast::compare(book, u, v, allowance).map_err(ours);
    assert_eq!(format!("{answer:?}"), format!("{expected:?}"), "{book:?} {u:?} {v:?}");
    matches!(expected, Ok(reference::Comparison::Same(_)))
}

/// The next u, v, p if there are.
fn round(book: &[u8], accepted: &reference::Accepted, state: [&[u8]; 3]) -> Option<[Vec<u8>; 3]> {
    let mut one = [vec![170; 4_224], vec![170; 4_224], vec![170; 64]];
    let mut two = one.clone();
    let answer = fast::round(book, state, one.each_mut().map(|buffer| &mut buffer[..])).map_err(ours);
    let expected = reference::round_under(accepted, state, two.each_mut().map(|buffer| &mut buffer[..])).map_err(theirs);
    assert_eq!(format!("{answer:?}"), format!("{expected:?}"), "{book:?} {state:?}");
    assert_eq!(one, two, "{book:?} {state:?}");
    let Ok(reference::RoundEnd::Next(lengths)) = expected else { return None };
    for (next, length) in two.iter_mut().zip(lengths) {
        next.truncate(length as usize);
    }
    Some(two)
}

/// A word that is known, or its refusal, at an offset of a buffer with so many bytes more or less than it needs. The answer, and every byte of the buffer, are as they
/// should be.
fn placed(known: &Result<Vec<u8>, Refused>, offset: usize, spare: isize, call: impl FnOnce(&mut [u8]) -> Result<u64, fast::Refusal>, told: &str) {
    let room = (offset + known.as_ref().map_or(0, Vec::len)).saturating_add_signed(spare);
    let mut one = vec![170; room];
    let mut two = one.clone();
    let expected = known.as_ref().map_err(|refused| *refused).and_then(|word| reference::entries::write_at(word, &mut two, offset).map_err(theirs));
    assert_eq!(call(&mut one).map_err(ours), expected, "{told}");
    assert_eq!(one, two, "{told}");
}

/// The least word at an offset of a buffer, if the class has few words.
fn least(book: &[u8], accepted: &reference::Accepted, word: &[u8], offset: usize, spare: isize) -> Option<Vec<u8>> {
    let least = reference::least::least_word(&accepted.sides, word, 300)?;
    placed(&Ok(least.clone()), offset, spare, |buffer| fast::least(book, word, buffer, offset), &format!("{book:?} {word:?}"));
    Some(least)
}

/// What a front leaves at an offset of a buffer, or the refusal, if the class has few words.
fn front(book: &[u8], accepted: &reference::Accepted, [word, piece]: [&[u8]; 2], offset: usize, spare: isize) -> Option<Result<Vec<u8>, Refused>> {
    let known = reference::entries::find_front(accepted, word, piece, 300).map_err(theirs).transpose()?;
    placed(&known, offset, spare, |buffer| fast::front(book, word, piece, buffer, offset), &format!("{book:?} {word:?} {piece:?}"));
    Some(known)
}

fn program(input: &[u8]) {
    let mut output = vec![0; fast::OUTPUT];
    let length = fast::program(input, &mut output).expect("room enough");
    assert_eq!(String::from_utf8_lossy(&output[..length]), String::from_utf8_lossy(&reference::program(input)));
}

/// The fast version as what loads and changes held books, proposes and posts.
struct Fast;

impl Holder for Fast {
    fn load(&self, book: &[u8], held: &mut [u8]) -> Answer {
        fast::load(book, held).map_err(ours)
    }

    fn add(&self, held: &mut [u8], record: &[u8], sheet: &mut [u8]) -> Answer {
        fast::add(held, record, sheet).map_err(ours)
    }

    fn withdraw(&self, held: &mut [u8], rule: usize, sheet: &mut [u8]) -> Answer {
        fast::withdraw(held, rule, sheet).map_err(ours)
    }

    fn propose_add(&self, held: &[u8], record: &[u8], sheet: &mut [u8], ticket: &mut [u8]) -> Answer {
        fast::propose_add(held, record, sheet, ticket).map_err(ours)
    }

    fn propose_withdraw(&self, held: &[u8], rule: usize, sheet: &mut [u8], ticket: &mut [u8]) -> Answer {
        fast::propose_withdraw(held, rule, sheet, ticket).map_err(ours)
    }

    fn post(&self, held: &mut [u8], ticket: &[u8], sheet: &mut [u8]) -> Answer {
        fast::post(held, ticket, sheet).map_err(ours)
    }
}

/// A change of what is held. The answer, and every byte of both buffers, are as they should be.
fn change(held: &mut Vec<u8>, change: &Change) -> Result<u64, Refused> {
    let (Change::Add { size, .. } | Change::Withdraw { size, .. }) = *change;
    let (mut other_held, mut sheets) = (held.clone(), [vec![170; size], vec![170; size]]);
    let [one, two] = &mut sheets;
    let (answer, expected) = match change {
        Change::Add { record, .. } => (fast::add(held, record, one), reference::add(&mut other_held, record, two)),
        Change::Withdraw { relation, .. } => (fast::withdraw(held, *relation, one), reference::withdraw(&mut other_held, *relation, two)),
    };
    let expected = expected.map_err(theirs);
    assert_eq!(answer.map_err(ours), expected, "{change:?}");
    assert_eq!((&*held, one), (&other_held, two), "{change:?}");
    assert_eq!(fast::book_of(held), reference::book_of(held), "{change:?}");
    expected
}

/// A proposal. The answer, and every byte of sheet and ticket, are as they should be; gives the ticket where there is one.
fn propose(held: &[u8], change: &Change, room: usize) -> Result<Vec<u8>, Refused> {
    let (Change::Add { size, .. } | Change::Withdraw { size, .. }) = *change;
    let (mut sheets, mut tickets) = ([vec![170; size], vec![170; size]], [vec![170; room], vec![170; room]]);
    let ([one, two], [ticket, other]) = (&mut sheets, &mut tickets);
    let (answer, expected) = match change {
        Change::Add { record, .. } => (fast::propose_add(held, record, one, ticket), reference::propose_add(held, record, two, other)),
        Change::Withdraw { relation, .. } => {
            (fast::propose_withdraw(held, *relation, one, ticket), reference::propose_withdraw(held, *relation, two, other))
        }
    };
    let expected = expected.map_err(theirs);
    assert_eq!(answer.map_err(ours), expected, "{change:?} {room}");
    assert_eq!((one, &ticket), (two, &other), "{change:?} {room}");
    expected.map(|_| ticket.clone())
}

/// A posting. The answer, and every byte of held book and sheet, are as they should be.
fn post(held: &mut Vec<u8>, ticket: &[u8], size: usize) -> Result<u64, Refused> {
    let (mut other_held, mut sheets) = (held.clone(), [vec![170; size], vec![170; size]]);
    let [one, two] = &mut sheets;
    let expected = reference::post(&mut other_held, ticket, two).map_err(theirs);
    assert_eq!(fast::post(held, ticket, one).map_err(ours), expected, "{ticket:?}");
    assert_eq!((&*held, one), (&other_held, two), "{ticket:?}");
    expected
}

#[test]
fn on_books_and_words() {
    let mut chance = Chance::new(1);
    let (mut accepted, mut same) = (0, 0);
    for case in 0..6_000 {
        let book = if case % 3 == 0 { shared::any(&mut chance) } else { books::any(&mut chance) };
        let bytes = book.bytes();
        if let Some(known) = check(&bytes) {
            accepted += 1;
            sheet(&bytes, SHEET);
            for _ in 0..4 {
                let (u, v) = words::pair(&mut chance, &book, 120);
                same += compare(&bytes, &known, &u, &v, inputs::allowance(&mut chance)) as usize;
            }
        }
    }
    assert!(accepted > 3_000, "{accepted} accepted");
    assert!(same > 3_000, "{same} same");
}

#[test]
fn on_sheets() {
    let mut chance = Chance::new(8);
    let mut met = [0; 256];
    for case in 0..5_000 {
        let kinds = [books::of_three_parts, books::of_many_numbers, books::of_many_numbers, books::of_many_numbers, shared::loose];
        let book = kinds[case % kinds.len()](&mut chance);
        let bytes = book.bytes();
        let fits = fast::SHEET_SIDE * book.words.len();
        for size in [0, 3 * book.words.len(), fits - 1, fits, fits + 1] {
            sheet(&bytes, size);
        }
        for number in check(&bytes).map_or(Vec::new(), |accepted| accepted.numbers) {
            met[number as usize] += 1;
        }
    }
    let seldom: Vec<usize> = (4..13).chain([255]).filter(|&number| met[number] < 50).collect();
    assert_eq!(seldom, [], "numbers that are hardly met");
}

#[test]
fn on_numbers_worked_out_by_hand() {
    let numbers = |words: Vec<Vec<u8>>| {
        let mut sheet = [0; SHEET];
        let relations = fast::cut_sheet(&books::Book::new(64, words).bytes(), &mut sheet).expect("accepted") as usize;
        sheet.chunks(fast::SHEET_SIDE).take(2 * relations).map(|side| side[3]).collect::<Vec<u8>>()
    };
    let words = |text: &str| text.split(' ').map(|word| word.bytes().map(|letter| letter - b'a').collect()).collect();
    assert_eq!(numbers(words("a b")), [255, 255]);
    assert_eq!(numbers(words("abdc cadb")), [4, 4]);
    assert_eq!(numbers(words("caedb abdc")), [255, 4]);
    assert_eq!(numbers(words("abcdghef efabghcd")), [4, 4]);
    assert_eq!(numbers(words("abdc cadbe eacfde fbcedaf")), [4, 5, 6, 7]);
    assert_eq!(numbers(vec![(0..64).collect(), (0..64).rev().collect()]), [64, 64]);
    assert_eq!(numbers(books::full_letter_by_letter().words), [64; 64]);
}

#[test]
fn on_rounds_with_marks() {
    let mut chance = Chance::new(2);
    let mut next = 0;
    for case in 0..3_000 {
        let book = if case % 3 == 0 { shared::any(&mut chance) } else { books::any(&mut chance) };
        let bytes = book.bytes();
        let Some(accepted) = check(&bytes) else { continue };
        for _ in 0..4 {
            let (u, v) = words::pair(&mut chance, &book, 100);
            let mut state = [u, v, words::mark(&mut chance, &book)];
            for _ in 0..6 {
                let Some(after) = round(&bytes, &accepted, state.each_ref().map(|word| &word[..])) else { break };
                next += 1;
                state = after;
                if chance.once_in(4) {
                    state[2] = words::mark(&mut chance, &book);
                }
            }
        }
    }
    assert!(next > 5_000, "{next} rounds went on");
}

#[test]
fn on_least_words() {
    let mut chance = Chance::new(6);
    let kinds = [books::any, books::few_letters, books::overlapping, books::linked, books::tangled, books::small, shared::any, shared::linked];
    let (mut longer, mut shorter, mut kept) = (0, 0, 0);
    for case in 0..6_000 {
        let book = kinds[case % kinds.len()](&mut chance);
        let table = books::renaming(&mut chance);
        let bytes = book.renamed(&table).bytes();
        let Some(accepted) = check(&bytes) else { continue };
        for _ in 0..4 {
            let word = books::renamed(&words::pair(&mut chance, &book, 40).0, &table);
            let (offset, spare) = (chance.below(9), chance.below(5) as isize - 1);
            let Some(least) = least(&bytes, &accepted, &word, offset, spare) else { continue };
            longer += (least.len() > word.len()) as usize;
            shorter += (least.len() < word.len()) as usize;
            kept += (least == word) as usize;
        }
    }
    assert!(longer > 1_000 && shorter > 1_000 && kept > 1_000, "{longer} longer, {shorter} shorter, {kept} kept");
}

#[test]
fn on_refused_least_words() {
    let refused = |book: &[u8], word: &[u8], room: usize, offset: usize| {
        let (mut one, mut two) = (vec![170; room], vec![170; room]);
        let expected = reference::least(book, word, &mut two, offset).map_err(theirs);
        assert_eq!(fast::least(book, word, &mut one, offset).map_err(ours), expected, "{book:?} {word:?} {room} {offset}");
        assert_eq!(one, two);
        expected.is_err()
    };
    let mut chance = Chance::new(7);
    for _ in 0..2_000 {
        let book = books::any(&mut chance);
        let bytes = damage::damaged(&mut chance, &book.bytes());
        refused(&bytes, &[book.letters], 3, 4);
    }
    let q = books::Book::new(4, vec![vec![0, 1, 3, 2], vec![2, 0, 3, 1]]).bytes();
    assert!(refused(&q, &[0; 4_097], 0, 1) && refused(&q, &[0, 4], 0, 1) && refused(&q, &[2, 0, 3, 1], 4, 1) && refused(&q, &[], 4, 5));
    assert!(!refused(&q, &[], 4, 4) && !refused(&q, &[0; 4_096], 4_096, 0));
}

#[test]
fn on_fronts() {
    let mut chance = Chance::new(11);
    let kinds =
        [books::any, books::few_letters, books::overlapping, books::linked, books::tangled, books::small, shared::any, shared::linked, shared::apart];
    let (mut left, mut by_exchange, mut refused) = (0, 0, [0; 20]);
    for case in 0..6_000 {
        let book = kinds[case % kinds.len()](&mut chance);
        let table = books::renaming(&mut chance);
        let bytes = book.renamed(&table).bytes();
        let Some(accepted) = check(&bytes) else { continue };
        let fronts = Fronts::new(&book);
        for _ in 0..4 {
            let piece = fronts.any(&mut chance);
            let word = fronts.word(&mut chance, &piece, 30);
            let mut given = [word, piece].map(|word| books::renamed(&word, &table));
            if chance.once_in(10) {
                let strange = &mut given[chance.below(2)];
                *strange = words::strange(&mut chance, strange, 64);
            }
            let (offset, spare) = (chance.below(9), chance.below(5) as isize - 1);
            match front(&bytes, &accepted, given.each_ref().map(|word| &word[..]), offset, spare) {
                Some(Ok(rest)) if spare < 0 => refused[14] += (offset > 0 || !rest.is_empty()) as usize,
                Some(Ok(_)) => {
                    left += 1;
                    by_exchange += !given[0].starts_with(&given[1]) as usize;
                }
                Some(Err((number, _))) => refused[number as usize] += 1,
                None => {}
            }
        }
    }
    assert!(left > 3_000 && by_exchange > 600, "{left} left, {by_exchange} by way of exchanges");
    let seldom: Vec<usize> = [9, 10, 14, 18, 19].into_iter().filter(|&number| refused[number] < 200).collect();
    assert_eq!(seldom, [], "refusals that are hardly met: {refused:?}");
}

#[test]
fn on_refused_fronts() {
    let answer = |book: &[u8], word: &[u8], piece: &[u8], room: usize, offset: usize| {
        let (mut one, mut two) = (vec![170; room], vec![170; room]);
        let expected = reference::front(book, word, piece, &mut two, offset).map_err(theirs);
        assert_eq!(fast::front(book, word, piece, &mut one, offset).map_err(ours), expected, "{book:?} {word:?} {piece:?} {room} {offset}");
        assert_eq!(one, two);
        expected
    };
    let mut chance = Chance::new(13);
    for _ in 0..2_000 {
        let book = books::any(&mut chance);
        let bytes = damage::damaged(&mut chance, &book.bytes());
        let _ = answer(&bytes, &[0], &[book.letters; 65], 3, 4);
    }
    let q = books::Book::new(4, vec![vec![0, 1, 3, 2], vec![2, 0, 3, 1]]).bytes();
    assert_eq!(answer(&q, &[4; 4_097], &[4; 65], 0, 1), Err((9, 0)));
    assert_eq!(answer(&q, &[0, 4], &[4; 65], 0, 1), Err((10, 1)));
    assert_eq!(answer(&q, &[0; 4_096], &[4; 65], 0, 1), Err((9, 10_000)));
    assert_eq!(answer(&q, &[2], &[0, 4, 1], 0, 1), Err((10, 10_001)));
    assert_eq!(answer(&q, &[2], &[0; 64], 0, 1), Err((18, 0)));
    assert_eq!(answer(&q, &[2], &[0, 1], 0, 1), Err((18, 0)));
    assert_eq!(answer(&q, &[2], &[0], 0, 1), Err((19, 0)));
    assert_eq!(answer(&q, &[2], &[2], 0, 1), Err((14, 0)));
    assert_eq!(answer(&q, &[0, 1, 3, 2], &[2], 2, 0), Err((14, 0)));
    assert_eq!(answer(&q, &[0, 1, 3, 2], &[2], 3, 0), Ok(3));
    assert_eq!(answer(&q, &[0; 4_096], &[0], 4_095, 0), Ok(4_095));
}

#[test]
fn on_every_piece_and_all_short_words() {
    let mut chance = Chance::new(12);
    let mut met = [0; 20];
    for case in 0..60 {
        let book = [books::small, shared::small][case % 2](&mut chance);
        let bytes = book.bytes();
        let Some(accepted) = check(&bytes) else { continue };
        let mut words = vec![Vec::new()];
        for at in 0.. {
            if words.len() > 200 {
                break;
            }
            let word: Vec<u8> = Vec::clone(&words[at]);
            words.extend((0..book.letters).map(|letter| [&word[..], &[letter]].concat()));
        }
        for piece in Fronts::new(&book).pieces {
            for word in &words {
                let known = front(&bytes, &accepted, [word, &piece], 0, 0).expect("few words are reached");
                met[known.map_or_else(|(number, _)| number as usize, |_| 0)] += 1;
            }
        }
    }
    assert!(met[0] > 2_000 && met[19] > 2_000, "{met:?}");
}

#[test]
fn on_damaged_books() {
    let mut chance = Chance::new(3);
    for _ in 0..8_000 {
        let bytes = books::any(&mut chance).bytes();
        check(&damage::damaged(&mut chance, &bytes));
    }
    for _ in 0..20 {
        let bytes = books::small(&mut chance).bytes();
        for cut in damage::truncations(&bytes) {
            check(cut);
        }
        for changed in damage::changes(&bytes) {
            check(&changed);
        }
    }
}

#[test]
fn at_the_limits() {
    let mut chance = Chance::new(4);
    for number in 0..books::AT_THE_LIMITS {
        let book = books::at_the_limits(&mut chance, number);
        let bytes = book.bytes();
        let accepted = check(&bytes).unwrap_or_else(|| panic!("number {number}"));
        sheet(&bytes, SHEET);
        let u = words::of_sides(&mut chance, &book, 1_000);
        let v = words::exchanged(&mut chance, &book, &u, 10, 1_000);
        compare(&bytes, &accepted, &u, &v, u32::MAX);
    }
    let word = books::most_rounds_word(4_096);
    let most = fast::compare(&books::most_rounds().bytes(), &word, &word, u32::MAX);
    assert_eq!(most, Ok(fast::Comparison::Same(262_144)));
    assert_eq!(reference::compare(&books::most_rounds().bytes(), &word[..64], &word[..64], u32::MAX), Ok(reference::Comparison::Same(4_096)));
}

#[test]
fn on_program_inputs() {
    let mut chance = Chance::new(5);
    for _ in 0..4_000 {
        program(&inputs::any(&mut chance));
    }
    for size in [59_999, 60_000, 60_001, 70_000] {
        program(&vec![3; size]);
    }
}

#[test]
fn on_held_books() {
    let mut chance = Chance::new(9);
    let (mut added, mut withdrawn, mut refused) = (0, 0, [0; 16]);
    for case in 0..120 {
        let kinds = [books::marked, books::of_many_numbers, shared::any, shared::linked, shared::large];
        let book = kinds[case % kinds.len()](&mut chance);
        if reference::check(&book.bytes()).is_err() {
            continue;
        }
        let mut story = Story::new(&mut chance, &book);
        let mut held = vec![170; fast::HELD + chance.below(3)];
        fast::load(&story.book.bytes(), &mut held).expect("words of an accepted book");
        for _ in 0..100 {
            let read = reference::book::read(fast::book_of(&held)).expect("what is held is a book");
            let next = story.change(&mut chance, &Book::new(read.letters, read.sides));
            match (change(&mut held, &next), next) {
                (Ok(_), Change::Add { .. }) => added += 1,
                (Ok(_), Change::Withdraw { .. }) => withdrawn += 1,
                (Err((number, _)), _) => refused[number as usize] += 1,
            }
        }
    }
    assert!(added > 1_000 && withdrawn > 1_000, "{added} added, {withdrawn} withdrawn");
    let seldom: Vec<usize> = [1, 2, 3, 4, 5, 6, 8, 12, 15].into_iter().filter(|&number| refused[number] < 50).collect();
    assert_eq!(seldom, [], "refusals that are hardly met: {refused:?}");
}

#[test]
fn on_tickets() {
    let mut chance = Chance::new(10);
    let (mut proposed, mut posted, mut refused) = (0, 0, [0; 18]);
    for case in 0..60 {
        let kinds = [books::marked, books::of_many_numbers, shared::any, shared::linked, shared::large];
        let book = kinds[case % kinds.len()](&mut chance);
        if reference::check(&book.bytes()).is_err() {
            continue;
        }
        let mut story = Story::new(&mut chance, &book);
        let (mut held, mut tickets) = (vec![170; fast::HELD], Vec::new());
        fast::load(&story.book.bytes(), &mut held).expect("words of an accepted book");
        held[2..4].copy_from_slice(&chance.pick(&[0u16, 250, 59_990]).to_le_bytes());
        for _ in 0..100 {
            let read = reference::book::read(fast::book_of(&held)).expect("what is held is a book");
            let count = u16::from_le_bytes([held[2], held[3]]);
            let answer = match story.act(&mut chance, &Book::new(read.letters, read.sides), count, &tickets, &[]) {
                Act::Make(next) => change(&mut held, &next).map(drop),
                Act::Post { ticket, size } => post(&mut held, &ticket, size).map(|_| posted += 1),
                Act::Propose { change, room } => propose(&held, &change, room).map(|ticket| {
                    proposed += 1;
                    tickets.push(ticket);
                }),
                Act::Load => Ok(()),
            };
            if let Err((number, _)) = answer {
                refused[number as usize] += 1;
            }
        }
    }
    assert!(proposed > 200 && posted > 200, "{proposed} proposed, {posted} posted");
    let seldom: Vec<usize> = [1, 2, 3, 4, 5, 6, 8, 12, 15, 16, 17].into_iter().filter(|&number| refused[number] < 20).collect();
    assert_eq!(seldom, [], "refusals that are hardly met: {refused:?}");
}

#[test]
fn on_recorded_vectors() {
    for run in vectors::runs() {
        program(&run.input);
    }
    for recorded in vectors::calls() {
        let book = recorded.call.book();
        if let Call::Held { operations, .. } = &recorded.call {
            assert_eq!(told(&Fast, book, operations), recorded.answer, "{}", recorded.line);
        }
        sheet(book, SHEET + 8);
        let Some(accepted) = check(book) else { continue };
        match &recorded.call {
            Call::Compare { u, v, allowance, .. } => {
                assert_eq!(compare(book, &accepted, u, v, *allowance), recorded.answer.starts_with("same"), "{}", recorded.line)
            }
            Call::Round { words, .. } => drop(round(book, &accepted, words.each_ref().map(|word| &word[..]))),
            Call::Least { word, size, offset, .. } => {
                let answer = vectors::placed("least", *size, *offset, |buffer| fast::least(book, word, buffer, *offset).map_err(ours));
                assert_eq!(answer, recorded.answer, "{}", recorded.line)
            }
            Call::Front { word, piece, size, offset, .. } => {
                let answer = vectors::placed("front", *size, *offset, |buffer| fast::front(book, word, piece, buffer, *offset).map_err(ours));
                assert_eq!(answer, recorded.answer, "{}", recorded.line)
            }
            Call::Sheet { size, .. } => sheet(book, *size),
            Call::Held { .. } => {}
        }
    }
}
