//! The trials. Each is a function of a source of numbers and of how many cases it makes.

use std::collections::HashMap;

use gen::books::{renamed, Renaming};
use gen::{books, damage, inputs, shared, words, Book, Chance};
use reference::pieces::{longest_tail, numbers};
use reference::{Accepted, Refusal};

use crate::entries::Compared;
use crate::trial::{Known, KnownWord, Trial, LEAST, NEXT, SHEET, SHEET_SIDE};

/// What makes books of one kind.
pub type Make = fn(&mut Chance) -> Book;

/// Kinds of books for sheets, for comparisons and rounds, and for searches over all short words and over whole classes.
pub const SHEETS: [Make; 5] = [books::of_many_numbers, books::of_many_numbers, books::of_three_parts, books::small, books::any];
pub const COMPARED: [Make; 5] = [books::any, books::few_letters, books::overlapping, books::linked, books::marked];
pub const SMALL: [Make; 2] = [books::small, small_marked];
pub const CLASSES: [Make; 4] = [books::few_letters, books::overlapping, books::linked, books::marked];
pub const RANKED: [Make; 5] = [books::any, books::few_letters, books::overlapping, books::linked, books::tangled];

/// The same with relations that share words.
pub const SHARED: [Make; 4] = [shared::any, shared::linked, shared::apart, shared::large];
pub const SHARED_SHEETS: [Make; 4] = [shared::any, shared::loose, shared::loose, shared::small];
pub const SHARED_SMALL: [Make; 1] = [shared::small];
pub const SHARED_CLASSES: [Make; 4] = [shared::any, shared::linked, shared::apart, shared::small];

/// A book that the reference accepts, with its bytes.
pub(crate) fn accepted(trial: &mut Trial, chance: &mut Chance, make: Make) -> (Book, Vec<u8>, Known) {
    loop {
        let book = make(chance);
        let bytes = book.bytes();
        let known = reference::accept(&bytes);
        if known.is_ok() {
            trial.meet_book(&bytes, &known);
            return (book, bytes, known);
        }
    }
}

/// Generated books: the check, and the sheet in buffers that just fit, are one byte short, ample or empty.
pub fn generated_books(trial: &mut Trial, chance: &mut Chance, cases: usize) {
    for _ in 0..cases {
        let book = books::any(chance);
        let bytes = book.bytes();
        let known = trial.check(&bytes);
        let fits = SHEET_SIDE * book.words.len();
        for size in [fits, fits.saturating_sub(1), fits + 1, fits + chance.below(20), 0, SHEET] {
            trial.cut_sheet(&bytes, &known, size);
        }
    }
}

/// Sheets of books whose sides are products of few pieces, of many and of none, at their longest of three with cuts anywhere or just not, or share words, in buffers of every
/// size within a side's bytes of theirs, of three bytes a side, and of a few at random. A book is accepted just where every number is at least 4, and refused at
/// the lowest side whose number is not.
pub fn sheets(trial: &mut Trial, chance: &mut Chance, kinds: &[Make], cases: usize) {
    for case in 0..cases {
        let book = kinds[case % kinds.len()](chance);
        let bytes = book.bytes();
        let known = trial.check(&bytes);
        let low = numbers(&book.words).iter().position(|&number| number < 4);
        match known {
            Ok(_) => assert_eq!(low, None, "{book:?}"),
            Err(Refusal { number: 8, place }) => assert_eq!(low, Some(place as usize), "{book:?}"),
            Err(refusal) => panic!("{refusal:?} of {book:?}"),
        }
        let fits = SHEET_SIDE * book.words.len();
        let near = fits.saturating_sub(SHEET_SIDE)..=fits + SHEET_SIDE;
        for size in near.chain([3 * book.words.len(), chance.below(SHEET), SHEET]) {
            trial.cut_sheet(&bytes, &known, size);
        }
    }
}

/// Damaged books through every entry.
pub fn damaged_books(trial: &mut Trial, chance: &mut Chance, cases: usize) {
    for _ in 0..cases {
        let book = books::any(chance);
        let bytes = damage::damaged(chance, &book.bytes());
        let known = trial.check(&bytes);
        let (mut u, v) = words::pair(chance, &book, 30);
        if chance.once_in(4) {
            u.push(book.letters);
        }
        every_entry(trial, &bytes, &known, &u, &v);
    }
}

/// The entries that take a book and more.
fn every_entry(trial: &mut Trial, bytes: &[u8], known: &Known, u: &[u8], v: &[u8]) {
    trial.cut_sheet(bytes, known, SHEET);
    let _ = trial.compare(bytes, known, u, v, u32::MAX);
    trial.round(bytes, known, [u, v, &[]], NEXT);
    if let Some(least) = trial.search_least(known, u, 100) {
        trial.least(bytes, &least, u, 40, 3);
    }
    let letter = &v[..v.len().min(1)];
    if let Some(left) = trial.search_front(known, u, letter, 100) {
        trial.front(bytes, &left, [u, letter], 40, 3);
    }
}

/// Small books and inputs of the program cut off at every byte, and with every byte changed.
pub fn every_byte(trial: &mut Trial, chance: &mut Chance, cases: usize) {
    for _ in 0..cases {
        let (book, bytes, _) = accepted(trial, chance, books::small);
        let (u, v) = words::pair(chance, &book, 12);
        let input = inputs::input(chance, &book, 3, 6);
        let cut_off = damage::truncations(&bytes).map(<[u8]>::to_vec);
        for changed in cut_off.chain(damage::changes(&bytes)) {
            let known = trial.check(&changed);
            every_entry(trial, &changed, &known, &u, &v);
        }
        for cut_off in damage::truncations(&input) {
            let told = trial.program(cut_off, 0);
            // cut off in the first comparison, its kind there: the book has ended before it, and the comparison is refused
            if inside_record(&input, bytes.len(), cut_off.len()) {
                assert_eq!(told, format!("book {}\nrefused 1 {}\n", book.relations(), bytes.len()));
            }
        }
        for changed in damage::changes(&input) {
            trial.program(&changed, 0);
        }
    }
}

/// The position is inside the record that begins at a place, behind its kind field.
fn inside_record(input: &[u8], at: usize, position: usize) -> bool {
    let length = u16::from_le_bytes([input[at], input[at + 1]]) as usize;
    (at + 4..at + 4 + length).contains(&position)
}

/// Books and inputs whose length fields say other numbers: L of each record, and m and n of each rule and comparison.
pub fn wrong_lengths(trial: &mut Trial, chance: &mut Chance, cases: usize) {
    for _ in 0..cases {
        let (book, bytes, _) = accepted(trial, chance, books::marked);
        let questions = chance.between(1, 3);
        let input = inputs::input(chance, &book, questions, 8);
        let mut at = 0;
        while at < input.len() {
            let length = u16::from_le_bytes([input[at], input[at + 1]]);
            for other in [0, 1, 2, 7, 8, 9, 255, 256, 65_535, length.wrapping_sub(1), length + 1, length + 2, length + 256] {
                let mut changed = input.clone();
                changed[at..at + 2].copy_from_slice(&other.to_le_bytes());
                trial.program(&changed, 0);
                if at < bytes.len() {
                    trial.check(&changed[..bytes.len()]).ok();
                }
            }
            for field in [at + 4, at + 5, at + 8, at + 9, at + 10, at + 11] {
                for by in [1, 2, 63, 64, 128, 255] {
                    let mut changed = input.clone();
                    if let Some(byte) = changed.get_mut(field) {
                        *byte = byte.wrapping_add(by);
                        trial.program(&changed, 0);
                    }
                }
            }
            at += 4 + length as usize;
        }
    }
}

/// Records out of place: heads and comparisons inside a book, records twice, in another order, and a 33rd rule whole and spoiled.
pub fn records_out_of_place(trial: &mut Trial, chance: &mut Chance, cases: usize) {
    let mut full = books::head(64);
    for i in 0..32 {
        full.extend(books::rule(&[2 * i], &[2 * i + 1]));
    }
    for _ in 0..cases {
        let book = books::marked(chance);
        let mut records = vec![books::head(book.letters)];
        records.extend(book.words.chunks(2).map(|pair| books::rule(&pair[0], &pair[1])));
        let strange =
            [books::head(3), inputs::question(5, &[0], &[0]), vec![0, 0, 2, 0], vec![0, 0, 0, 0], vec![0, 0, 1, 2], vec![2, 0, 2, 0, 255, 1]];
        let at = chance.below(records.len() + 1);
        match chance.below(3) {
            0 => records.insert(at, chance.pick(&strange).clone()),
            1 => records.insert(at, chance.pick(&records).clone()),
            _ => {
                let (one, other) = (chance.below(records.len()), chance.below(records.len()));
                records.swap(one, other);
            }
        }
        let bytes = records.concat();
        let known = trial.check(&bytes);
        every_entry(trial, &bytes, &known, &[0], &[0]);
        trial.program(&bytes, 0);
        let more: &Vec<u8> = chance.pick(&strange);
        let more = damage::damaged(chance, more);
        trial.check(&[&full[..], &more].concat()).ok();
    }
}

/// Comparisons of words that random exchanges join or nearly join, with the allowance ample, just enough, one short and none.
pub fn comparisons(trial: &mut Trial, chance: &mut Chance, kinds: &[Make], cases: usize, most: usize) {
    for case in 0..cases {
        let (book, bytes, known) = accepted(trial, chance, kinds[case % kinds.len()]);
        for _ in 0..4 {
            let (u, v) = words::pair(chance, &book, most);
            compare_with_allowances(trial, &bytes, &known, &u, &v);
            let (mut u, mut v) = (u, v);
            let stranger = if chance.once_in(2) { &mut u } else { &mut v };
            if !stranger.is_empty() && chance.once_in(4) {
                let at = chance.below(stranger.len());
                stranger[at] = chance.between(book.letters as usize, 255) as u8;
                let _ = trial.compare(&bytes, &known, &u, &v, u32::MAX);
            }
        }
    }
}

fn compare_with_allowances(trial: &mut Trial, bytes: &[u8], known: &Known, u: &[u8], v: &[u8]) {
    let Ok(accepted) = known else { panic!("the book is accepted") };
    if let Ok(Compared::Same(count) | Compared::Different(count)) = trial.compare(bytes, known, u, v, u32::MAX) {
        let bound = (longest_tail(&accepted.words.cuts) + 1) * u.len().min(v.len());
        assert!(count <= bound as u64, "{count} rounds, over the bound {bound}");
        for allowance in [Some(count), count.checked_sub(1), Some(0)].into_iter().flatten() {
            let _ = trial.compare(bytes, known, u, v, allowance as u32);
        }
    }
}

/// Single rounds from words and marks of all kinds, followed for some rounds, with buffers that fit, are ample, or are one byte short.
pub fn rounds(trial: &mut Trial, chance: &mut Chance, kinds: &[Make], cases: usize) {
    for case in 0..cases {
        let (book, bytes, known) = accepted(trial, chance, kinds[case % kinds.len()]);
        for _ in 0..4 {
            let [mut u, mut v, mut p] = words_and_mark(chance, &book, &known);
            for _ in 0..8 {
                let sizes = NEXT.map(|size| size + [0, 0, 7][chance.below(3)]);
                let Some(next) = trial.round(&bytes, &known, [&u, &v, &p], sizes) else { break };
                [u, v, p] = next;
                if chance.once_in(4) {
                    p = words::mark(chance, &book);
                }
            }
            let mut sizes = NEXT;
            sizes[chance.below(3)] -= 1;
            trial.round(&bytes, &known, [&u, &v, &p], sizes);
            for number in 0..3 {
                let mut strange = [u.clone(), v.clone(), p.clone()];
                strange[number].push(chance.between(book.letters as usize, 255) as u8);
                trial.round(&bytes, &known, strange.each_ref().map(|word| &word[..]), sizes);
            }
        }
    }
}

/// Words that exchanges join, or words made for one of the rows, and a mark.
fn words_and_mark(chance: &mut Chance, book: &Book, known: &Known) -> [Vec<u8>; 3] {
    if book.words.is_empty() || chance.once_in(2) {
        let (u, v) = words::pair(chance, book, 100);
        return [u, v, words::mark(chance, book)];
    }
    let Accepted { sides, words, .. } = known.as_ref().expect("accepted");
    let cuts = sides.iter().map(|side| words.cut_of(side));
    let lengths: Vec<[usize; 3]> = cuts.map(|cut| [cut.x().len(), cut.y().len(), cut.z().len()]).collect();
    words::shaped(chance, book, &lengths)
}

/// Single rounds from two words and the empty mark to the end make the comparison's answer and count.
pub fn rounds_make_comparisons(trial: &mut Trial, chance: &mut Chance, kinds: &[Make], cases: usize) {
    for case in 0..cases {
        let (book, bytes, known) = accepted(trial, chance, kinds[case % kinds.len()]);
        let (u, v) = words::pair(chance, &book, 60);
        let answer = trial.compare(&bytes, &known, &u, &v, u32::MAX);
        let (mut state, mut count) = ([u, v, Vec::new()], 0);
        while let Some(next) = trial.round(&bytes, &known, state.each_ref().map(|word| &word[..]), NEXT) {
            state = next;
            count += 1;
        }
        let same = state.iter().all(Vec::is_empty);
        assert_eq!(answer, Ok(if same { Compared::Same(count) } else { Compared::Different(count) }));
    }
}

/// Books whose families are written in another way, with more rules behind the first: rules again and turned round, rules with equal sides, and rules between
/// members that a chain of rules joins already. The words, their order and their families stay, and so do all answers but the number of relations and the sheet,
/// which has a row more for each side more.
pub fn other_ways(trial: &mut Trial, chance: &mut Chance, kinds: &[Make], cases: usize) {
    for case in 0..cases {
        let (book, bytes, known) = accepted(trial, chance, kinds[case % kinds.len()]);
        let longer = written_longer(chance, &book);
        let longer_bytes = longer.bytes();
        let longer_known = trial.check(&longer_bytes);
        let [sheet, longer_sheet] = [&known, &longer_known].map(|known| known.as_ref().expect("accepted").sheet());
        assert!(longer_sheet.starts_with(&sheet), "{book:?} {longer:?}");
        trial.cut_sheet(&longer_bytes, &longer_known, SHEET);
        for _ in 0..3 {
            let (u, v) = words::pair(chance, &book, 80);
            let answer = trial.compare(&bytes, &known, &u, &v, u32::MAX);
            assert_eq!(trial.compare(&longer_bytes, &longer_known, &u, &v, u32::MAX), answer, "{u:?} {v:?} {book:?} {longer:?}");
            let [u, v, p] = words_and_mark(chance, &book, &known);
            let next = trial.round(&bytes, &known, [&u, &v, &p], NEXT);
            assert_eq!(trial.round(&longer_bytes, &longer_known, [&u, &v, &p], NEXT), next, "{u:?} {v:?} {p:?} {book:?} {longer:?}");
            let least = trial.least_in_ample_buffer(&bytes, &u);
            assert_eq!(trial.least_in_ample_buffer(&longer_bytes, &u), least, "{u:?} {book:?} {longer:?}");
            let left = trial.front_in_ample_buffer(&bytes, [&u, &p]);
            assert_eq!(trial.front_in_ample_buffer(&longer_bytes, [&u, &p]), left, "{u:?} {p:?} {book:?} {longer:?}");
        }
    }
}

/// The book with up to four relations more, each between two sides of one family.
fn written_longer(chance: &mut Chance, book: &Book) -> Book {
    let family = shared::families(book);
    let mut longer = book.clone();
    while !book.words.is_empty() && longer.relations() < 32 && longer.relations() < book.relations() + 4 {
        let one = chance.below(family.len());
        let members: Vec<usize> = (0..family.len()).filter(|&i| family[i] == family[one]).collect();
        let other = if chance.once_in(4) { one } else { *chance.pick(&members) };
        longer.words.extend([book.words[one].clone(), book.words[other].clone()]);
    }
    longer
}

/// Books at the limits, and words at, and just over, theirs.
pub fn limits(trial: &mut Trial, chance: &mut Chance, cases: usize) {
    for number in 0..cases {
        let book = books::at_the_limits(chance, number);
        let bytes = book.bytes();
        let known = trial.check(&bytes);
        assert!(known.is_ok(), "book {number} at the limits");
        let fits = SHEET_SIDE * book.words.len();
        for size in [SHEET, fits - 1, fits, fits + 1] {
            trial.cut_sheet(&bytes, &known, size);
        }
        let mut u = words::of_sides(chance, &book, 4_096);
        while u.len() < 4_096 {
            let side: &Vec<u8> = chance.pick(&book.words);
            words::overlap(&mut u, side);
        }
        u.truncate(4_096);
        let mut v = words::exchanged(chance, &book, &u, 6, 4_096);
        let _ = trial.compare(&bytes, &known, &u, &v, 3_000);
        u.resize(4_160, 0);
        v.resize(4_160, 0);
        let p = vec![0; 65];
        trial.round(&bytes, &known, [&u, &v, &p[1..]], NEXT);
        trial.round(&bytes, &known, [&u, &v, &p], NEXT);
        trial.round(&bytes, &known, [&u, &u, &[]], NEXT);
        for over in [4_097, 4_160, 5_000, 70_000] {
            let long = vec![0; over];
            let _ = trial.compare(&bytes, &known, &long, &long, 5);
            let _ = trial.compare(&bytes, &known, &long[..4_096], &long, 5);
            trial.round(&bytes, &known, [&long, &[], &[]], NEXT);
            trial.round(&bytes, &known, [&[], &long, &[]], NEXT);
            trial.round(&bytes, &known, [&[], &[], &long], NEXT);
        }
    }
}

/// Tails put back on the longest words: the next u and v are as long as they get.
pub fn longest_next(trial: &mut Trial) {
    let book = books::most_rounds();
    let bytes = book.bytes();
    let known = trial.check(&bytes);
    let word = books::most_rounds_word(4_160);
    let next = trial.round(&bytes, &known, [&word, &word, &[]], NEXT).expect("a round is due");
    assert_eq!(next.map(|word| word.len()), [4_222, 4_222, 0]);
}

/// The most rounds that any comparison takes: `letters` times 64, up to 262,144.
pub fn most_rounds(trial: &mut Trial, letters: usize) {
    let bytes = books::most_rounds().bytes();
    let known = trial.check(&bytes);
    let word = books::most_rounds_word(letters);
    let count = 64 * letters as u64;
    assert_eq!(trial.compare(&bytes, &known, &word, &word, count as u32), Ok(Compared::Same(count)));
    assert_eq!(trial.compare(&bytes, &known, &word, &word, count as u32 - 1), Err((11, count - 1)));
}

/// Inputs of the program, whole and damaged, and its input and output at their limits.
pub fn programs(trial: &mut Trial, chance: &mut Chance, cases: usize) {
    for _ in 0..cases {
        let input = inputs::any(chance);
        let more = chance.below(3);
        trial.program(&input, more);
        if chance.once_in(20) {
            let size = trial.entries.output_size();
            trial.program_in_narrow_buffer(&input, size - 1);
            trial.program_in_narrow_buffer(&input, chance.below(size));
            trial.program_in_narrow_buffer(&input, 0);
        }
    }
}

/// Inputs of 59,999 bytes and more, and those with the most lines and the longest ones.
pub fn heavy_programs(trial: &mut Trial) {
    for size in [59_999, 60_000, 60_001, 60_002, 65_536, 100_000] {
        for byte in [0, 1, 3] {
            trial.program(&vec![byte; size], 0);
        }
    }
    let head = books::head(1);
    for question in [inputs::question(0, &[], &[]), inputs::question(0, &[], &[1]), inputs::question(9, &[0], &[]), inputs::question(0, &[0], &[0])] {
        let count = (60_000 - head.len()) / question.len();
        let mut input = [head.clone(), question.repeat(count)].concat();
        let told = trial.program(&input, 0);
        assert_eq!(told.lines().count(), 1 + count);
        input.resize(60_000, 0);
        trial.program(&input, 0);
        input.push(0);
        assert_eq!(trial.program(&input, 0), "refused 13 60000\n");
    }
}

/// All words of at most so many letters.
pub(crate) fn all_words(letters: u8, most: usize) -> Vec<Vec<u8>> {
    let mut all = vec![Vec::new()];
    let mut from = 0;
    for _ in 0..most {
        let to = all.len();
        for i in from..to {
            for letter in 0..letters {
                all.push([&all[i][..], &[letter]].concat());
            }
        }
        from = to;
    }
    all
}

/// The greatest length such that there are at most `count` words of it and below.
pub(crate) fn length_for(letters: u8, count: usize) -> usize {
    (1..).find(|&n| all_words(letters, n + 1).len() > count).expect("words grow without end")
}

/// Breadth-first search on all words of a length and below under small books, for about `count` words each.
pub fn chains(trial: &mut Trial, chance: &mut Chance, kinds: &[Make], cases: usize, count: usize) {
    for case in 0..cases {
        let (book, bytes, known) = accepted(trial, chance, kinds[case % kinds.len()]);
        all_pairs(trial, &book, &bytes, &known, length_for(book.letters, count));
    }
}

/// All books of one relation over two letters up to a length of the longer side: how many are accepted is known from document 000, Table 1
/// (which leaves out a = b). For those accepted, the sheet, and breadth-first search on all words of a length and below.
pub fn two_letters(trial: &mut Trial, most: usize, words_of: usize) {
    for (n, total) in (1..).zip([1, 0, 0, 0, 0, 0, 2, 26, 760]).take(most) {
        let mut accepted = 0;
        for book in books::of_two_letters(n) {
            let bytes = book.bytes();
            let known = trial.check(&bytes);
            if known.is_ok() {
                accepted += 1;
                trial.cut_sheet(&bytes, &known, 2 * SHEET_SIDE);
                if accepted <= 26 {
                    all_pairs(trial, &book, &bytes, &known, words_of);
                }
            }
        }
        assert_eq!(accepted, total, "books of two letters whose longer side has {n}");
    }
}

/// Two words of at most so many letters compare 'same' just where a chain joins them.
/// All pairs go through the program, so that one check of the book serves many comparisons.
fn all_pairs(trial: &mut Trial, book: &Book, bytes: &[u8], known: &Known, most: usize) {
    let all = all_words(book.letters, most);
    let classes = classes_of(book, &all);
    let bound = longest_tail(&known.as_ref().expect("accepted").words.cuts) + 1;
    let pairs: Vec<(usize, usize)> = (0..all.len()).flat_map(|i| (0..all.len()).map(move |j| (i, j))).collect();
    for part in pairs.chunks(1_800) {
        let mut input = bytes.to_vec();
        for &(i, j) in part {
            input.extend(inputs::question(u32::MAX, &all[i], &all[j]));
        }
        let mut output = vec![0; trial.entries.output_size()];
        let length = trial.entries.program(&input, &mut output).expect("room enough");
        let told = std::str::from_utf8(&output[..length]).expect("text");
        let mut lines = told.lines();
        assert_eq!(lines.next(), Some(&format!("book {}", book.relations())[..]));
        for &(i, j) in part {
            let (word, rounds) = lines.next().and_then(|line| line.split_once(' ')).expect("a line for each comparison");
            let expected = if classes[i] == classes[j] { "same" } else { "different" };
            assert_eq!(word, expected, "{:?} and {:?} under {book:?}", all[i], all[j]);
            assert!(rounds.parse::<usize>().expect("a count") <= bound * all[i].len().min(all[j].len()));
        }
        assert_eq!(lines.next(), None);
        trial.tally.calls += 1;
        trial.tally.searched += part.len() as u64;
    }
}

/// One or two relations over few letters whose sides have short shared fronts and ends.
fn small_marked(chance: &mut Chance) -> Book {
    let relations = chance.between(1, 2);
    let stock = chance.words(3, 0, 2, 1);
    books::with_own_letters(chance, 1, relations, |chance, own| [&chance.pick(&stock)[..], &[own], &chance.pick(&stock)[..]].concat())
}

/// A number for each word, the same for two of them just where a chain joins them.
fn classes_of(book: &Book, all: &[Vec<u8>]) -> Vec<usize> {
    let place: HashMap<&[u8], usize> = all.iter().enumerate().map(|(i, word)| (&word[..], i)).collect();
    let mut classes = vec![usize::MAX; all.len()];
    for i in 0..all.len() {
        if classes[i] == usize::MAX {
            let reached = reference::chains::reached(&book.words, &all[i], 1_000_000).expect("few words are reached");
            for word in &reached {
                if let Some(&j) = place.get(&word[..]) {
                    classes[j] = i;
                }
            }
        }
    }
    classes
}

/// Breadth-first search from longer words: every word reached compares 'same' with the first, both ways round, and words near it that are not reached 'different'.
pub fn classes(trial: &mut Trial, chance: &mut Chance, kinds: &[Make], cases: usize) {
    for case in 0..cases {
        let (book, bytes, known) = accepted(trial, chance, kinds[case % kinds.len()]);
        let u = words::of_sides(chance, &book, 40);
        let Some(reached) = reference::chains::reached(&book.words, &u, 300) else { continue };
        let mut sorted: Vec<&Vec<u8>> = reached.iter().collect();
        sorted.sort();
        for v in sorted.into_iter().take(40) {
            assert!(matches!(trial.compare(&bytes, &known, &u, v, u32::MAX), Ok(Compared::Same(_))), "{u:?} {v:?} {book:?}");
            assert!(matches!(trial.compare(&bytes, &known, v, &u, u32::MAX), Ok(Compared::Same(_))), "{v:?} {u:?} {book:?}");
            let mut near = v.clone();
            if let Some(letter) = (!near.is_empty()).then(|| chance.below(near.len())) {
                near[letter] = chance.below(book.letters as usize) as u8;
            }
            let same = matches!(trial.compare(&bytes, &known, &u, &near, u32::MAX), Ok(Compared::Same(_)));
            assert_eq!(same, reached.contains(&near), "{u:?} {near:?} {book:?}");
            trial.tally.searched += 3;
        }
    }
}

/// An accepted book for least words and fronts: words are made under its first names, and renamed, so that its letters lie on both sides of the house table's middle.
pub(crate) struct Ranked {
    pub book: Book,
    pub table: Renaming,
    pub bytes: Vec<u8>,
    pub known: Known,
}

impl Ranked {
    pub fn new(trial: &mut Trial, chance: &mut Chance, make: Make) -> Ranked {
        let (book, _, _) = accepted(trial, chance, make);
        Ranked::of(book, books::renaming(chance))
    }

    fn of(book: Book, table: Renaming) -> Ranked {
        let bytes = book.renamed(&table).bytes();
        let known = reference::accept(&bytes);
        assert!(known.is_ok(), "names do not matter to the check: {book:?}");
        Ranked { book, table, bytes, known }
    }
}

/// Least words by breadth-first search over whole classes, in buffers of every size near theirs, at offsets from the start to one past the end; and strangers.
pub fn least_words(trial: &mut Trial, chance: &mut Chance, kinds: &[Make], cases: usize) {
    for case in 0..cases {
        let ranked = Ranked::new(trial, chance, kinds[case % kinds.len()]);
        for _ in 0..4 {
            let mut word = renamed(&words::pair(chance, &ranked.book, 40).0, &ranked.table);
            if let Some(least) = trial.search_least(&ranked.known, &word, 300) {
                for (size, offset) in buffers_near(&least) {
                    trial.least(&ranked.bytes, &least, &word, size, offset);
                }
            }
            if !word.is_empty() && chance.once_in(4) {
                let at = chance.below(word.len());
                word[at] = chance.between(64, 255) as u8;
                trial.least(&ranked.bytes, &Err((10, at as u64)), &word, chance.below(50), chance.below(60));
            }
        }
    }
}

/// Sizes of buffers, with offsets: those that have a word's length, up to three bytes less or more, at the offsets 0, in the middle, at the end, one past it, and as far as
/// can be; and some that are longer.
pub(crate) fn buffers_near(known: &KnownWord) -> impl Iterator<Item = (usize, usize)> {
    let length = known.as_ref().map_or(0, Vec::len);
    let offsets = move |size: usize| [0, size - length.min(size), size / 2, size, size + 1, usize::MAX].map(|offset| (size, offset));
    let longer = [(1, 0), (7, 2), (40, 0), (0, 40)].map(|(before, behind)| (before + length + behind, before));
    (length.saturating_sub(3)..=length + 3).flat_map(offsets).chain(longer)
}

/// Least words of all words of a length and below under small books, for about `count` words each.
pub fn least_of_all_words(trial: &mut Trial, chance: &mut Chance, kinds: &[Make], cases: usize, count: usize) {
    for case in 0..cases {
        let ranked = Ranked::new(trial, chance, kinds[case % kinds.len()]);
        let most = length_for(ranked.book.letters, count);
        least_of_words_up_to(trial, &ranked, most);
    }
}

/// The same under books over two letters.
pub fn least_of_two_letters(trial: &mut Trial, chance: &mut Chance, most: usize, words_of: usize) {
    for ranked in ranked_of_two_letters(chance, most) {
        least_of_words_up_to(trial, &ranked, words_of);
    }
}

/// The first accepted books of one relation over two letters, up to a length of the longer side, with the letters in either order.
pub(crate) fn ranked_of_two_letters(chance: &mut Chance, most: usize) -> Vec<Ranked> {
    let mut all = Vec::new();
    for n in 1..=most {
        for book in books::of_two_letters(n).filter(|book| reference::accept(&book.bytes()).is_ok()).take(26) {
            let mut table = books::renaming(chance);
            for _ in 0..2 {
                table.swap(0, 1);
                all.push(Ranked::of(book.clone(), table));
            }
        }
    }
    all
}

/// All words of at most so many letters; those of one class have one least word, which one search finds for them all.
fn least_of_words_up_to(trial: &mut Trial, ranked: &Ranked, most: usize) {
    let sides = &ranked.known.as_ref().expect("accepted").sides;
    let mut least_of: HashMap<Vec<u8>, Vec<u8>> = HashMap::new();
    for word in all_words(ranked.book.letters, most) {
        let word = renamed(&word, &ranked.table);
        if !least_of.contains_key(&word) {
            let class = reference::chains::reached(sides, &word, 1_000_000).expect("few words are reached");
            let least = class.iter().min_by(|a, b| reference::least::order(a, b)).expect("the word itself").clone();
            least_of.extend(class.into_iter().map(|word| (word, least.clone())));
        }
        let least = least_of[&word].clone();
        let size = least.len();
        trial.least(&ranked.bytes, &Ok(least), &word, size, 0);
        trial.tally.searched += 1;
    }
}

/// Words that many exchanges join have one least word, which is the least word of itself and joined to them;
/// and two words compare 'same' just where their least words are equal.
pub fn least_of_joined_words(trial: &mut Trial, chance: &mut Chance, kinds: &[Make], cases: usize, most: usize, exchanges: usize) {
    for case in 0..cases {
        let Ranked { book, table, bytes, known } = Ranked::new(trial, chance, kinds[case % kinds.len()]);
        let u = words::linked(chance, &book, most);
        let v = words::exchanged(chance, &book, &u, exchanges, 2 * most);
        let [u, v] = [u, v].map(|word| renamed(&word, &table));
        let least = trial.least_in_ample_buffer(&bytes, &u);
        assert_eq!(trial.least_in_ample_buffer(&bytes, &v), least, "{u:?} {v:?} {book:?}");
        assert!(reference::least::order(&least, &u).is_le() && reference::least::order(&least, &v).is_le(), "{u:?} {v:?} {book:?}");
        if least.len() <= 2 * most {
            assert_eq!(trial.least_in_ample_buffer(&bytes, &least), least, "{least:?} {book:?}");
            assert!(matches!(trial.compare(&bytes, &known, &u, &least, u32::MAX), Ok(Compared::Same(_))), "{u:?} {least:?} {book:?}");
        }
        for _ in 0..4 {
            let (u, v) = words::pair(chance, &book, most);
            let [u, v] = [u, v].map(|word| renamed(&word, &table));
            let same = matches!(trial.compare(&bytes, &known, &u, &v, u32::MAX), Ok(Compared::Same(_)));
            let equal = trial.least_in_ample_buffer(&bytes, &u) == trial.least_in_ample_buffer(&bytes, &v);
            assert_eq!(same, equal, "{u:?} {v:?} {book:?}");
        }
    }
}

/// Least words at the limits: the longest of all, with just enough room and a byte less; those that depend on the last letter of the longest word;
/// words that are too long; full books.
pub fn least_at_the_limits(trial: &mut Trial, chance: &mut Chance) {
    let book = books::longest_least();
    let bytes = book.bytes();
    for n in [1, 1_000, 4_096] {
        let word = vec![books::LONGEST_LEAST_LETTER; n];
        let known = Ok(book.words[1].repeat(n));
        for (size, offset) in [(64 * n, 0), (64 * n - 1, 0), (64 * n + 5, 5), (64 * n + 5, 6), (LEAST, LEAST - 64 * n)] {
            trial.least(&bytes, &known, &word, size, offset);
        }
    }
    for over in [4_097, 5_000, 70_000] {
        trial.least(&bytes, &Err((9, 0)), &vec![255; over], 0, 1);
    }
    let bytes = books::far_sight().bytes();
    let (d, a, e) = (0, books::FAR_SIGHT_LETTER, 2);
    let long = vec![a; 4_095];
    let exchanged = [&[d][..], &[e; 4_095]].concat();
    for (last, least) in [(a, None), (e, None), (d, Some(exchanged))] {
        let word = [&long[..], &[last]].concat();
        trial.least(&bytes, &Ok(least.unwrap_or_else(|| word.clone())), &word, 4_096, 0);
    }
    for number in 0..books::AT_THE_LIMITS {
        let book = books::at_the_limits(chance, number);
        let bytes = book.bytes();
        let mut u = words::of_sides(chance, &book, 4_096);
        while u.len() < 4_000 {
            words::overlap(&mut u, chance.pick(&book.words).as_slice());
        }
        u.truncate(4_096);
        let v = words::exchanged(chance, &book, &u, 6, 4_096);
        assert_eq!(trial.least_in_ample_buffer(&bytes, &u), trial.least_in_ample_buffer(&bytes, &v), "book {number} at the limits");
    }
}
