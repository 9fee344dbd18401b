//! The trials of held books. Each is a function of a source of numbers and of how many cases it makes.

use gen::shared::Shape;
use gen::stories::{self, Change, Story};
use gen::{books, damage, shared, Book, Chance};
use reference::held::BOOK;

use crate::entries::Compared;
use crate::held::{present, HELD, PREFIX};
use crate::tally::is_bridge;
use crate::trial::{Trial, SHEET};
use crate::trials::{accepted, Make};

/// Kinds of books whose words a story has: of all kinds, at the limits, and small ones.
pub const STORIES: [Make; 8] =
    [books::marked, books::of_many_numbers, books::few_letters, books::any, shared::any, shared::linked, shared::apart, shared::large];
pub const FULL: [Make; 4] = [
    |chance| books::full_random(chance, 64),
    books::full_shared_fronts,
    |_| books::full_letter_by_letter(),
    |chance| shared::random_family(chance, 64, Shape::Chain),
];
pub const SMALL: [Make; 3] = [books::small, shared::small, books::marked];

/// Loadings of books of all kinds, of damaged ones, with a spoiled record, and with more than 32 relations, into buffers of the sizes near the least, and of few bytes.
pub fn loadings(trial: &mut Trial, chance: &mut Chance, cases: usize) {
    for _ in 0..cases {
        let book = books::any(chance);
        let bytes = match chance.below(6) {
            0 => damage::damaged(chance, &book.bytes()),
            1 => spoiled_behind(chance, &book),
            2 => spoiled_behind(chance, &Book::new(64, (0..64).map(|letter| vec![letter]).collect())),
            _ => book.bytes(),
        };
        let size = *chance.pick(&[0, 3, 4, 5, HELD - 1, HELD, HELD, HELD, HELD + 1, HELD + 90]);
        let _ = trial.load(&bytes, size);
    }
}

/// The bytes of a book, and behind them a record that is spoiled, or one that is not.
fn spoiled_behind(chance: &mut Chance, book: &Book) -> Vec<u8> {
    let good = books::rule(&[0], &[0]);
    let record = if chance.once_in(4) { good } else { stories::spoiled_record(chance, &good, book.letters) };
    [book.bytes(), record].concat()
}

/// Stories of held books: a loading, and so many changes. A 33rd relation is refused by 6 as soon as there are 32. A withdrawal is never refused by 8. Where it takes the
/// only bridge between two members of a family, they compare 'same' under the old book and 'different' under the new one.
pub fn held(trial: &mut Trial, chance: &mut Chance, kinds: &[Make], cases: usize, changes: usize) {
    for case in 0..cases {
        let (book, _, _) = accepted(trial, chance, kinds[case % kinds.len()]);
        let mut story = Story::new(chance, &book);
        let size = HELD + *chance.pick(&[0, 0, 1, 50]);
        let (loaded, mut held) = trial.load(&story.book.bytes(), size);
        assert_eq!(loaded, Ok(story.book.relations() as u64), "{:?}", story.book);
        for _ in 0..changes {
            let before = present(&held);
            let change = story.change(chance, &before);
            match (&change, trial.change(&mut held, &change)) {
                (Change::Add { .. }, Ok(32)) => {
                    let record = story.good_record(chance, &before);
                    let result = trial.change(&mut held, &Change::Add { record, size: chance.below(300) });
                    assert_eq!(result, Err((6, reference::book_of(&held).len() as u64)), "{before:?}");
                }
                (Change::Withdraw { relation, .. }, Ok(_)) if is_bridge(&before.words, *relation) => {
                    parted(trial, &before, *relation, &present(&held));
                }
                (Change::Withdraw { .. }, Err((8, _))) => panic!("a withdrawal is refused by 8: {before:?}"),
                _ => {}
            }
        }
    }
}

/// The two words that a withdrawn bridge joined.
fn parted(trial: &mut Trial, before: &Book, relation: usize, after: &Book) {
    let (u, v) = (&before.words[2 * relation], &before.words[2 * relation + 1]);
    for (book, joined) in [(before, true), (after, false)] {
        let bytes = book.bytes();
        let known = reference::accept(&bytes);
        let same = matches!(trial.compare(&bytes, &known, u, v, u32::MAX), Ok(Compared::Same(_)));
        assert_eq!(same, joined, "{u:?} {v:?} {book:?}");
    }
}

/// Buffers that no loading and no change leaves so: every byte of a held book and a few behind it changed, and others at random; cut off and longer.
pub fn altered(trial: &mut Trial, chance: &mut Chance, cases: usize, random: usize) {
    for case in 0..cases {
        let (book, bytes, _) = accepted(trial, chance, SMALL[case % SMALL.len()]);
        let story = Story::new(chance, &book);
        let (_, held) = trial.load(&bytes, HELD);
        let good = story.good_record(chance, &book);
        let used = PREFIX + bytes.len();
        if bytes.len() < 60 {
            for front in damage::changes(&held[..used + 3]) {
                changes_of(trial, chance, [&front, &held[used + 3..]].concat(), &good);
            }
        }
        for _ in 0..random {
            let altered = alteration(chance, &book, &held);
            changes_of(trial, chance, altered, &good);
        }
        for size in (0..=12).chain([used - 1, used, used + 1]).chain(HELD - 5..HELD + 5) {
            let mut sized = held.clone();
            sized.resize(size, 170);
            changes_of(trial, chance, sized, &good);
        }
    }
}

/// The book of a buffer, an addition to it, and withdrawals of its first relation and of another.
fn changes_of(trial: &mut Trial, chance: &mut Chance, held: Vec<u8>, record: &[u8]) {
    trial.book_of(&held);
    let size = if chance.once_in(8) { chance.below(40) } else { SHEET };
    let changes = [
        Change::Add { record: record.to_vec(), size },
        Change::Withdraw { relation: 0, size },
        Change::Withdraw { relation: chance.between(1, 4), size },
    ];
    for change in changes {
        let _ = trial.change(&mut held.clone(), &change);
    }
}

/// A buffer with other bytes than a loading left there: some at random, another length, a count near the most, another book, which is damaged or perhaps loose, all
/// at random; or a longer buffer, with a length that goes far behind the book.
fn alteration(chance: &mut Chance, book: &Book, held: &[u8]) -> Vec<u8> {
    let mut altered = held.to_vec();
    let used = PREFIX + book.bytes().len();
    match chance.below(8) {
        0 => {
            for _ in 0..chance.between(1, 4) {
                let (at, any) = (chance.below(used + 3), chance.number() as u8);
                altered[at] = *chance.pick(&[0, 1, 2, 3, 4, 63, 64, 65, 255, any, any]);
            }
        }
        1 => {
            let length = (used - PREFIX) as u16;
            let other = *chance.pick(&[0, 1, 3, 4, 5, length - 1, length + 1, length + 4, BOOK as u16 - 1, BOOK as u16, BOOK as u16 + 1, u16::MAX]);
            altered[..2].copy_from_slice(&other.to_le_bytes());
        }
        2 => altered[2..4].copy_from_slice(&chance.pick(&[1u16, 255, 256, 59_999, 60_000, 60_001, u16::MAX]).to_le_bytes()),
        3 => altered = holding(&damage::damaged(chance, &book.bytes())),
        4 | 5 => altered = holding(&[books::any, shared::loose, books::small][chance.below(3)](chance).bytes()),
        6 => {
            let most = *chance.pick(&[8, 40, HELD]);
            altered[..most].fill_with(|| chance.number() as u8);
        }
        _ => {
            let relations = book.bytes()[5..].repeat(40);
            altered = holding(&[&books::head(book.letters)[..], &relations].concat());
            altered.resize(*chance.pick(&[HELD, 5_000, 70_000]), 0);
            let length = *chance.pick(&[relations.len() as u16 + 5, 5_000, u16::MAX]);
            altered[..2].copy_from_slice(&length.to_le_bytes());
        }
    }
    altered
}

/// A buffer that holds these bytes after a hundred changes, whether they are a book or not.
fn holding(bytes: &[u8]) -> Vec<u8> {
    let mut held = [&(bytes.len() as u16).to_le_bytes()[..], &[100, 0], bytes].concat();
    held.resize(held.len().max(HELD), 85);
    held
}

/// A book of the most bytes in the least buffer, under lengths that go past its end: the book ends with the buffer.
pub fn altered_at_the_limits(trial: &mut Trial) {
    let bytes = books::full_letter_by_letter().bytes();
    let (loaded, held) = trial.load(&bytes, HELD);
    assert_eq!((loaded, bytes.len()), (Ok(32), BOOK));
    for length in [BOOK, BOOK + 1, u16::MAX as usize] {
        let mut altered = held.clone();
        altered[..2].copy_from_slice(&(length as u16).to_le_bytes());
        let add = |record: &[u8]| Change::Add { record: record.to_vec(), size: SHEET };
        let last = &bytes[BOOK - 134..];
        assert_eq!(trial.change(&mut altered, &add(last)), Err((6, BOOK as u64)));
        assert_eq!(trial.change(&mut altered, &Change::Withdraw { relation: 31, size: SHEET }), Ok(31));
        assert_eq!(trial.change(&mut altered, &add(last)), Ok(32));
        assert_eq!(altered[4..], held[4..]);
        altered.push(0);
        altered[..2].copy_from_slice(&(length as u16).to_le_bytes());
        let behind = trial.change(&mut altered, &Change::Withdraw { relation: 0, size: SHEET });
        assert_eq!(behind, if length == BOOK { Ok(31) } else { Err((1, BOOK as u64)) });
    }
}
