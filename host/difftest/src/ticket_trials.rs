//! The trials of tickets. Each is a function of a source of numbers and of how many cases it makes.

use gen::stories::{self, Act, Change, Story};
use gen::{books, damage, tickets, Chance};
use reference::held::{changes_of, COUNTED};

use crate::entries::Refused;
use crate::held::{present, HELD};
use crate::held_trials::SMALL;
use crate::trial::{Trial, SHEET};
use crate::trials::{accepted, Make};

/// A story as it is told.
struct Told {
    held: Vec<u8>,
    /// the tickets that were given, and how many of them before the last loading
    tickets: Vec<Vec<u8>>,
    before: usize,
}

/// Stories of so many acts: changes that are made, proposals, postings of good tickets, stale ones, altered ones, made-up ones and those of the story before, and new
/// loadings. A ticket that is posted at once gives what its change gives. Every change that is accepted makes all tickets from the loading on stale.
pub fn posted(trial: &mut Trial, chance: &mut Chance, kinds: &[Make], cases: usize, acts: usize) {
    let mut others = Vec::new();
    for case in 0..cases {
        let (book, _, _) = accepted(trial, chance, kinds[case % kinds.len()]);
        let mut story = Story::new(chance, &book);
        let (loaded, held) = trial.load(&story.book.bytes(), HELD + *chance.pick(&[0, 0, 1, 50]));
        assert_eq!(loaded, Ok(story.book.relations() as u64), "{:?}", story.book);
        let mut told = Told { held, tickets: Vec::new(), before: 0 };
        for _ in 0..acts {
            let (book, count) = (present(&told.held), changes_of(&told.held) as u16);
            let act = story.act(chance, &book, count, &told.tickets, &others);
            tell(trial, &mut told, &act);
        }
        others = told.tickets;
    }
}

/// One act of a story.
fn tell(trial: &mut Trial, told: &mut Told, act: &Act) {
    let result = match act {
        Act::Make(change) => trial.change(&mut told.held, change),
        Act::Post { ticket, size } => trial.post(&mut told.held, ticket, *size),
        Act::Propose { change, room } => return proposed(trial, told, change, *room),
        Act::Load => {
            let book = reference::book_of(&told.held).to_vec();
            let (loaded, held) = trial.load(&book, told.held.len());
            assert!(loaded.is_ok(), "a held book loads");
            (told.held, told.before) = (held, told.tickets.len());
            return;
        }
    };
    if result.is_ok() {
        for ticket in told.tickets[told.before..].iter().rev().take(3) {
            assert_eq!(trial.post(&mut told.held, ticket, SHEET), Err((16, 0)), "a ticket from before a change");
        }
    }
}

/// A proposal, whose ticket is kept where there is one. Posted at once it gives what the change gives.
fn proposed(trial: &mut Trial, told: &mut Told, change: &Change, room: usize) {
    let (result, ticket) = trial.propose(&told.held, change, room);
    if let Err((12, 2)) = result {
        assert!(room < tickets::ROOM, "a ticket of {room} bytes");
        return;
    }
    let (mut made, mut posted) = (told.held.clone(), told.held.clone());
    assert_eq!(trial.change(&mut made, change), result, "a direct change is a proposal posted on the spot");
    if result.is_ok() {
        let (Change::Add { size, .. } | Change::Withdraw { size, .. }) = *change;
        assert_eq!((trial.post(&mut posted, &ticket, size), &posted), (result, &made), "a posting with no change between");
        told.tickets.push(ticket);
    }
}

/// Good tickets that were altered: every byte changed, to each kind of value, cut off at every byte, and longer.
pub fn altered(trial: &mut Trial, chance: &mut Chance, cases: usize) {
    for case in 0..cases {
        let (book, bytes, _) = accepted(trial, chance, SMALL[case % SMALL.len()]);
        let (_, mut held) = trial.load(&bytes, HELD);
        let count = *chance.pick(&[0, 1, 255, 256, 300, COUNTED as u16 - 1]);
        held[2..4].copy_from_slice(&count.to_le_bytes());
        let good = Story::new(chance, &book).good_record(chance, &book);
        let last = book.relations().saturating_sub(1);
        let changes = [
            Change::Add { record: good, size: SHEET },
            Change::Withdraw { relation: 0, size: SHEET },
            Change::Withdraw { relation: last, size: SHEET },
        ];
        for change in changes {
            let (result, ticket) = trial.propose(&held, &change, tickets::ROOM);
            if result.is_ok() {
                every_byte(trial, &held, &ticket);
            }
        }
    }
}

/// A ticket with every byte changed, cut off at every byte, and longer.
fn every_byte(trial: &mut Trial, held: &[u8], ticket: &[u8]) {
    let longer = [0, 1, 170, 255].map(|byte| [ticket, &[byte; 70]].concat());
    let cut = damage::truncations(ticket).map(<[u8]>::to_vec);
    for other in damage::changes(ticket).chain(cut).chain(longer) {
        let _ = trial.post(&mut held.to_vec(), &other, SHEET);
    }
}

/// Made-up tickets, posted to held books with any count, to buffers that are too small, and with sheets near their size.
pub fn made_up(trial: &mut Trial, chance: &mut Chance, cases: usize, posts: usize) {
    for case in 0..cases {
        let (book, bytes, _) = accepted(trial, chance, SMALL[case % SMALL.len()]);
        let story = Story::new(chance, &book);
        let (_, loaded) = trial.load(&bytes, HELD);
        for _ in 0..posts {
            let mut held = loaded.clone();
            let any = chance.number() as u16;
            let count = *chance.pick(&[0, 0, 1, 255, 256, 59_999, 60_000, 60_001, u16::MAX, any]);
            held[2..4].copy_from_slice(&count.to_le_bytes());
            if chance.once_in(6) {
                held.truncate(*chance.pick(&[0, 1, 2, 3, 4, 5, 100, HELD - 1]));
            }
            let good = story.good_record(chance, &book);
            let ticket = tickets::made_up(chance, changes_of(&held) as u16, &good, book.letters);
            let enough = 8 * (book.relations() + 1);
            let size = *chance.pick(&[SHEET, SHEET, SHEET, enough, enough - 1, enough - 8, enough.saturating_sub(9), enough.saturating_sub(16), 0]);
            let _ = trial.post(&mut held, &ticket, size);
        }
    }
}

/// Counts of a held book near the most, and past it.
const COUNTS: [u16; 5] = [59_998, 59_999, 60_000, 60_001, u16::MAX];

/// Held books whose count was altered to be near the most: changes, proposals and postings, good, loose, absent and narrow, of tickets with the count of the book and with
/// others. Every direct change has the refusal of its proposal, and then 17; a posting has 16 first, and then 17.
pub fn worn(trial: &mut Trial, chance: &mut Chance, cases: usize) {
    for case in 0..cases {
        let (book, bytes, _) = accepted(trial, chance, SMALL[case % SMALL.len()]);
        let story = Story::new(chance, &book);
        let (_, loaded) = trial.load(&bytes, HELD);
        for count in COUNTS {
            let mut held = loaded.clone();
            held[2..4].copy_from_slice(&count.to_le_bytes());
            let good = story.good_record(chance, &book);
            let loose = stories::loose_record(chance, &book);
            let spoiled = stories::spoiled_record(chance, &good, book.letters);
            let changes = [
                Change::Add { record: good.clone(), size: SHEET },
                Change::Add { record: good, size: 8 * book.relations() + 7 },
                Change::Add { record: loose, size: SHEET },
                Change::Add { record: spoiled, size: SHEET },
                Change::Withdraw { relation: 0, size: SHEET },
                Change::Withdraw { relation: book.relations(), size: SHEET },
            ];
            for change in changes {
                near_the_most(trial, &held, count, &change);
            }
        }
    }
}

/// A change of a book with this count: proposed, made, and posted by tickets of this count and of others.
fn near_the_most(trial: &mut Trial, held: &[u8], count: u16, change: &Change) {
    let is_worn = count as usize >= COUNTED;
    let (proposed, _) = trial.propose(held, change, tickets::ROOM);
    let made = trial.change(&mut held.to_vec(), change);
    assert_eq!(made, if is_worn { proposed.and(Err((17, 0))) } else { proposed }, "{change:?} at {count}");
    let (Change::Add { size, .. } | Change::Withdraw { size, .. }) = *change;
    for of in COUNTS.into_iter().chain([0, count - 1, count.wrapping_add(1)]) {
        let ticket = match change {
            Change::Add { record, .. } => tickets::addition(of, record),
            Change::Withdraw { relation, .. } => tickets::withdrawal(of, 1, *relation as u16),
        };
        let expected = match (of == count, is_worn) {
            (false, _) => Err((16, 0)),
            (true, true) => Err((17, 0)),
            (true, false) => proposed,
        };
        assert_eq!(trial.post(&mut held.to_vec(), &ticket, size), expected, "{change:?} at {count}, with a ticket of {of}");
    }
}

/// As many changes as a held book takes from loading, direct and posted ones in turn, and then what a worn book answers, until it is loaded anew.
pub fn sixty_thousand(trial: &mut Trial) {
    let bytes = [books::head(4), books::rule(&[0, 1, 3, 2], &[2, 0, 3, 1])].concat();
    let add = Change::Add { record: books::rule(&[2, 0, 3, 1], &[0, 1, 3, 2]), size: 16 };
    let withdraw = Change::Withdraw { relation: 1, size: 8 };
    let (loaded, mut held) = trial.load(&bytes, HELD);
    assert_eq!(loaded, Ok(1));
    for count in 0..COUNTED {
        assert_eq!(changes_of(&held), count);
        let (change, rules) = if count % 2 == 0 { (&add, 2) } else { (&withdraw, 1) };
        let result = if count % 3 == 0 { proposed_and_posted(trial, &mut held, change) } else { trial.change(&mut held, change) };
        assert_eq!(result, Ok(rules), "change {count}");
    }
    worn_by_changes(trial, &held, &add, [2, 1]);
    let (loaded, mut held) = trial.load(reference::book_of(&held), HELD);
    assert_eq!((loaded, changes_of(&held)), (Ok(1), 0));
    assert_eq!(trial.change(&mut held, &add), Ok(2));
    assert_eq!(proposed_and_posted(trial, &mut held, &withdraw), Ok(1));
    assert_eq!(changes_of(&held), 2);
}

/// The 60,001st change is refused by 17, made and posted; its proposal is accepted, and a loose one is refused by 8, made and proposed, and by 17, posted.
fn worn_by_changes(trial: &mut Trial, held: &[u8], add: &Change, [with, without]: [u64; 2]) {
    assert_eq!(changes_of(held), 60_000);
    let (proposed, ticket) = trial.propose(held, add, tickets::ROOM);
    assert_eq!(proposed, Ok(with));
    assert_eq!(trial.change(&mut held.to_vec(), add), Err((17, 0)));
    assert_eq!(trial.post(&mut held.to_vec(), &ticket, SHEET), Err((17, 0)));
    assert_eq!(trial.post(&mut held.to_vec(), &tickets::with_count(&ticket, 59_999), SHEET), Err((16, 0)));
    let only = Change::Withdraw { relation: 0, size: 0 };
    assert_eq!(trial.propose(held, &only, tickets::ROOM).0, Ok(without - 1));
    assert_eq!(trial.change(&mut held.to_vec(), &only), Err((17, 0)));
    let record = books::rule(&[0], &[1]);
    let loose = Change::Add { record: record.clone(), size: SHEET };
    assert_eq!(trial.propose(held, &loose, tickets::ROOM).0, Err((8, 2)));
    assert_eq!(trial.change(&mut held.to_vec(), &loose), Err((8, 2)));
    assert_eq!(trial.post(&mut held.to_vec(), &tickets::addition(60_000, &record), SHEET), Err((17, 0)));
}

/// A change by way of its ticket.
fn proposed_and_posted(trial: &mut Trial, held: &mut Vec<u8>, change: &Change) -> Result<u64, Refused> {
    let (Change::Add { size, .. } | Change::Withdraw { size, .. }) = *change;
    let (proposed, ticket) = trial.propose(held, change, tickets::ROOM);
    let posted = trial.post(held, &ticket, size);
    assert_eq!(posted, proposed, "a posting with no change between");
    posted
}

/// Tickets' buffers of every size near theirs, with sheets that are just enough and a byte short; a sheet that is too small comes first.
pub fn rooms(trial: &mut Trial, chance: &mut Chance, cases: usize) {
    for case in 0..cases {
        let (book, bytes, _) = accepted(trial, chance, SMALL[case % SMALL.len()]);
        let (_, held) = trial.load(&bytes, HELD);
        let good = Story::new(chance, &book).good_record(chance, &book);
        let (more, fewer) = (8 * book.relations() + 8, 8 * book.relations().saturating_sub(1));
        for room in [0, 1, 5, 6, 7, 20, 139, 140, 141, 200] {
            let narrow = if room < tickets::ROOM { Some(Err((12, 2))) } else { None };
            let (result, _) = trial.propose(&held, &Change::Add { record: good.clone(), size: more }, room);
            assert_eq!(result, narrow.unwrap_or(Ok(book.relations() as u64 + 1)), "a ticket of {room} bytes");
            let (result, _) = trial.propose(&held, &Change::Add { record: good.clone(), size: more - 1 }, room);
            assert_eq!(result, Err((12, 0)), "a sheet of {} bytes", more - 1);
            let _ = trial.propose(&held, &Change::Withdraw { relation: 0, size: fewer }, room);
            let _ = trial.propose(&held, &Change::Withdraw { relation: 0, size: fewer.saturating_sub(1) }, room);
            let (result, _) = trial.propose(&held, &Change::Withdraw { relation: book.relations(), size: 0 }, room);
            assert_eq!(result, Err((15, 0)));
            let (result, _) = trial.propose(&held[..HELD - 1], &Change::Withdraw { relation: 0, size: 0 }, room);
            assert_eq!(result, Err((12, 1)));
        }
    }
}
