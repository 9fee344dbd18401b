//! What lies in the buffer of a held book, byte for byte, and what changes find in buffers that no loading left so. The answers are worked out from the papers.

use reference::held::{changes_of, taken_up, BOOK, HELD};
use reference::{add, book_of, load, withdraw, Refusal};

fn head(letters: u8) -> Vec<u8> {
    vec![1, 0, 1, 0, letters]
}

/// The record of a rule whose sides are written with the letters from a on.
fn rule(left: &str, right: &str) -> Vec<u8> {
    let codes = |text: &str| -> Vec<u8> { text.bytes().map(|letter| letter - b'a').collect() };
    [vec![2 + (left.len() + right.len()) as u8, 0, 2, 0, left.len() as u8, right.len() as u8], codes(left), codes(right)].concat()
}

fn q() -> Vec<u8> {
    [head(4), rule("abdc", "cadb")].concat()
}

fn refused<T>(number: u32, place: u64) -> Result<T, Refusal> {
    Err(Refusal { number, place })
}

/// A buffer that has these bytes behind its length and count, and then 170.
fn holding(book: &[u8], changes: u16, size: usize) -> Vec<u8> {
    let mut held = [&(book.len() as u16).to_le_bytes()[..], &changes.to_le_bytes(), book].concat();
    held.resize(size.max(held.len()), 170);
    held
}

/// The buffer after a loading that is accepted.
fn loaded(book: &[u8], size: usize) -> Vec<u8> {
    let mut held = vec![170; size];
    load(book, &mut held).expect("accepted");
    held
}

const Q_ROWS: [u8; 8] = [1, 2, 1, 4, 1, 2, 1, 4];

#[test]
fn the_room_is_that_of_the_longest_book() {
    assert_eq!((BOOK, HELD), (4_293, 4_297));
}

#[test]
fn a_loading_writes_length_count_and_book() {
    for size in [HELD, HELD + 1, 5_000] {
        assert_eq!(loaded(&q(), size), holding(&q(), 0, size));
        assert_eq!(loaded(&head(4), size), holding(&head(4), 0, size));
    }
    // what was held before is overwritten, the count among it
    let mut held = holding(&[9; 40], 777, HELD);
    assert_eq!(load(&q(), &mut held), Ok(1));
    assert_eq!(held[..23], [&[19, 0, 0, 0][..], &q()].concat());
    assert_eq!(held[23..44], [9; 21]);
}

#[test]
fn a_loading_is_refused_as_the_check_is_and_then_for_room() {
    for size in [0, 1, 3, 4, 23, HELD - 1] {
        let mut held = vec![170; size];
        assert_eq!(load(&q(), &mut held), refused(12, 1));
        assert_eq!(load(&[], &mut held), refused(1, 0));
        assert_eq!(load(&[head(4), rule("a", "aa")].concat(), &mut held), refused(8, 0));
        assert_eq!(held, vec![170; size]);
    }
}

#[test]
fn changes_are_counted_and_keep_what_is_behind() {
    let mut held = loaded(&q(), HELD + 3);
    let mut sheet = [170; 20];
    assert_eq!(add(&mut held, &rule("cadb", "abdc"), &mut sheet), Ok(2));
    let two = [q(), rule("cadb", "abdc")].concat();
    assert_eq!(held, holding(&two, 1, HELD + 3));
    assert_eq!(sheet[..16], [Q_ROWS, Q_ROWS].concat());
    assert_eq!(sheet[16..], [170; 4]);
    // the first is withdrawn, and the last 14 bytes of the old book stay where they were
    let mut sheet = [170; 20];
    assert_eq!(withdraw(&mut held, 0, &mut sheet), Ok(1));
    let one = [head(4), rule("cadb", "abdc")].concat();
    assert_eq!(held[..4 + 19], [&[19, 0, 2, 0][..], &one].concat());
    assert_eq!(held[4 + 19..4 + 33], rule("cadb", "abdc"));
    assert!(held[4 + 33..].iter().all(|&byte| byte == 170));
    assert_eq!((&sheet[..8], &sheet[8..]), (&Q_ROWS[..], &[170; 12][..]));
    assert_eq!((book_of(&held), changes_of(&held)), (&one[..], 2));
}

#[test]
fn the_count_goes_up_to_its_most() {
    for (before, after) in [(0, 1), (254, 255), (255, 256), (59_998, 59_999), (59_999, 60_000)] {
        let mut held = holding(&q(), before, HELD);
        assert_eq!(withdraw(&mut held, 0, &mut []), Ok(0));
        assert_eq!(changes_of(&held), after);
        let mut held = holding(&q(), before, HELD);
        assert_eq!(add(&mut held, &rule("abdc", "abdc"), &mut [0; 16]), Ok(2));
        assert_eq!(changes_of(&held), after);
    }
}

#[test]
fn a_worn_book_takes_no_change() {
    for count in [60_000, 60_001, 65_535] {
        let before = holding(&q(), count, HELD);
        let (mut held, mut sheet) = (before.clone(), [170; 16]);
        assert_eq!(withdraw(&mut held, 0, &mut sheet), refused(17, 0));
        assert_eq!(add(&mut held, &rule("abdc", "abdc"), &mut sheet), refused(17, 0));
        // every other refusal of a change comes before it
        assert_eq!(add(&mut held, &[], &mut sheet), refused(1, 19));
        assert_eq!(add(&mut held, &rule("a", "b"), &mut sheet), refused(8, 2));
        assert_eq!(add(&mut held, &rule("abdc", "abdc"), &mut sheet[..15]), refused(12, 0));
        assert_eq!(withdraw(&mut held, 1, &mut sheet), refused(15, 0));
        assert_eq!((&held, sheet), (&before, [170; 16]));
        assert_eq!(load(&q(), &mut held), Ok(1));
        assert_eq!(withdraw(&mut held, 0, &mut sheet), Ok(0));
        assert_eq!(changes_of(&held), 1);
    }
}

/// A change of what is held, with a buffer for the sheet.
type Change = dyn Fn(&mut [u8], &mut [u8]) -> Result<u64, Refusal>;

#[test]
fn a_refused_change_keeps_every_byte() {
    let book = [q(), rule("cadb", "abdc")].concat();
    let before = holding(&book, 9, HELD + 2);
    let changes: [(&Change, usize, (u32, u64)); 6] = [
        (&|held, sheet| add(held, &[], sheet), 24, (1, 33)),
        (&|held, sheet| add(held, &head(4), sheet), 24, (2, 33)),
        (&|held, sheet| add(held, &rule("ab", "cd"), sheet), 24, (8, 0)),
        (&|held, sheet| add(held, &rule("abdc", "abdc"), sheet), 23, (12, 0)),
        (&|held, sheet| withdraw(held, 2, sheet), 0, (15, 0)),
        (&|held, sheet| withdraw(held, 1, sheet), 7, (12, 0)),
    ];
    for (change, size, (number, place)) in changes {
        let (mut held, mut sheet) = (before.clone(), vec![170; size]);
        assert_eq!(change(&mut held, &mut sheet), refused(number, place));
        assert_eq!((held, sheet), (before.clone(), vec![170; size]));
    }
}

#[test]
fn the_book_of_any_buffer() {
    assert_eq!(book_of(&[]), []);
    assert_eq!(book_of(&[5, 0, 0]), []);
    assert_eq!(book_of(&[5, 0, 0, 0]), []);
    assert_eq!(book_of(&[0, 0, 0, 0, 9]), []);
    assert_eq!(book_of(&[1, 0, 0, 0, 9, 8]), [9]);
    assert_eq!(book_of(&[2, 0, 7, 7, 9, 8]), [9, 8]);
    assert_eq!(book_of(&[3, 0, 0, 0, 9, 8]), [9, 8]);
    assert_eq!(book_of(&[0, 1, 0, 0, 9, 8]), [9, 8]);
    assert_eq!([&[][..], &[1, 0, 9], &[1, 0, 9, 1]].map(changes_of), [0, 0, 265]);
}

#[test]
fn a_change_needs_the_room_before_it_reads() {
    for size in [0, 3, 4, 23, HELD - 1] {
        for book in [q(), Vec::new()] {
            let mut held = holding(&book, 0, size);
            held.truncate(size);
            assert_eq!(add(&mut held, &[], &mut []), refused(12, 1));
            assert_eq!(withdraw(&mut held, 9, &mut []), refused(12, 1));
        }
    }
}

#[test]
fn what_is_held_is_read_as_any_book() {
    let found = |held: Vec<u8>| taken_up(&held).map(|book| book.sides.len() / 2);
    assert_eq!(found(holding(&q(), 0, HELD)), Ok(1));
    assert_eq!(found(holding(&[], 0, HELD)), refused(1, 0));
    assert_eq!(found(holding(&q()[..18], 0, HELD)), refused(1, 5));
    assert_eq!(found(holding(&[q(), vec![170]].concat(), 0, HELD)), refused(1, 19));
    assert_eq!(found(holding(&[head(4), head(4)].concat(), 0, HELD)), refused(2, 5));
    assert_eq!(found(holding(&[2, 0, 1, 0, 4, 4], 0, HELD)), refused(3, 0));
    assert_eq!(found(holding(&head(65), 0, HELD)), refused(4, 0));
    assert_eq!(found(holding(&[head(3), rule("a", "d")].concat(), 0, HELD)), refused(5, 5));
    let thick = [head(4), rule("a", "a").repeat(33)].concat();
    assert_eq!(found(holding(&thick, 0, HELD)), refused(6, 5 + 32 * 8));
    // its refusals come before those of the change
    let mut held = holding(&head(65), 0, HELD);
    assert_eq!((add(&mut held, &[], &mut []), withdraw(&mut held, 9, &mut [])), (refused(4, 0), refused(4, 0)));
}

#[test]
fn a_length_past_the_end_stops_there() {
    // 32 rules of 64 and 64 letters fill the room
    let sides: Vec<u8> = (0..64).chain((0..64).rev()).collect();
    let record = [&[130, 0, 2, 0, 64, 64][..], &sides].concat();
    let full = [head(64), record.repeat(32)].concat();
    for length in [4_293u16, 4_294, 65_535] {
        let mut held = loaded(&full, HELD);
        held[..2].copy_from_slice(&length.to_le_bytes());
        assert_eq!(book_of(&held), full);
        assert_eq!(add(&mut held, &record, &mut [0; 264]), refused(6, 4_293));
        assert_eq!(withdraw(&mut held, 7, &mut [0; 248]), Ok(31));
        assert_eq!(held[..4], [&4_159u16.to_le_bytes()[..], &[1, 0]].concat());
    }
    let mut held = loaded(&full, HELD + 1);
    held[..2].copy_from_slice(&4_294u16.to_le_bytes());
    assert_eq!(withdraw(&mut held, 7, &mut [0; 248]), refused(1, 4_293));
}

#[test]
fn the_old_book_may_be_loose() {
    // a = aa is loose at side 0, and b = c is not
    let loose = [head(4), rule("a", "aa"), rule("b", "c")].concat();
    assert_eq!(load(&loose, &mut [0; HELD]), refused(8, 0));
    let mut held = holding(&loose, 0, HELD);
    assert_eq!(withdraw(&mut held, 1, &mut [0; 8]), refused(8, 0));
    assert_eq!(add(&mut held, &rule("d", "d"), &mut [0; 24]), refused(8, 0));
    assert_eq!(withdraw(&mut held, 2, &mut []), refused(15, 0));
    let mut sheet = [170; 8];
    assert_eq!(withdraw(&mut held, 0, &mut sheet), Ok(1));
    assert_eq!(sheet, [0, 1, 0, 255, 0, 1, 0, 255]);
    assert_eq!(book_of(&held), [head(4), rule("b", "c")].concat());
}
