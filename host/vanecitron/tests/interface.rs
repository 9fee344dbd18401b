//! What the wrapper adds to the archive: typed places and reasons, the sides of the cut sheet, the writer of books with its bounds, room enough for a least
//! run and for the run behind a front, held books, and their tickets.

use vanecitron::{
    add, ample_allowance, book_of, changes, check, compare, cut_sheet, cut_sheet_into, cuts, front, front_into, least, least_into, load, post,
    propose_addition, propose_withdrawal, rule_record, withdraw, BookWriter, Comparison, Cut, HeldBook, NoRoom, PieceCount, Place, Reason, Refusal,
    Run, Ticket,
};
use vanecitron::{
    BOOK, BOOK_MOST, CHANGES_MOST, HELD, HELD_BUFFER, LEAST, NO_PRODUCT, ROUND_MARK, RULE, RULES, RUN, SHEET, SHEET_SIDE, SIDE, TICKET, TICKET_BUFFER,
};

/// Book Q and the comparison abdc, cadb with the allowance 100, as the specification writes their bytes ("The program").
const EXAMPLE: [u8; 39] = [
    0x01, 0x00, 0x01, 0x00, 0x04, 0x0a, 0x00, 0x02, 0x00, 0x04, 0x04, 0x00, 0x01, 0x03, 0x02, 0x02, 0x00, 0x03, 0x01, 0x10, 0x00, 0x03, 0x00, 0x64,
    0x00, 0x00, 0x00, 0x04, 0x00, 0x04, 0x00, 0x00, 0x01, 0x03, 0x02, 0x02, 0x00, 0x03, 0x01,
];

fn example(lent: &mut [u8]) -> Result<usize, NoRoom> {
    let mut book = BookWriter::new(lent, 4)?;
    book.rule(&[0, 1, 3, 2], &[2, 0, 3, 1])?;
    book.comparison(100, &[0, 1, 3, 2], &[2, 0, 3, 1])?;
    Ok(book.bytes().len())
}

#[test]
fn the_writer_keeps_within_its_buffer() {
    for room in 0..EXAMPLE.len() + 2 {
        let mut bytes = [0xa5; EXAMPLE.len() + 8];
        let written = example(&mut bytes[..room]);
        if room < EXAMPLE.len() {
            assert_eq!(written, Err(NoRoom), "{room}");
        } else {
            assert_eq!(written, Ok(EXAMPLE.len()));
            assert_eq!(bytes[..EXAMPLE.len()], EXAMPLE);
        }
        assert!(bytes[room.min(EXAMPLE.len())..].iter().all(|&byte| byte == 0xa5), "{room}");
    }
}

#[test]
fn a_record_that_does_not_fit_writes_nothing() {
    let mut bytes = vec![0; 5 + 4 + 65_535];
    let steps = vec![0; 65_536];
    let mut book = BookWriter::new(&mut bytes, 1).unwrap();
    assert_eq!(book.rule(&steps[..256], &steps[..1]), Err(NoRoom));
    assert_eq!(book.rule(&steps[..1], &steps[..256]), Err(NoRoom));
    assert_eq!(book.comparison(0, &steps, &[]), Err(NoRoom));
    assert_eq!(book.comparison(0, &steps[..65_535 - 8], &steps[..1]), Err(NoRoom));
    assert_eq!(book.bytes(), [1, 0, 1, 0, 1]);
    assert_eq!(book.comparison(0, &steps[..65_535 - 8], &[]), Ok(()));
    assert_eq!(book.bytes().len(), bytes.len());
    let mut bytes = [0; 5 + 6 + 2 * 255];
    let mut book = BookWriter::new(&mut bytes, 1).unwrap();
    assert_eq!(book.rule(&steps[..255], &steps[..255]), Ok(()));
    assert_eq!(book.bytes().len(), bytes.len());
}

/// The longest book has just the bytes that `BOOK` says: it is whole, and refused for its sides alone.
#[test]
fn the_longest_book_fits() {
    let mut bytes = [0; BOOK];
    let mut book = BookWriter::new(&mut bytes, 64).unwrap();
    for rule in 0..RULES as u8 {
        book.rule(&[2 * rule; SIDE], &[2 * rule + 1; SIDE]).unwrap();
    }
    assert_eq!(book.bytes().len(), BOOK);
    assert_eq!(check(book.bytes()).unwrap_err().reason, Reason::Loose);
    assert_eq!(book.rule(&[0], &[1]), Err(NoRoom));
}

#[test]
fn reasons_and_places_have_their_numbers() {
    for number in 0..40 {
        let reason = Reason::from_number(number);
        assert_eq!(reason.number(), number);
        assert_eq!(matches!(reason, Reason::Other(_)), !(1..=19).contains(&number) || number == 7, "{number}");
        for place in [0, 1, 4_999, 5_000, 5_003, 10_000, 10_063, 15_000, 60_000, u64::MAX] {
            // the place of 9 is the start of a run
            if reason != Reason::Long || place % 5_000 == 0 {
                assert_eq!(Place::from_number(reason, place).number(), place, "{number} {place}");
            }
        }
    }
    assert_eq!(Place::from_number(Reason::Thick, 7), Place::Byte(7));
    assert_eq!(Place::from_number(Reason::Loose, 7), Place::Side(7));
    assert_eq!(Place::from_number(Reason::Long, 5_000), Place::Run(Run::V));
    assert_eq!(Place::from_number(Reason::Stranger, 10_063), Place::Step { run: Run::P, position: 63 });
    assert_eq!(Place::from_number(Reason::Spent, 7), Place::Rounds(7));
    assert_eq!(Place::from_number(Reason::Narrow, 2), Place::Buffer(2));
    assert_eq!(Place::from_number(Reason::Heavy, 60_000), Place::Limit(60_000));
    assert_eq!(Place::from_number(Reason::NoSpace, 0), Place::Buffer(0));
    assert_eq!(Place::from_number(Reason::Narrow, 1), Place::Buffer(HELD_BUFFER));
    assert_eq!(Place::from_number(Reason::NoSuchRule, 0), Place::Nowhere);
    assert_eq!(Place::from_number(Reason::NoSuchRule, 7), Place::Other(7));
    for reason in [Reason::StaleTicket, Reason::BookWorn, Reason::NotPiece, Reason::NoFront] {
        assert_eq!(Place::from_number(reason, 0), Place::Nowhere);
        assert_eq!(Place::from_number(reason, 7), Place::Other(7));
    }
    assert_eq!(Place::from_number(Reason::Narrow, 2), Place::Buffer(TICKET_BUFFER));
    assert_eq!(Place::from_number(Reason::Other(20), 7), Place::Other(7));
    let refusal = Refusal { reason: Reason::NoSuchRule, place: Place::Nowhere };
    assert_eq!(refusal.to_string(), "no such rule: the held book has no rule of the index that is to be withdrawn");
    assert_eq!(refusal.place.to_string(), "no place");
    let refusal = Refusal { reason: Reason::StaleTicket, place: Place::Nowhere };
    assert_eq!(refusal.to_string(), "stale ticket: the held book's count of changes is not that of the ticket");
    let refusal = Refusal { reason: Reason::BookWorn, place: Place::Nowhere };
    assert_eq!(refusal.to_string(), "book worn: the held book has had all the changes that it takes, and must be loaded anew");
    let refusal = Refusal { reason: Reason::NotPiece, place: Place::Nowhere };
    assert_eq!(refusal.to_string(), "not a piece: the front that is to be taken off is no piece of the book");
    let refusal = Refusal { reason: Reason::NoFront, place: Place::Nowhere };
    assert_eq!(refusal.to_string(), "no such front: no run that a chain joins to the given one begins with that front");
}

/// Book Q is the front of the example.
const Q: &[u8] = EXAMPLE.split_at(19).0;

#[test]
fn a_sheet_has_four_bytes_a_side() {
    let expected = [1, 2, 1, 4, 1, 2, 1, 4];
    for room in 0..12 {
        let mut bytes = [0xa5; 12];
        let result = cut_sheet_into(Q, &mut bytes[..room]);
        if room < 2 * SHEET_SIDE {
            let refusal = result.unwrap_err();
            assert_eq!((refusal.reason, refusal.place), (Reason::Narrow, Place::Buffer(0)), "{room}");
        } else {
            assert_eq!(result, Ok(1));
            assert_eq!(bytes[..8], expected);
            bytes[..8].fill(0xa5);
        }
        assert_eq!(bytes, [0xa5; 12], "{room}");
    }
    let cut = Cut { x: 1, y: 2, z: 1, pieces: PieceCount::Pieces(4) };
    assert_eq!(cut_sheet(Q).unwrap(), [cut; 2]);
    assert!(cuts(&expected).eq([cut; 2]));
    assert_eq!(SHEET, 256);
}

#[test]
fn a_full_sheet_has_every_side() {
    let mut bytes = [0; BOOK];
    let mut book = BookWriter::new(&mut bytes, 64).unwrap();
    for rule in 0..RULES as u8 {
        book.rule(&[2 * rule], &[2 * rule + 1]).unwrap();
    }
    let cut = Cut { x: 0, y: 1, z: 0, pieces: PieceCount::NoProduct };
    assert_eq!(cut_sheet(book.bytes()).unwrap(), [cut; 2 * RULES]);
    assert_eq!(cut_sheet_into(book.bytes(), &mut [0; SHEET - 1]).unwrap_err().reason, Reason::Narrow);
}

#[test]
fn counts_of_pieces_have_their_numbers() {
    for number in 0..=255 {
        let count = PieceCount::from_number(number);
        assert_eq!(count.number(), number);
        assert_eq!(count == PieceCount::NoProduct, number == NO_PRODUCT);
        assert_eq!(count.spare(), (number != NO_PRODUCT).then(|| number.saturating_sub(4)));
    }
    assert_eq!(PieceCount::Pieces(5).to_string(), "5 pieces, 1 more than the fewest allowed");
    assert_eq!(PieceCount::Pieces(64).to_string(), "64 pieces, 60 more than the fewest allowed");
    assert_eq!(PieceCount::Pieces(3).to_string(), "fewer pieces than are allowed: 3");
}

/// k is the longest Z, whatever the other bytes are.
#[test]
fn an_allowance_goes_by_the_longest_z() {
    assert_eq!(ample_allowance(&[], 7), 14);
    assert_eq!(ample_allowance(&[1, 2, 1, 4, 1, 2, 1, 4], 7), 21);
    assert_eq!(ample_allowance(&[0, 64, 0, 255, 1, 2, 61, 64], 7), 441);
    assert_eq!(ample_allowance(&[0, 1, 63, 4], usize::MAX), u32::MAX);
}

/// What writes this run at each offset of a buffer of 8 bytes where there is room for it, and nothing else; at the others it is refused by 14.
fn stands_at_its_offset(run: &[u8], write: impl Fn(&mut [u8], usize) -> Result<usize, Refusal>) {
    for offset in 0..10 {
        let mut buffer = [0xa5; 8];
        let result = write(&mut buffer, offset);
        if offset + run.len() <= 8 {
            assert_eq!(result, Ok(run.len()));
            assert_eq!(buffer[offset..offset + run.len()], *run);
            buffer[offset..offset + run.len()].fill(0xa5);
        } else {
            assert_eq!(told(result), (Reason::NoSpace, Place::Buffer(0)));
        }
        assert_eq!(buffer, [0xa5; 8]);
    }
}

#[test]
fn a_least_run_stands_at_its_offset() {
    stands_at_its_offset(&[0, 1, 3, 2], |buffer, offset| least_into(Q, &[2, 0, 3, 1], buffer, offset));
    assert_eq!(least_into(Q, &[], &mut [], 0), Ok(0));
    let refusal = least_into(Q, &[], &mut [], 1).unwrap_err();
    let text = "no space: the offset lies past the buffer's end, or the least run, or the run behind the front, does not fit there (buffer 0)";
    assert_eq!(refusal.to_string(), text);
}

/// abdc and cadb are joined to each other alone, so that what is left is bdc behind a, and adb behind c; and nothing is left of c behind c.
#[test]
fn a_run_behind_a_front_stands_at_its_offset() {
    for run in [[0, 1, 3, 2], [2, 0, 3, 1]] {
        stands_at_its_offset(&[1, 3, 2], |buffer, offset| front_into(Q, &run, &[0], buffer, offset));
        stands_at_its_offset(&[0, 3, 1], |buffer, offset| front_into(Q, &run, &[2], buffer, offset));
        stands_at_its_offset(&[0, 1, 3, 2], |buffer, offset| front_into(Q, &run, &[], buffer, offset));
    }
    stands_at_its_offset(&[], |buffer, offset| front_into(Q, &[2], &[2], buffer, offset));
    assert_eq!(front_into(Q, &[], &[], &mut [], 0), Ok(0));
    assert_eq!(front_into(Q, &[2], &[2], &mut [], 0), Ok(0));
    assert_eq!(told(front_into(Q, &[2], &[2], &mut [], 1)), (Reason::NoSpace, Place::Buffer(0)));
}

/// 9 and 10 of the run, then of the piece, which is run p; then 18, 19 and 14. Each call has something wrong that would come later.
#[test]
fn refusals_of_a_front_come_in_order() {
    let (long, long_piece) = (vec![4; RUN + 1], [4; ROUND_MARK + 1]);
    let refused = |book: &[u8], run: &[u8], piece: &[u8]| {
        let mut buffer = [0xa5; 2];
        let refusal = told(front_into(book, run, piece, &mut buffer, 3));
        assert_eq!(buffer, [0xa5; 2]);
        refusal
    };
    assert_eq!(refused(&[], &long, &long_piece), (Reason::Short, Place::Byte(0)));
    assert_eq!(refused(Q, &long, &long_piece), (Reason::Long, Place::Run(Run::U)));
    assert_eq!(refused(Q, &[0, 4], &long_piece), (Reason::Stranger, Place::Step { run: Run::U, position: 1 }));
    assert_eq!(refused(Q, &[0], &long_piece), (Reason::Long, Place::Run(Run::P)));
    assert_eq!(refused(Q, &[0], &long_piece[1..]), (Reason::Stranger, Place::Step { run: Run::P, position: 0 }));
    assert_eq!(refused(Q, &[0], &[0, 1, 4]), (Reason::Stranger, Place::Step { run: Run::P, position: 2 }));
    assert_eq!(refused(Q, &[0], &[0; ROUND_MARK]), (Reason::NotPiece, Place::Nowhere));
    assert_eq!(refused(Q, &[0], &[0, 1]), (Reason::NotPiece, Place::Nowhere));
    assert_eq!(refused(Q, &[0], &[2]), (Reason::NoFront, Place::Nowhere));
    assert_eq!(refused(Q, &[], &[0]), (Reason::NoFront, Place::Nowhere));
    assert_eq!(refused(Q, &[0], &[0]), (Reason::NoSpace, Place::Buffer(0)));
    // without rules the empty run is the only piece, whatever the run begins with
    assert_eq!(told(front(&Q[..5], &[0], &[0])), (Reason::NotPiece, Place::Nowhere));
    assert_eq!(front(&Q[..5], &[1, 0], &[]).unwrap(), [1, 0]);
}

#[test]
fn refusals_of_a_run_are_of_the_first() {
    let refusal = |run: &[u8]| least(Q, run).unwrap_err();
    assert_eq!((refusal(&[0, 4]).reason, refusal(&[0, 4]).place), (Reason::Stranger, Place::Step { run: Run::U, position: 1 }));
    let long = vec![0; RUN + 1];
    assert_eq!((refusal(&long).reason, refusal(&long).place), (Reason::Long, Place::Run(Run::U)));
    assert_eq!(least(&[], &[9]).unwrap_err().reason, Reason::Short);
}

/// One step is exchanged for 64, as often as there are steps.
#[test]
fn the_longest_least_run_has_room() {
    let mut side = [2; SIDE];
    side[0] = 0;
    let mut bytes = [0; BOOK];
    let mut book = BookWriter::new(&mut bytes, 3).unwrap();
    book.rule(&[1], &side).unwrap();
    let longest = least(book.bytes(), &[1; RUN]).unwrap();
    assert_eq!(longest.len(), LEAST);
    assert!(longest.chunks(SIDE).all(|part| part == side));
    assert_eq!(least_into(book.bytes(), &[1; RUN], &mut vec![0; LEAST - 1], 0).unwrap_err().reason, Reason::NoSpace);

    // c, which is a piece, stands before the rest and is a part of no side there, so that the least run of the rest is what is left
    let run = [&[2], &[1; RUN - 1][..]].concat();
    assert_eq!(front(book.bytes(), &run, &[2]).unwrap(), longest[SIDE..]);
    let room = LEAST - SIDE;
    assert_eq!(told(front_into(book.bytes(), &run, &[2], &mut vec![0; room - 1], 0)), (Reason::NoSpace, Place::Buffer(0)));
    assert_eq!(front(book.bytes(), &[1; RUN], &[]).unwrap(), longest);
}

/// A refusal by its reason and place.
fn told<T: std::fmt::Debug>(result: Result<T, Refusal>) -> (Reason, Place) {
    let refusal = result.unwrap_err();
    (refusal.reason, refusal.place)
}

/// The record of a rule.
fn record(left: &[u8], right: &[u8]) -> Vec<u8> {
    rule_record(&mut [0; 6 + 2 * 255], left, right).unwrap().to_vec()
}

/// A held book in a buffer of so many bytes, which is filled before.
fn held_in(room: usize, book: &[u8]) -> Vec<u8> {
    let mut held = vec![0xa5; room];
    load(book, &mut held).unwrap();
    held
}

/// Changes that are refused: each with this reason and place, and with no byte changed, of the buffer or of the sheet.
fn kept(held: &mut [u8], change: impl Fn(&mut [u8], &mut [u8]) -> Result<usize, Refusal>, reason: Reason, place: Place) {
    let (before, mut sheet) = (held.to_vec(), [0x5a; SHEET]);
    assert_eq!(told(change(held, &mut sheet)), (reason, place));
    assert!(held == before && sheet == [0x5a; SHEET], "{reason:?} changed a byte");
}

#[test]
fn the_record_of_a_rule_keeps_within_its_buffer() {
    let expected = &Q[5..];
    for room in 0..expected.len() + 2 {
        let mut bytes = [0xa5; 20];
        let written = rule_record(&mut bytes[..room], &[0, 1, 3, 2], &[2, 0, 3, 1]).map(<[u8]>::to_vec);
        assert_eq!(written, if room < expected.len() { Err(NoRoom) } else { Ok(expected.to_vec()) }, "{room}");
        let untouched = if room < expected.len() { 0 } else { expected.len() };
        assert!(bytes[untouched..].iter().all(|&byte| byte == 0xa5), "{room}");
    }
    assert_eq!(record(&[0; SIDE], &[0; SIDE]).len(), RULE);
    assert_eq!(record(&[], &[]), [2, 0, 2, 0, 0, 0]);
    assert_eq!(rule_record(&mut [0; 1_000], &[0; 256], &[]), Err(NoRoom));
    assert_eq!((BOOK, HELD), (BOOK_MOST, BOOK_MOST + 4));
}

#[test]
fn a_book_is_loaded_into_room_enough() {
    for room in [0, 1, 3, 4, 5, HELD - 1, HELD, HELD + 1] {
        let mut held = vec![0xa5; room];
        let result = load(Q, &mut held);
        if room < HELD {
            assert_eq!(told(result), (Reason::Narrow, Place::Buffer(HELD_BUFFER)), "{room}");
            assert!(held.iter().all(|&byte| byte == 0xa5));
        } else {
            assert_eq!(result, Ok(1));
            assert_eq!(held[..4], [19, 0, 0, 0]);
            assert_eq!(held[4..23], *Q);
            assert!(held[23..].iter().all(|&byte| byte == 0xa5));
        }
    }
    // what is wrong with the book comes first
    assert_eq!(told(load(&[], &mut [])), (Reason::Short, Place::Byte(0)));
    assert_eq!(told(load(&Q[..18], &mut [])), (Reason::Short, Place::Byte(5)));
    assert_eq!(told(load(&[1, 0, 1, 0, 4, 5, 0, 2, 0, 1, 2, 0, 0, 0], &mut [])), (Reason::Loose, Place::Side(0)));
}

/// The rules abdc = cadb, cadb = bcda and accb = bbaa over four letters: no two letters stand together twice in the sides, so that each side is a product of four
/// pieces, its letters.
#[test]
fn rules_come_and_go() {
    let cut = [1, 2, 1, 4];
    let (second, third) = (record(&[2, 0, 3, 1], &[1, 2, 3, 0]), record(&[0, 2, 2, 1], &[1, 1, 0, 0]));
    let books = |rules: &[&[u8]]| [&Q[..5], &rules.concat()].concat();
    let mut held = held_in(HELD + 3, Q);
    for (rules, added) in [(2, &second), (3, &third)] {
        let mut sheet = [0x5a; SHEET];
        assert_eq!(add(&mut held, added, &mut sheet), Ok(rules));
        assert!(sheet[..8 * rules].chunks(4).all(|side| side == cut));
        assert!(sheet[8 * rules..].iter().all(|&byte| byte == 0x5a));
    }
    let first = &Q[5..];
    assert_eq!((book_of(&held), changes(&held)), (&books(&[first, &second, &third])[..], 2));
    assert!(held[4 + 47..].iter().all(|&byte| byte == 0xa5));

    // the middle one, then the last, then the first; what stands behind the new book stays
    for (rule, rules, book) in [(1, 2, books(&[first, &third])), (1, 1, books(&[first])), (0, 0, books(&[]))] {
        let (before, mut sheet) = (held.clone(), [0x5a; SHEET]);
        assert_eq!(withdraw(&mut held, rule, &mut sheet), Ok(rules));
        assert_eq!((book_of(&held), changes(&held)), (&book[..], 5 - rules as u64));
        assert_eq!(held[4 + book.len()..], before[4 + book.len()..]);
        assert!(sheet[..8 * rules].chunks(4).all(|side| side == cut));
        assert!(sheet[8 * rules..].iter().all(|&byte| byte == 0x5a));
    }
    kept(&mut held, |held, sheet| withdraw(held, 0, sheet), Reason::NoSuchRule, Place::Nowhere);
}

#[test]
fn a_refused_addition_changes_nothing() {
    let good = record(&[0, 2, 2, 1], &[1, 1, 0, 0]);
    let with = |at: usize, byte: u8| {
        let mut bytes = good.clone();
        bytes[at] = byte;
        bytes
    };
    let behind = |mut bytes: Vec<u8>| {
        bytes.push(0);
        bytes
    };
    let cases = [
        (vec![], Reason::Short),
        (good[..3].to_vec(), Reason::Short),
        (good[..13].to_vec(), Reason::Short),
        (with(2, 1)[..13].to_vec(), Reason::Short),
        (with(2, 1), Reason::Kind),
        (behind(with(2, 3)), Reason::Kind),
        (with(3, 1), Reason::Kind),
        (behind(good.clone()), Reason::Length),
        (behind(with(6, 4)), Reason::Length),
        (with(4, 5), Reason::Length),
        (with(4, 0), Reason::Length),
        (vec![1, 0, 2, 0, 1], Reason::Length),
        (record(&[], &[0]), Reason::Range),
        (record(&[0], &[]), Reason::Range),
        (record(&[4; 65], &[0]), Reason::Range),
        (with(13, 4), Reason::UnknownStep),
    ];
    let mut held = held_in(HELD, Q);
    for (bytes, reason) in &cases {
        // the sheet is not asked for before
        kept(&mut held, |held, _| add(held, bytes, &mut []), *reason, Place::Byte(19));
    }
    kept(&mut held, |held, sheet| add(held, &record(&[0], &[0, 0]), &mut sheet[..0]), Reason::Loose, Place::Side(2));
    kept(&mut held, |held, sheet| add(held, &record(&[3], &[0, 1]), sheet), Reason::Loose, Place::Side(0));
    for room in [0, 1, 15] {
        kept(&mut held, |held, sheet| add(held, &good, &mut sheet[..room]), Reason::Narrow, Place::Buffer(0));
    }
    assert_eq!(add(&mut held, &good, &mut [0; 16]), Ok(2));
}

#[test]
fn a_refused_withdrawal_changes_nothing() {
    let mut held = held_in(HELD, Q);
    add(&mut held, &record(&[0, 2, 2, 1], &[1, 1, 0, 0]), &mut [0; SHEET]).unwrap();
    for rule in [2, 3, 32, usize::MAX] {
        kept(&mut held, |held, sheet| withdraw(held, rule, &mut sheet[..0]), Reason::NoSuchRule, Place::Nowhere);
    }
    kept(&mut held, |held, sheet| withdraw(held, 1, &mut sheet[..7]), Reason::Narrow, Place::Buffer(0));
    assert_eq!(withdraw(&mut held, 1, &mut [0; 8]), Ok(1));
    assert_eq!(withdraw(&mut held, 0, &mut []), Ok(0));
}

/// 31 rules, then 32, and no 33rd: the longest book just fits.
#[test]
fn a_full_book_is_held() {
    let mut state = 1_u32;
    let mut side = || {
        let mut steps = [0; SIDE];
        steps.fill_with(|| {
            state = state.wrapping_mul(1_664_525).wrapping_add(1_013_904_223);
            (state >> 26) as u8
        });
        steps
    };
    let mut bytes = [0; BOOK];
    let mut book = BookWriter::new(&mut bytes, 64).unwrap();
    for _ in 1..RULES {
        book.rule(&side(), &side()).unwrap();
    }
    let last = record(&side(), &side());
    let mut held = held_in(HELD, book.bytes());
    let mut sheet = [0; SHEET];
    assert_eq!(add(&mut held, &last, &mut sheet), Ok(RULES));
    assert_eq!(book_of(&held).len(), BOOK_MOST);
    assert!(cuts(&sheet).eq(cut_sheet(book_of(&held)).unwrap()));
    kept(&mut held, |held, sheet| add(held, &last, sheet), Reason::Thick, Place::Byte(BOOK_MOST));
    // a 33rd record is told to be one before its length is looked at, and not before its kind
    kept(&mut held, |held, sheet| add(held, &[0, 0, 2, 0, 0], sheet), Reason::Thick, Place::Byte(BOOK_MOST));
    kept(&mut held, |held, sheet| add(held, &[0, 0, 1, 0], sheet), Reason::Kind, Place::Byte(BOOK_MOST));
    assert_eq!(withdraw(&mut held, RULES - 1, &mut sheet), Ok(RULES - 1));
    assert_eq!(book_of(&held), book.bytes());
}

/// Whatever a buffer holds, it is refused or taken as the book that it says.
#[test]
fn an_altered_buffer_is_refused_or_taken_as_it_is() {
    let added = record(&[0, 2, 2, 1], &[1, 1, 0, 0]);
    for room in [0, 3, 4, HELD - 1] {
        let mut held = vec![19; room];
        kept(&mut held, |held, sheet| add(held, &[], sheet), Reason::Narrow, Place::Buffer(HELD_BUFFER));
        kept(&mut held, |held, sheet| withdraw(held, 9, sheet), Reason::Narrow, Place::Buffer(HELD_BUFFER));
    }
    for (at, byte, reason, place) in [
        (0, 0, Reason::Short, 0),
        (0, 18, Reason::Short, 5),
        (0, 20, Reason::Short, 19),
        (1, 255, Reason::Kind, 19),
        (6, 2, Reason::Kind, 0),
        (11, 1, Reason::Kind, 5),
        (13, 5, Reason::Length, 5),
        (8, 65, Reason::Range, 0),
        (22, 4, Reason::UnknownStep, 5),
    ] {
        let mut held = held_in(HELD, Q);
        held[23..].fill(0);
        held[at] = byte;
        kept(&mut held, |held, sheet| add(held, &added, sheet), reason, Place::Byte(place));
        kept(&mut held, |held, sheet| withdraw(held, 0, sheet), reason, Place::Byte(place));
    }
    // abdc = acbd is loose, which a change asks of the new book alone
    let mut held = held_in(HELD, Q);
    held[19..23].copy_from_slice(&[0, 2, 1, 3]);
    kept(&mut held, |held, sheet| add(held, &record(&[0], &[1]), sheet), Reason::Loose, Place::Side(0));
    assert_eq!(told(check(book_of(&held))), (Reason::Loose, Place::Side(0)));
    assert_eq!(withdraw(&mut held, 0, &mut []), Ok(0));
    // a longer one is read in a longer buffer: 33 rules
    let mut held = vec![0; HELD + RULE];
    load(&Q[..5], &mut held).unwrap();
    let rules = record(&[0], &[1]).repeat(RULES + 1);
    held[4 + 5..][..rules.len()].copy_from_slice(&rules);
    held[..2].copy_from_slice(&(5 + rules.len() as u16).to_le_bytes());
    kept(&mut held, |held, sheet| withdraw(held, 0, sheet), Reason::Thick, Place::Byte(5 + 8 * RULES));
}

#[test]
fn the_book_of_any_buffer_lies_in_it() {
    let bytes = [3, 0, 1, 2, 10, 11, 12, 13];
    for room in 0..=bytes.len() {
        assert_eq!(book_of(&bytes[..room]), if room < 4 { &[] } else { &bytes[4..room.min(7)] }, "{room}");
        assert_eq!(changes(&bytes[..room]), if room < 4 { 0 } else { 0x201 }, "{room}");
    }
    assert_eq!(book_of(&[255; HELD]).len(), HELD - 4);
    assert_eq!(changes(&[255; HELD]), 65_535);
}

/// The 60,000th change is the last, and proposals are answered as ever. A worn book is worn whatever more its count says.
#[test]
fn a_worn_book_takes_no_change() {
    let (good, loose) = (record(&[0, 2, 2, 1], &[1, 1, 0, 0]), record(&[0], &[0, 0]));
    let mut held = held_in(HELD, Q);
    held[2..4].copy_from_slice(&59_999_u16.to_le_bytes());
    let (mut sheet, mut last) = ([0; SHEET], [0; TICKET]);
    assert_eq!(propose_withdrawal(&held, 0, &mut sheet, &mut last), Ok(0));
    assert_eq!(add(&mut held, &good, &mut sheet), Ok(2));
    assert_eq!((changes(&held), CHANGES_MOST), (60_000, 60_000));
    for count in [60_000_u16, 60_001, 65_535] {
        held[2..4].copy_from_slice(&count.to_le_bytes());
        let mut ticket = [0; TICKET];
        assert_eq!(propose_withdrawal(&held, 1, &mut sheet, &mut ticket), Ok(1));
        assert_eq!(ticket[..6], ticket_of(count, 1, 1, &[]));
        kept(&mut held, |held, sheet| post(held, &ticket, sheet), Reason::BookWorn, Place::Nowhere);
        kept(&mut held, |held, sheet| post(held, &last, sheet), Reason::StaleTicket, Place::Nowhere);
        kept(&mut held, |held, sheet| withdraw(held, 1, sheet), Reason::BookWorn, Place::Nowhere);
        // a direct change has its other refusals first, and a posting has 17 first; with a = aa the side bbaa is a product of b, b and aa
        let beside = ticket_of(count, 0, loose.len() as u16, &loose);
        kept(&mut held, |held, sheet| add(held, &loose, sheet), Reason::Loose, Place::Side(3));
        kept(&mut held, |held, sheet| post(held, &beside, sheet), Reason::BookWorn, Place::Nowhere);
        kept(&mut held, |held, sheet| propose_addition(held, &loose, sheet, &mut [0; TICKET]), Reason::Loose, Place::Side(3));
        kept(&mut held, |held, sheet| withdraw(held, 2, sheet), Reason::NoSuchRule, Place::Nowhere);
        kept(&mut held, |held, sheet| withdraw(held, 1, &mut sheet[..7]), Reason::Narrow, Place::Buffer(0));
    }
    load(Q, &mut held).unwrap();
    assert_eq!(changes(&held), 0);
    assert_eq!(withdraw(&mut held, 0, &mut sheet), Ok(0));
}

/// The bytes of a ticket.
fn ticket_of(count: u16, kind: u16, number: u16, behind: &[u8]) -> Vec<u8> {
    [&count.to_le_bytes(), &kind.to_le_bytes(), &number.to_le_bytes(), behind].concat()
}

/// A proposal gives the change's answer and sheet, and a ticket; it changes no byte behind these. Its posting is the change.
#[test]
fn a_proposal_posted_is_the_change() {
    let (second, third) = (record(&[2, 0, 3, 1], &[1, 2, 3, 0]), record(&[0, 2, 2, 1], &[1, 1, 0, 0]));
    type Proposal<'a> =
        (&'a dyn Fn(&[u8], &mut [u8], &mut [u8]) -> Result<usize, Refusal>, &'a dyn Fn(&mut [u8], &mut [u8]) -> Result<usize, Refusal>);
    let steps: [(Proposal, Vec<u8>); 4] = [
        ((&|h, s, t| propose_addition(h, &second, s, t), &|h, s| add(h, &second, s)), ticket_of(0, 0, 14, &second)),
        ((&|h, s, t| propose_addition(h, &third, s, t), &|h, s| add(h, &third, s)), ticket_of(1, 0, 14, &third)),
        ((&|h, s, t| propose_withdrawal(h, 1, s, t), &|h, s| withdraw(h, 1, s)), ticket_of(2, 1, 1, &[])),
        ((&|h, s, t| propose_withdrawal(h, 0, s, t), &|h, s| withdraw(h, 0, s)), ticket_of(3, 1, 0, &[])),
    ];
    let mut held = held_in(HELD + 3, Q);
    for ((propose, change), expected) in steps {
        let (before, mut direct) = (held.clone(), held.clone());
        let (mut sheet, mut proposed, mut posted, mut ticket) = ([0x5a; SHEET], [0x5a; SHEET], [0x5a; SHEET], [0xa5; TICKET + 3]);
        let rules = change(&mut direct, &mut sheet);
        assert_eq!(propose(&held, &mut proposed, &mut ticket), rules);
        assert!(held == before && proposed == sheet);
        assert_eq!(ticket[..expected.len()], expected);
        assert!(ticket[expected.len()..].iter().all(|&byte| byte == 0xa5));
        assert_eq!(post(&mut held, &ticket, &mut posted), rules);
        assert!(held == direct && posted == sheet);
        kept(&mut held, |held, sheet| post(held, &ticket, sheet), Reason::StaleTicket, Place::Nowhere);
    }
    assert_eq!(book_of(&held), [&Q[..5], &third].concat());
}

/// What refuses a change refuses its proposal, before the room of the ticket is asked for, and its ticket, where that is not stale.
#[test]
fn a_refused_proposal_changes_nothing() {
    let good = record(&[0, 2, 2, 1], &[1, 1, 0, 0]);
    let cases = [
        (vec![], SHEET, Reason::Short, Place::Byte(19)),
        (good[..13].to_vec(), SHEET, Reason::Short, Place::Byte(19)),
        (Q[..5].to_vec(), SHEET, Reason::Kind, Place::Byte(19)),
        ([&good[..], &[0]].concat(), SHEET, Reason::Length, Place::Byte(19)),
        (record(&[], &[0]), SHEET, Reason::Range, Place::Byte(19)),
        (record(&[4], &[0]), SHEET, Reason::UnknownStep, Place::Byte(19)),
        (record(&[3], &[0, 1]), SHEET, Reason::Loose, Place::Side(0)),
        (good.clone(), 15, Reason::Narrow, Place::Buffer(0)),
    ];
    let mut held = held_in(HELD, Q);
    for (bytes, room, reason, place) in &cases {
        kept(&mut held, |held, sheet| propose_addition(held, bytes, &mut sheet[..*room], &mut []), *reason, *place);
        let ticket = ticket_of(0, 0, bytes.len() as u16, bytes);
        kept(&mut held, |held, sheet| post(held, &ticket, &mut sheet[..*room]), *reason, *place);
        let stale = ticket_of(1, 0, bytes.len() as u16, bytes);
        kept(&mut held, |held, sheet| post(held, &stale, &mut sheet[..*room]), Reason::StaleTicket, Place::Nowhere);
    }
    kept(&mut held, |held, sheet| propose_withdrawal(held, 1, sheet, &mut []), Reason::NoSuchRule, Place::Nowhere);
    kept(&mut held, |held, sheet| post(held, &ticket_of(0, 1, 1, &[]), sheet), Reason::NoSuchRule, Place::Nowhere);
    for room in [0, 6, TICKET - 1] {
        let mut ticket = [0xa5; TICKET];
        kept(&mut held, |held, sheet| propose_addition(held, &good, sheet, &mut vec![0; room]), Reason::Narrow, Place::Buffer(TICKET_BUFFER));
        assert_eq!(told(propose_withdrawal(&held, 0, &mut [], &mut ticket[..room])), (Reason::Narrow, Place::Buffer(TICKET_BUFFER)));
        assert_eq!(ticket, [0xa5; TICKET]);
    }
    let mut short = held[..HELD - 1].to_vec();
    kept(&mut short, |held, sheet| propose_addition(held, &good, sheet, &mut []), Reason::Narrow, Place::Buffer(HELD_BUFFER));
    kept(&mut short, |held, sheet| propose_withdrawal(held, 9, sheet, &mut []), Reason::Narrow, Place::Buffer(HELD_BUFFER));
    kept(&mut short, |held, sheet| post(held, &[], sheet), Reason::Narrow, Place::Buffer(HELD_BUFFER));
    kept(&mut short[..3], |held, sheet| post(held, &[1], sheet), Reason::StaleTicket, Place::Nowhere);
}

/// A ticket that was made up is read by its fields, as far as it has them, and is the change that they say.
#[test]
fn a_ticket_may_be_anything() {
    let good = record(&[0, 2, 2, 1], &[1, 1, 0, 0]);
    let withdrawals = [&[0, 0, 1][..], &[0, 0, 1, 0], &[0, 0, 0, 1, 0, 0], &[0, 0, 255, 255, 0], &[0, 0, 7, 0, 0, 0, 9, 9]];
    for ticket in withdrawals {
        assert_eq!(post(&mut held_in(HELD, Q), ticket, &mut []), Ok(0), "{ticket:?}");
    }
    let additions = [ticket_of(0, 0, 14, &good), ticket_of(0, 0, 65_535, &good), ticket_of(0, 0, 14, &[&good[..], &[9; 200]].concat())];
    for ticket in additions {
        assert_eq!(post(&mut held_in(HELD, Q), &ticket, &mut [0; 16]), Ok(2), "{ticket:?}");
    }
    let mut held = held_in(HELD, Q);
    for ticket in [vec![], vec![0], vec![0; 6], vec![0; TICKET], ticket_of(0, 0, 13, &good), ticket_of(0, 0, 14, &good[..13]), vec![0, 0, 0, 0, 14]] {
        kept(&mut held, |held, sheet| post(held, &ticket, sheet), Reason::Short, Place::Byte(19));
    }
    kept(&mut held, |held, sheet| post(held, &ticket_of(0, 0, 15, &[&good[..], &[0]].concat()), sheet), Reason::Length, Place::Byte(19));
    kept(&mut held, |held, sheet| post(held, &ticket_of(0, 1, 256, &[]), sheet), Reason::NoSuchRule, Place::Nowhere);
    kept(&mut held, |held, sheet| post(held, &[0xaa; TICKET], sheet), Reason::StaleTicket, Place::Nowhere);
    kept(&mut held, |held, sheet| post(held, &[0, 1], sheet), Reason::StaleTicket, Place::Nowhere);
}

#[test]
fn a_ticket_is_stale_after_a_change() {
    let (second, third) = (record(&[2, 0, 3, 1], &[1, 2, 3, 0]), record(&[0, 2, 2, 1], &[1, 1, 0, 0]));
    let mut held = HeldBook::load(Q).unwrap();
    let cut = Cut { x: 1, y: 2, z: 1, pieces: PieceCount::Pieces(4) };
    let (cuts, first) = held.propose_addition(&second).unwrap();
    assert_eq!(cuts, [cut; 4]);
    // neither a proposal nor a refusal makes it stale
    let (cuts, other) = held.propose_withdrawal(0).unwrap();
    assert_eq!(cuts, []);
    assert_eq!(told(held.propose_addition(&[])), (Reason::Short, Place::Byte(19)));
    assert_eq!(told(held.propose_withdrawal(1)), (Reason::NoSuchRule, Place::Nowhere));
    assert_eq!(told(held.withdraw(1)), (Reason::NoSuchRule, Place::Nowhere));
    assert_eq!((held.book(), held.changes(), first.changes(), other.changes()), (Q, 0, 0, 0));
    let mut twin = held.clone();
    assert_eq!(held.post(&first).unwrap(), [cut; 4]);
    assert_eq!(told(held.post(&other)), (Reason::StaleTicket, Place::Nowhere));
    assert_eq!(told(held.post(&first)), (Reason::StaleTicket, Place::Nowhere));
    assert_eq!((held.book().len(), held.changes()), (33, 1));

    // a book of its own has the same count, so that the ticket is good there
    assert_eq!(twin.post(&Ticket::from_bytes(other.to_bytes())).unwrap(), []);
    assert_eq!((twin.book(), twin.changes()), (&Q[..5], 1));

    // a change that is undone leaves the book as it was, and the ticket stale
    let (_, again) = held.propose_addition(&third).unwrap();
    held.add(&third).unwrap();
    held.withdraw(2).unwrap();
    assert_eq!((held.book().len(), held.changes(), again.changes()), (33, 3, 1));
    assert_eq!(told(held.post(&again)), (Reason::StaleTicket, Place::Nowhere));
    assert_ne!(held.propose_addition(&third).unwrap().1, again);
}

#[test]
fn a_ticket_keeps_its_bytes() {
    let held = HeldBook::load(Q).unwrap();
    let mut expected = [0; TICKET];
    expected[..20].copy_from_slice(&ticket_of(0, 0, 14, &record(&[2, 0, 3, 1], &[1, 2, 3, 0])));
    let (_, ticket) = held.propose_addition(&expected[6..20]).unwrap();
    assert_eq!((ticket.to_bytes(), ticket.changes()), (expected, 0));
    assert_eq!(Ticket::from_bytes(expected), ticket);
    assert_eq!(format!("{ticket:?}"), "Ticket { changes: 0, addition: [10, 0, 2, 0, 4, 4, 2, 0, 3, 1, 1, 2, 3, 0] }");
    let (_, ticket) = held.propose_withdrawal(0).unwrap();
    assert_eq!(format!("{ticket:?}"), "Ticket { changes: 0, withdrawal: 0 }");
    assert_eq!(ticket.clone(), ticket);
    let any = Ticket::from_bytes([0xff; TICKET]);
    assert_eq!((any.changes(), format!("{any:?}")), (65_535, "Ticket { changes: 65535, withdrawal: 65535 }".to_string()));
    let mut bytes = [0xff; TICKET];
    bytes[2..4].fill(0);
    assert_eq!(format!("{:?}", Ticket::from_bytes(bytes)), format!("Ticket {{ changes: 65535, addition: {:?} }}", [255; TICKET - 6]));
}

#[test]
fn a_held_book_owns_its_buffer() {
    assert_eq!(told(HeldBook::load(&Q[..18])), (Reason::Short, Place::Byte(5)));
    let mut held = HeldBook::load(Q).unwrap();
    let loaded = held.clone();
    let cut = Cut { x: 1, y: 2, z: 1, pieces: PieceCount::Pieces(4) };
    assert_eq!(held.add(&record(&[2, 0, 3, 1], &[1, 2, 3, 0])).unwrap(), [cut; 4]);
    assert_eq!(told(held.add(&[])), (Reason::Short, Place::Byte(33)));
    assert_eq!(told(held.withdraw(2)), (Reason::NoSuchRule, Place::Nowhere));
    assert_eq!((held.book().len(), held.changes()), (33, 1));
    let bcda = [1, 2, 3, 0];
    assert_eq!(compare(held.book(), &[0, 1, 3, 2], &bcda, 2), Ok(Comparison::Same { rounds: 2 }));
    assert_eq!(compare(loaded.book(), &[0, 1, 3, 2], &bcda, 2), Ok(Comparison::Different { rounds: 0 }));
    assert_eq!(held.withdraw(0).unwrap(), [cut; 2]);
    assert_eq!(held.withdraw(0).unwrap(), []);
    assert_eq!(format!("{held:?}"), "HeldBook { book: [1, 0, 1, 0, 4], changes: 3 }");
    assert_eq!((loaded.book(), loaded.changes()), (Q, 0));
}
