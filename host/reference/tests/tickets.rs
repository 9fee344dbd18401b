//! Tickets byte for byte, what postings read in bytes that no proposal wrote, and the order of their refusals. The answers are worked out from document 01.

use reference::held::{changes_of, Change, HELD};
use reference::tickets::{read_ticket, TICKET};
use reference::{add, book_of, load, post, propose_add, propose_withdraw, withdraw, Refusal};

const HEAD: [u8; 5] = [1, 0, 1, 0, 4];
/// abdc = cadb, and bbaa = ccda, which has no pair of letters of it
const ABDC: [u8; 14] = [10, 0, 2, 0, 4, 4, 0, 1, 3, 2, 2, 0, 3, 1];
const BBAA: [u8; 14] = [10, 0, 2, 0, 4, 4, 1, 1, 0, 0, 2, 2, 3, 0];
/// a = b, which is loose beside abdc = cadb, at side 2
const LOOSE: [u8; 8] = [4, 0, 2, 0, 1, 1, 0, 1];

const ROW: [u8; 4] = [1, 2, 1, 4];

/// A buffer that holds book Q after so many changes.
fn holding_q(changes: u16, size: usize) -> Vec<u8> {
    let mut held = [&[19, 0][..], &changes.to_le_bytes(), &HEAD, &ABDC].concat();
    held.resize(size, 170);
    held
}

fn refused<T>(number: u32, place: u64) -> Result<T, Refusal> {
    Err(Refusal { number, place })
}

/// The ticket of an addition with this count.
fn addition(count: u16, record: &[u8]) -> Vec<u8> {
    [&count.to_le_bytes()[..], &[0, 0, record.len() as u8, 0], record].concat()
}

#[test]
fn the_room_is_that_of_the_longest_record() {
    assert_eq!(TICKET, 140);
}

#[test]
fn a_proposal_writes_sheet_and_ticket_and_nothing_else() {
    let held = holding_q(0x1234, HELD);
    let (mut sheet, mut ticket) = ([170; 18], [170; 141]);
    assert_eq!(propose_add(&held, &BBAA, &mut sheet, &mut ticket), Ok(2));
    assert_eq!((&sheet[..16], &sheet[16..]), (&ROW.repeat(4)[..], &[170; 2][..]));
    assert_eq!(ticket[..20], [0x34, 0x12, 0, 0, 14, 0, 10, 0, 2, 0, 4, 4, 1, 1, 0, 0, 2, 2, 3, 0]);
    assert!(ticket[20..].iter().all(|&byte| byte == 170));
    let (mut sheet, mut ticket) = ([170; 2], [170; 140]);
    assert_eq!(propose_withdraw(&held, 0, &mut sheet, &mut ticket), Ok(0));
    assert_eq!((sheet, &ticket[..6]), ([170; 2], &[0x34, 0x12, 1, 0, 0, 0][..]));
    assert!(ticket[6..].iter().all(|&byte| byte == 170));
    assert_eq!(held, holding_q(0x1234, HELD));
}

#[test]
fn a_posting_gives_what_the_change_gives() {
    for count in [0, 1, 300, 59_999] {
        let (mut posted, mut made) = (holding_q(count, HELD), holding_q(count, HELD));
        let mut ticket = [170; TICKET];
        assert_eq!(propose_add(&posted, &BBAA, &mut [0; 16], &mut ticket), Ok(2));
        let mut sheets = [[170; 20], [170; 20]];
        assert_eq!(post(&mut posted, &ticket, &mut sheets[0]), Ok(2));
        assert_eq!(add(&mut made, &BBAA, &mut sheets[1]), Ok(2));
        assert_eq!((&posted, sheets[0]), (&made, sheets[1]));
        assert_eq!(book_of(&posted), [&HEAD[..], &ABDC, &BBAA].concat());
        assert_eq!(changes_of(&posted), count as usize + 1);
        // it is stale once it has been posted
        assert_eq!(post(&mut posted, &ticket, &mut sheets[0]), refused(16, 0));
        assert_eq!(posted, made);
    }
}

#[test]
fn the_order_of_a_proposal() {
    let held = holding_q(60_000, HELD);
    let propose = |record: &[u8], size: usize, room: usize| {
        let (mut sheet, mut ticket) = (vec![170; size], vec![170; room]);
        let answer = propose_add(&held, record, &mut sheet, &mut ticket);
        assert!(answer.is_ok() || sheet.iter().chain(&ticket).all(|&byte| byte == 170));
        answer
    };
    assert_eq!(propose(&[], 0, 0), refused(1, 19));
    assert_eq!(propose(&LOOSE, 0, 0), refused(8, 2));
    assert_eq!(propose(&BBAA, 15, 0), refused(12, 0));
    for room in [0, 5, 6, 20, 139] {
        assert_eq!(propose(&BBAA, 16, room), refused(12, 2));
    }
    // a worn book answers proposals as ever
    assert_eq!((propose(&BBAA, 16, 140), propose(&BBAA, 16, 141)), (Ok(2), Ok(2)));
    assert_eq!(propose_withdraw(&held, 1, &mut [], &mut []), refused(15, 0));
    assert_eq!(propose_withdraw(&held, 65_536, &mut [], &mut [0; 140]), refused(15, 0));
    assert_eq!(propose_withdraw(&held, 0, &mut [], &mut [0; 139]), refused(12, 2));
    assert_eq!(propose_withdraw(&held[..HELD - 1], 1, &mut [], &mut []), refused(12, 1));
    assert_eq!(propose_add(&[4, 0, 0], &BBAA, &mut [0; 16], &mut [0; 140]), refused(12, 1));
}

#[test]
fn the_order_of_a_posting() {
    // a count of the book, a ticket's count, and the refusal where the change is good, is loose, has a narrow sheet
    let cases = [
        (0, 1, [16, 16, 16]),
        (5, 4, [16, 16, 16]),
        (5, 5, [0, 8, 12]),
        (256, 1, [16, 16, 16]),
        (59_999, 59_999, [0, 8, 12]),
        (60_000, 59_999, [16, 16, 16]),
        (60_000, 60_000, [17, 17, 17]),
        (60_001, 60_001, [17, 17, 17]),
        (65_535, 65_535, [17, 17, 17]),
        (65_535, 0, [16, 16, 16]),
    ];
    for (held, count, numbers) in cases {
        let posts = [(&BBAA[..], 16), (&LOOSE, 16), (&BBAA, 15)];
        for ((record, size), number) in posts.into_iter().zip(numbers) {
            let (mut buffer, mut sheet) = (holding_q(held, HELD), vec![170; size]);
            let answer = post(&mut buffer, &addition(count, record), &mut sheet);
            let place = if number == 8 { 2 } else { 0 };
            assert_eq!(answer, if number == 0 { Ok(2) } else { refused(number, place) }, "{held} {count} {size}");
            assert!(number == 0 || (buffer == holding_q(held, HELD) && sheet == vec![170; size]));
        }
    }
}

#[test]
fn a_posting_to_a_buffer_that_is_too_small() {
    // it counts nothing where it has no room for the count, and 16 and 17 come before 12
    for size in 0..4 {
        assert_eq!(post(&mut vec![9; size], &[0, 0], &mut []), refused(12, 1));
        assert_eq!(post(&mut vec![9; size], &[9, 9], &mut []), refused(16, 0));
        assert_eq!(post(&mut vec![9; size], &[], &mut []), refused(12, 1));
    }
    for size in [4, 23, HELD - 1] {
        let mut held = holding_q(7, HELD);
        held.truncate(size);
        assert_eq!(post(&mut held, &[7], &mut []), refused(12, 1));
        assert_eq!(post(&mut held, &[8], &mut []), refused(16, 0));
        held[2..4].copy_from_slice(&60_000u16.to_le_bytes());
        assert_eq!(post(&mut held, &60_000u16.to_le_bytes(), &mut []), refused(17, 0));
    }
}

#[test]
fn every_content_is_some_change() {
    let none = || Change::Addition(Vec::new());
    let cases: [(&[u8], (usize, Change)); 14] = [
        (&[], (0, none())),
        (&[5], (5, none())),
        (&[5, 1], (261, none())),
        (&[5, 1, 0, 0], (261, none())),
        (&[5, 1, 1], (261, Change::Withdrawal(0))),
        (&[5, 1, 0, 1], (261, Change::Withdrawal(0))),
        (&[0, 0, 255, 255, 3], (0, Change::Withdrawal(3))),
        (&[0, 0, 2, 0, 3, 1], (0, Change::Withdrawal(259))),
        (&[0, 0, 1, 0, 3, 0, 9, 9, 9], (0, Change::Withdrawal(3))),
        (&[0, 0, 0, 0, 3, 0, 9, 8, 7], (0, Change::Addition(vec![9, 8, 7]))),
        (&[0, 0, 0, 0, 2, 0, 9, 8, 7], (0, Change::Addition(vec![9, 8]))),
        (&[0, 0, 0, 0, 4, 0, 9, 8, 7], (0, Change::Addition(vec![9, 8, 7]))),
        (&[0, 0, 0, 0, 0, 1, 9, 8, 7], (0, Change::Addition(vec![9, 8, 7]))),
        (&[0, 0, 0, 0, 3], (0, none())),
    ];
    for (ticket, read) in cases {
        assert_eq!(read_ticket(ticket), read, "{ticket:?}");
    }
    assert_eq!(read_ticket(&[0; 140]), (0, none()));
    assert_eq!(read_ticket(&[170; 140]), (43_690, Change::Withdrawal(43_690)));
}

#[test]
fn tickets_that_nobody_gave() {
    let mut sheet = [170; 16];
    let mut held = holding_q(0, HELD);
    // all 0 is the addition of no bytes; so is a ticket without bytes
    assert_eq!(post(&mut held, &[0; 140], &mut sheet), refused(1, 19));
    assert_eq!(post(&mut held, &[], &mut sheet), refused(1, 19));
    // a record of more than 134 bytes, a kind that no proposal writes, an index with a high byte
    assert_eq!(post(&mut held, &[0, 0, 0, 0, 200, 0].iter().chain(&[2; 200]).copied().collect::<Vec<u8>>(), &mut sheet), refused(1, 19));
    assert_eq!(post(&mut held, &addition(0, &[&BBAA[..], &[0; 200]].concat()), &mut sheet), refused(3, 19));
    assert_eq!(post(&mut held, &[0, 0, 1, 0, 0, 1], &mut sheet), refused(15, 0));
    assert_eq!((held.clone(), sheet), (holding_q(0, HELD), [170; 16]));
    assert_eq!(post(&mut held, &[0, 0, 0, 9], &mut sheet), Ok(0));
    // the ticket of another book with the same count, and one from before a new loading
    let mut other = vec![0; HELD];
    assert_eq!(load(&HEAD, &mut other), Ok(0));
    let mut ticket = [0; TICKET];
    assert_eq!(propose_add(&other, &BBAA, &mut [0; 8], &mut ticket), Ok(1));
    assert_eq!(post(&mut held, &ticket, &mut sheet), refused(16, 0));
    assert_eq!(load(&[&HEAD[..], &ABDC].concat(), &mut held), Ok(1));
    assert_eq!(post(&mut held, &ticket, &mut sheet), Ok(2));
    assert_eq!(sheet, ROW.repeat(4)[..]);
}

#[test]
fn only_accepted_changes_make_a_ticket_stale() {
    let mut held = holding_q(9, HELD);
    let (mut one, mut two) = ([0; TICKET], [0; TICKET]);
    assert_eq!(propose_add(&held, &BBAA, &mut [0; 16], &mut one), Ok(2));
    assert_eq!(propose_withdraw(&held, 0, &mut [], &mut two), Ok(0));
    assert_eq!(add(&mut held, &LOOSE, &mut [0; 16]), refused(8, 2));
    assert_eq!(withdraw(&mut held, 1, &mut []), refused(15, 0));
    assert_eq!(post(&mut held, &one, &mut [0; 15]), refused(12, 0));
    assert_eq!(post(&mut held, &two, &mut []), Ok(0));
    assert_eq!(post(&mut held, &one, &mut [0; 16]), refused(16, 0));
    // the book is as it was, and the count is not
    assert_eq!(add(&mut held, &ABDC, &mut [0; 8]), Ok(1));
    assert_eq!((book_of(&held), changes_of(&held)), (&[&HEAD[..], &ABDC].concat()[..], 11));
    assert_eq!(post(&mut held, &one, &mut [0; 16]), refused(16, 0));
    assert_eq!(post(&mut held, &two, &mut []), refused(16, 0));
}
