//! The C functions of the proved library and the only unsafe code: each slice passes as its pointer and its length.

use core::mem::{offset_of, size_of};

// What a round or a comparison says. A refused result says 0, which is none of these.
pub const SAME: u32 = 1;
pub const DIFFERENT: u32 = 2;
/// Of a round alone: it went on.
pub const NEXT: u32 = 3;

/// Of the check and of the cut sheet, and of loading and changing a held book, with proposals and postings.
#[repr(C)]
pub struct CheckResult {
    pub refusal: u32,
    pub place: u64,
    pub rules: u64,
}

/// Of a single round.
#[repr(C)]
pub struct RoundResult {
    pub refusal: u32,
    pub place: u64,
    pub outcome: u32,
    pub u_length: u64,
    pub v_length: u64,
    pub p_length: u64,
}

/// Of a comparison.
#[repr(C)]
pub struct CompareResult {
    pub refusal: u32,
    pub place: u64,
    pub outcome: u32,
    pub rounds: u64,
}

/// Of the least run, and of the run behind a front.
#[repr(C)]
pub struct LeastResult {
    pub refusal: u32,
    pub place: u64,
    pub length: u64,
}

/// Of the program.
#[repr(C)]
pub struct ProgramResult {
    pub refusal: u32,
    pub place: u64,
    pub length: u64,
}

/// Of a buffer with a held book.
#[repr(C)]
pub struct HeldResult {
    pub start: u64,
    pub length: u64,
    pub changes: u64,
}

// The structs lie in memory as the archive has them; the C header asserts the same numbers.
const _: () = {
    assert!(size_of::<usize>() == 8);
    assert!(size_of::<CheckResult>() == 24);
    assert!(offset_of!(CheckResult, refusal) == 0);
    assert!(offset_of!(CheckResult, place) == 8);
    assert!(offset_of!(CheckResult, rules) == 16);
    assert!(size_of::<RoundResult>() == 48);
    assert!(offset_of!(RoundResult, refusal) == 0);
    assert!(offset_of!(RoundResult, place) == 8);
    assert!(offset_of!(RoundResult, outcome) == 16);
    assert!(offset_of!(RoundResult, u_length) == 24);
    assert!(offset_of!(RoundResult, v_length) == 32);
    assert!(offset_of!(RoundResult, p_length) == 40);
    assert!(size_of::<CompareResult>() == 32);
    assert!(offset_of!(CompareResult, refusal) == 0);
    assert!(offset_of!(CompareResult, place) == 8);
    assert!(offset_of!(CompareResult, outcome) == 16);
    assert!(offset_of!(CompareResult, rounds) == 24);
    assert!(size_of::<LeastResult>() == 24);
    assert!(offset_of!(LeastResult, refusal) == 0);
    assert!(offset_of!(LeastResult, place) == 8);
    assert!(offset_of!(LeastResult, length) == 16);
    assert!(size_of::<ProgramResult>() == 24);
    assert!(offset_of!(ProgramResult, refusal) == 0);
    assert!(offset_of!(ProgramResult, place) == 8);
    assert!(offset_of!(ProgramResult, length) == 16);
    assert!(size_of::<HeldResult>() == 24);
    assert!(offset_of!(HeldResult, start) == 0);
    assert!(offset_of!(HeldResult, length) == 8);
    assert!(offset_of!(HeldResult, changes) == 16);
};

extern "C" {
    fn vanecitron_version() -> u32;
    fn vanecitron_check(book: *const u8, book_length: usize) -> CheckResult;
    fn vanecitron_cut_sheet(book: *const u8, book_length: usize, sheet: *mut u8, sheet_length: usize) -> CheckResult;
    fn vanecitron_round(
        book: *const u8,
        book_length: usize,
        u: *const u8,
        u_length: usize,
        v: *const u8,
        v_length: usize,
        p: *const u8,
        p_length: usize,
        next_u: *mut u8,
        next_u_length: usize,
        next_v: *mut u8,
        next_v_length: usize,
        next_p: *mut u8,
        next_p_length: usize,
    ) -> RoundResult;
    fn vanecitron_compare(
        book: *const u8,
        book_length: usize,
        u: *const u8,
        u_length: usize,
        v: *const u8,
        v_length: usize,
        allowance: u32,
    ) -> CompareResult;
    fn vanecitron_least(
        book: *const u8,
        book_length: usize,
        run: *const u8,
        run_length: usize,
        buffer: *mut u8,
        buffer_length: usize,
        offset: usize,
    ) -> LeastResult;
    fn vanecitron_front(
        book: *const u8,
        book_length: usize,
        u: *const u8,
        u_length: usize,
        p: *const u8,
        p_length: usize,
        buffer: *mut u8,
        buffer_length: usize,
        offset: usize,
    ) -> LeastResult;
    fn vanecitron_program(input: *const u8, input_length: usize, output: *mut u8, output_length: usize) -> ProgramResult;
    fn vanecitron_load(book: *const u8, book_length: usize, held: *mut u8, held_length: usize) -> CheckResult;
    fn vanecitron_add(held: *mut u8, held_length: usize, record: *const u8, record_length: usize, sheet: *mut u8, sheet_length: usize)
        -> CheckResult;
    fn vanecitron_withdraw(held: *mut u8, held_length: usize, rule: usize, sheet: *mut u8, sheet_length: usize) -> CheckResult;
    fn vanecitron_propose_add(
        held: *const u8,
        held_length: usize,
        record: *const u8,
        record_length: usize,
        sheet: *mut u8,
        sheet_length: usize,
        ticket: *mut u8,
        ticket_length: usize,
    ) -> CheckResult;
    fn vanecitron_propose_withdraw(
        held: *const u8,
        held_length: usize,
        rule: usize,
        sheet: *mut u8,
        sheet_length: usize,
        ticket: *mut u8,
        ticket_length: usize,
    ) -> CheckResult;
    fn vanecitron_post(
        held: *mut u8,
        held_length: usize,
        ticket: *const u8,
        ticket_length: usize,
        sheet: *mut u8,
        sheet_length: usize,
    ) -> CheckResult;
    fn vanecitron_held_book(held: *const u8, held_length: usize) -> HeldResult;
}

// Each call below passes slices that live through the call, the lent ones by unique borrow, as pointer and length of the same slice;
// the functions keep none of them.

pub fn version() -> u32 {
    // SAFETY: it is given nothing
    unsafe { vanecitron_version() }
}

pub fn check(book: &[u8]) -> CheckResult {
    // SAFETY: as said above
    unsafe { vanecitron_check(book.as_ptr(), book.len()) }
}

pub fn cut_sheet(book: &[u8], sheet: &mut [u8]) -> CheckResult {
    // SAFETY: as said above
    unsafe { vanecitron_cut_sheet(book.as_ptr(), book.len(), sheet.as_mut_ptr(), sheet.len()) }
}

pub fn round(book: &[u8], u: &[u8], v: &[u8], p: &[u8], next_u: &mut [u8], next_v: &mut [u8], next_p: &mut [u8]) -> RoundResult {
    // SAFETY: as said above
    unsafe {
        vanecitron_round(
            book.as_ptr(),
            book.len(),
            u.as_ptr(),
            u.len(),
            v.as_ptr(),
            v.len(),
            p.as_ptr(),
            p.len(),
            next_u.as_mut_ptr(),
            next_u.len(),
            next_v.as_mut_ptr(),
            next_v.len(),
            next_p.as_mut_ptr(),
            next_p.len(),
        )
    }
}

pub fn compare(book: &[u8], u: &[u8], v: &[u8], allowance: u32) -> CompareResult {
    // SAFETY: as said above
    unsafe { vanecitron_compare(book.as_ptr(), book.len(), u.as_ptr(), u.len(), v.as_ptr(), v.len(), allowance) }
}

pub fn least(book: &[u8], run: &[u8], buffer: &mut [u8], offset: usize) -> LeastResult {
    // SAFETY: as said above
    unsafe { vanecitron_least(book.as_ptr(), book.len(), run.as_ptr(), run.len(), buffer.as_mut_ptr(), buffer.len(), offset) }
}

pub fn front(book: &[u8], run: &[u8], piece: &[u8], buffer: &mut [u8], offset: usize) -> LeastResult {
    // SAFETY: as said above
    unsafe {
        vanecitron_front(book.as_ptr(), book.len(), run.as_ptr(), run.len(), piece.as_ptr(), piece.len(), buffer.as_mut_ptr(), buffer.len(), offset)
    }
}

pub fn program(input: &[u8], output: &mut [u8]) -> ProgramResult {
    // SAFETY: as said above
    unsafe { vanecitron_program(input.as_ptr(), input.len(), output.as_mut_ptr(), output.len()) }
}

pub fn load(book: &[u8], held: &mut [u8]) -> CheckResult {
    // SAFETY: as said above
    unsafe { vanecitron_load(book.as_ptr(), book.len(), held.as_mut_ptr(), held.len()) }
}

pub fn add(held: &mut [u8], record: &[u8], sheet: &mut [u8]) -> CheckResult {
    // SAFETY: as said above
    unsafe { vanecitron_add(held.as_mut_ptr(), held.len(), record.as_ptr(), record.len(), sheet.as_mut_ptr(), sheet.len()) }
}

pub fn withdraw(held: &mut [u8], rule: usize, sheet: &mut [u8]) -> CheckResult {
    // SAFETY: as said above
    unsafe { vanecitron_withdraw(held.as_mut_ptr(), held.len(), rule, sheet.as_mut_ptr(), sheet.len()) }
}

pub fn propose_add(held: &[u8], record: &[u8], sheet: &mut [u8], ticket: &mut [u8]) -> CheckResult {
    // SAFETY: as said above
    unsafe {
        vanecitron_propose_add(
            held.as_ptr(),
            held.len(),
            record.as_ptr(),
            record.len(),
            sheet.as_mut_ptr(),
            sheet.len(),
            ticket.as_mut_ptr(),
            ticket.len(),
        )
    }
}

pub fn propose_withdraw(held: &[u8], rule: usize, sheet: &mut [u8], ticket: &mut [u8]) -> CheckResult {
    // SAFETY: as said above
    unsafe { vanecitron_propose_withdraw(held.as_ptr(), held.len(), rule, sheet.as_mut_ptr(), sheet.len(), ticket.as_mut_ptr(), ticket.len()) }
}

pub fn post(held: &mut [u8], ticket: &[u8], sheet: &mut [u8]) -> CheckResult {
    // SAFETY: as said above
    unsafe { vanecitron_post(held.as_mut_ptr(), held.len(), ticket.as_ptr(), ticket.len(), sheet.as_mut_ptr(), sheet.len()) }
}

pub fn held_book(held: &[u8]) -> HeldResult {
    // SAFETY: as said above
    unsafe { vanecitron_held_book(held.as_ptr(), held.len()) }
}
