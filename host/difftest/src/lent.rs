//! Lent buffers between guard bytes, so that a write outside a buffer is seen.

const GUARD: usize = 96;

/// A byte that depends on its place, so that moved bytes are seen too.
fn pattern(at: usize) -> u8 {
    (at as u8).wrapping_mul(31) ^ 0xa5
}

/// A buffer of some size with guard bytes before and behind it.
pub struct Lent {
    bytes: Vec<u8>,
    size: usize,
}

impl Lent {
    pub fn new(size: usize) -> Lent {
        Lent { bytes: (0..size + 2 * GUARD).map(pattern).collect(), size }
    }

    /// A buffer that has these bytes.
    pub fn of(bytes: &[u8]) -> Lent {
        let mut lent = Lent::new(bytes.len());
        lent.slice().copy_from_slice(bytes);
        lent
    }

    /// What is lent.
    pub fn slice(&mut self) -> &mut [u8] {
        &mut self.bytes[GUARD..GUARD + self.size]
    }

    /// The first bytes of what was lent.
    pub fn front(&self, length: usize) -> &[u8] {
        &self.bytes[GUARD..GUARD + length]
    }

    /// The first place, counted from the buffer's start, of a byte that is not as it should be: `written`, and behind it and before it what was there.
    pub fn fault(&self, written: &[u8]) -> Option<isize> {
        self.fault_at(0, written)
    }

    /// The same for what is written at an offset.
    pub fn fault_at(&self, offset: usize, written: &[u8]) -> Option<isize> {
        let expected = |at: usize| match at.checked_sub(GUARD).and_then(|place| place.checked_sub(offset)) {
            Some(place) if place < written.len() => written[place],
            _ => pattern(at),
        };
        (0..self.bytes.len()).find(|&at| self.bytes[at] != expected(at)).map(|at| at as isize - GUARD as isize)
    }
}
