//! A small generator of numbers (splitmix64), so that every case can be made again from its seed.

/// A source of numbers that follow from a seed.
#[derive(Debug, Clone)]
pub struct Chance {
    state: u64,
}

impl Chance {
    pub fn new(seed: u64) -> Chance {
        Chance { state: seed }
    }

    /// The next number of 64 bits.
    pub fn number(&mut self) -> u64 {
        self.state = self.state.wrapping_add(0x9E37_79B9_7F4A_7C15);
        let mut z = self.state;
        z = (z ^ (z >> 30)).wrapping_mul(0xBF58_476D_1CE4_E5B9);
        z = (z ^ (z >> 27)).wrapping_mul(0x94D0_49BB_1331_11EB);
        z ^ (z >> 31)
    }

    /// A number below n, which is not 0.
    pub fn below(&mut self, n: usize) -> usize {
        (self.number() % n as u64) as usize
    }

    /// A number from least to most.
    pub fn between(&mut self, least: usize, most: usize) -> usize {
        least + self.below(most - least + 1)
    }

    /// True once in n times.
    pub fn once_in(&mut self, n: usize) -> bool {
        self.below(n) == 0
    }

    /// One of the items.
    pub fn pick<'a, T>(&mut self, items: &'a [T]) -> &'a T {
        &items[self.below(items.len())]
    }

    /// A word of this many letters, below `letters` each.
    pub fn word(&mut self, length: usize, letters: u8) -> Vec<u8> {
        (0..length).map(|_| self.below(letters as usize) as u8).collect()
    }

    /// So many words, each of `least` to `most` letters.
    pub fn words(&mut self, count: usize, least: usize, most: usize, letters: u8) -> Vec<Vec<u8>> {
        (0..count)
            .map(|_| {
                let length = self.between(least, most);
                self.word(length, letters)
            })
            .collect()
    }
}
