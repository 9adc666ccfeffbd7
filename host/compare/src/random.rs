//! Pseudo-random numbers from a seed, by splitmix64.

/// A stream of numbers.
pub struct Random {
    state: u64,
}

impl Random {
    /// The stream of one input of a run: each index has its own, whichever thread takes it.
    pub fn new(seed: u64, index: u64) -> Random {
        let mut run = Random { state: seed };
        let mut input = Random {
            state: run.word() ^ index,
        };
        Random {
            state: input.word(),
        }
    }

    /// Any 64 bits.
    pub fn word(&mut self) -> u64 {
        self.state = self.state.wrapping_add(0x9E37_79B9_7F4A_7C15);
        let mut z = self.state;
        z = (z ^ (z >> 30)).wrapping_mul(0xBF58_476D_1CE4_E5B9);
        z = (z ^ (z >> 27)).wrapping_mul(0x94D0_49BB_1331_11EB);
        z ^ (z >> 31)
    }

    /// A number below `end`, which is not 0.
    pub fn below(&mut self, end: usize) -> usize {
        ((u128::from(self.word()) * end as u128) >> 64) as usize
    }

    /// A number from `lowest` to `highest`.
    pub fn from_to(&mut self, lowest: u32, highest: u32) -> u32 {
        lowest + self.below((highest - lowest) as usize + 1) as u32
    }

    /// True once in `times` on the average.
    pub fn once_in(&mut self, times: usize) -> bool {
        self.below(times) == 0
    }

    /// One of these.
    pub fn one_of<T: Copy>(&mut self, choices: &[T]) -> T {
        choices[self.below(choices.len())]
    }

    /// Any 16 bits.
    pub fn short(&mut self) -> u16 {
        self.word() as u16
    }

    /// So many bytes of any value.
    pub fn bytes(&mut self, count: usize) -> Vec<u8> {
        (0..count).map(|_| self.word() as u8).collect()
    }

    /// Puts these in any order.
    pub fn shuffle<T>(&mut self, items: &mut [T]) {
        for last in (1..items.len()).rev() {
            items.swap(last, self.below(last + 1));
        }
    }
}
