//! Random numbers from a seed: Marsaglia's xorshift with a multiplied output. A run with the same
//! seed makes the same cases.

pub struct Generator {
    state: u64,
}

impl Generator {
    pub fn new(seed: u64) -> Generator {
        // The generator never leaves 0, so a seed that would give 0 takes another state.
        let state = match seed ^ 0x9E37_79B9_7F4A_7C15 {
            0 => 1,
            state => state,
        };
        Generator { state }
    }

    /// Any word.
    pub fn word(&mut self) -> u32 {
        self.word_and_coin().0
    }

    /// Any word, and a coin tossed beside it: both from one step, for lists of millions.
    pub fn word_and_coin(&mut self) -> (u32, bool) {
        self.state ^= self.state >> 12;
        self.state ^= self.state << 25;
        self.state ^= self.state >> 27;
        // The upper half of the product is the better one; the coin is the first bit below it.
        let product = self.state.wrapping_mul(0x2545_F491_4F6C_DD1D);
        ((product >> 32) as u32, product >> 31 & 1 == 1)
    }

    /// A number below the bound.
    pub fn below(&mut self, bound: u32) -> u32 {
        ((u64::from(self.word()) * u64::from(bound)) >> 32) as u32
    }

    /// True once in `many` times.
    pub fn once_in(&mut self, many: u32) -> bool {
        self.below(many) == 0
    }

    /// One of the values given.
    pub fn pick<T: Copy>(&mut self, values: &[T]) -> T {
        values[self.below(values.len() as u32) as usize]
    }
}
