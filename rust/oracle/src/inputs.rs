//! Where the driver's inputs come from: a splitmix64 generator of its own, so that the originals' answers do not choose
//! what the originals are asked. The order of the calls fixes every input.

use crate::access::Row;

/// The seed, the bytes of "SIMJALDE". Each kind of line has a generator of its own, from this number plus the kind.
pub const INPUT_SEED: u64 = 0x5349_4D4A_414C_4445;

pub struct Inputs {
    state: u64,
}

impl Inputs {
    pub fn of_kind(kind: u64) -> Self {
        Self {
            state: INPUT_SEED + kind,
        }
    }

    /// A generator from any number.
    pub fn from_seed(seed: u64) -> Self {
        Self { state: seed }
    }

    /// Any 64-bit word.
    pub fn word(&mut self) -> u64 {
        self.state = self.state.wrapping_add(0x9E37_79B9_7F4A_7C15);
        let z = self.state;
        let z = (z ^ (z >> 30)).wrapping_mul(0xBF58_476D_1CE4_E5B9);
        let z = (z ^ (z >> 27)).wrapping_mul(0x94D0_49BB_1331_11EB);
        z ^ (z >> 31)
    }

    /// A word below 2^width, for a width from 1 to 64.
    pub fn word_of_width(&mut self, width: u32) -> u64 {
        self.word() >> (64 - width)
    }

    /// A row of words below 2^width, for a width from 1 to 64.
    pub fn row(&mut self, width: u32) -> Row {
        std::array::from_fn(|_| self.word_of_width(width))
    }

    /// A number below a small bound.
    pub fn below(&mut self, bound: u64) -> u64 {
        self.word() % bound
    }

    /// One of a few.
    pub fn one_of<T: Copy>(&mut self, items: &[T]) -> T {
        items[self.below(items.len() as u64) as usize]
    }
}

/// Sixteen words: the given ones over and over.
pub fn repeated(words: &[u64]) -> Row {
    std::array::from_fn(|place| words[place % words.len()])
}

/// Sixteen points of one variable.
pub fn one_variable(words: &[u64]) -> Vec<Vec<u64>> {
    repeated(words).iter().map(|&word| vec![word]).collect()
}
