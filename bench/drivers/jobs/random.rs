//! Numbers that a seed gives, as crates/workloads makes them.

/// Numbers by Steele, Lea and Flood's SplitMix64.
pub struct Random {
    state: u64,
}

impl Random {
    pub fn new(seed: u64) -> Random {
        Random { state: seed }
    }

    pub fn bits(&mut self) -> u64 {
        self.state = self.state.wrapping_add(0x9e37_79b9_7f4a_7c15);
        let mixed = (self.state ^ (self.state >> 30)).wrapping_mul(0xbf58_476d_1ce4_e5b9);
        let mixed = (mixed ^ (mixed >> 27)).wrapping_mul(0x94d0_49bb_1331_11eb);
        mixed ^ (mixed >> 31)
    }

    /// A number below a bound.
    pub fn below(&mut self, bound: u32) -> usize {
        (self.bits() as u32 % bound) as usize
    }

    /// True with a probability of `percent` in a hundred.
    pub fn with_probability(&mut self, percent: usize) -> bool {
        self.below(100) < percent
    }

    /// One of a list.
    pub fn one_of<T: Copy>(&mut self, list: &[T]) -> T {
        list[self.below(list.len() as u32)]
    }
}

/// Appends `len` consecutive letters of the given ones, at most eight.
pub fn push_word(bytes: &mut Vec<u8>, random: &mut Random, letters: &[u8; 64], len: usize) {
    let start = (random.bits() % 56) as usize;
    bytes.extend_from_slice(&letters[start..start + len.min(8)]);
}

/// Eight of 64 characters, by the bits of a number.
pub fn letters_of(bits: u64, letters: &[u8; 64]) -> [u8; 8] {
    std::array::from_fn(|i| letters[(bits >> (6 * i) & 63) as usize])
}

/// Letters in lowercase, some often.
pub const LOWERCASE: &[u8; 64] = b"abcdefghijklmnopqrstuvwxyzaeioulnrstaeioulnrstaeioaeioaeiodrstlm";

/// Letters in uppercase, some often.
pub const UPPERCASE: &[u8; 64] = b"ABCDEFGHIJKLMNOPQRSTUVWXYZAEIOULNRSTAEIOULNRSTAEIOAEIOAEIODRSTLM";

/// Letters and digits.
pub const MIXED: &[u8; 64] = b"ABCDEFGHIJKLMNOPQRSTUVWXYZabcdefghijklmnopqrstuvwxyz0123456789-_";
