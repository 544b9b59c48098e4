//! A digest of results, as crates/workloads makes it.

use tinystr::{ParseError, TinyAsciiStr};

/// A number computed from all results, by the step of FxHash.
pub struct Digest {
    state: u64,
}

impl Digest {
    pub fn new() -> Digest {
        Digest { state: 0 }
    }

    pub fn add(&mut self, number: u64) {
        self.state = (self.state.rotate_left(5) ^ number).wrapping_mul(0x517c_c1b7_2722_0a95);
    }

    pub fn add_bytes(&mut self, bytes: &[u8]) {
        self.add(bytes.len() as u64);
        let (words, rest) = bytes.as_chunks::<8>();
        for word in words {
            self.add(u64::from_le_bytes(*word));
        }
        self.add(rest.iter().fold(0, |last, byte| (last << 8) ^ u64::from(*byte)));
    }

    /// A text with its padding.
    pub fn add_text<const N: usize>(&mut self, text: &TinyAsciiStr<N>) {
        self.add_bytes(text.all_bytes());
    }

    /// The place of a key, or that where it would be inserted.
    pub fn add_place(&mut self, place: Result<usize, usize>) {
        self.add(match place {
            Ok(index) => index as u64,
            Err(index) => !(index as u64),
        });
    }

    pub fn add_fault(&mut self, fault: ParseError) {
        self.add(match fault {
            ParseError::TooLong { max, len } => (max as u64).rotate_left(32) ^ len as u64,
            ParseError::ContainsNull => 1 << 32,
            ParseError::NonAscii => 1 << 33,
            _ => unreachable!(),
        });
    }

    pub fn value(&self) -> u64 {
        self.state
    }
}
