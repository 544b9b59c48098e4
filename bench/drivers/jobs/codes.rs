//! Codes of a capacity, padded with NULs.

use crate::random::{letters_of, Random, MIXED, UPPERCASE};

fn padded<const N: usize>(text: &[u8]) -> [u8; N] {
    let mut code = [0; N];
    code[..text.len()].copy_from_slice(text);
    code
}

/// A code as long as the capacity, or nearly, that is alike in all but its last bytes to others.
pub fn long_code<const N: usize>(random: &mut Random) -> [u8; N] {
    let mut raw = [b'~'; 264];
    let common = letters_of(random.bits() % 8, UPPERCASE);
    let own = letters_of(random.bits(), MIXED);
    let more = letters_of(random.bits(), MIXED);
    let start = N.saturating_sub(17).min(240);
    raw[start..start + 8].copy_from_slice(&common);
    raw[start + 1..start + 9].copy_from_slice(&own);
    raw[start + 9..start + 17].copy_from_slice(&more);
    padded(&raw[..N.min(start + 17 - random.below(3))])
}

/// A code of at most sixteen bytes of letters, digits and two signs, most of them as long as the capacity.
pub fn short_code<const N: usize>(random: &mut Random) -> [u8; N] {
    let bits = random.bits();
    let mut raw = [0; 16];
    raw[..8].copy_from_slice(&letters_of(bits, MIXED));
    if N > 8 {
        raw[8..].copy_from_slice(&letters_of(random.bits(), MIXED));
    }
    let missing = if N > 4 && bits >> 62 == 0 { (bits >> 56) as usize % 4 } else { 0 };
    padded(&raw[..N.min(16 - missing)])
}
