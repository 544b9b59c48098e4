//! What `const fn` has in words of 64 bits, since it calls no vector: `concat` past eight bytes, loads of four 16-bit numbers, and
//! lossy texts of at most sixteen bytes. Written by hand. A sum of the low seven bits of bytes leaves their high bits for what it
//! carries, so no byte carries into the next.

use crate::words::in_constants::bytes;
use crate::words::padded::copying::append;
use crate::words::padded::resize_at_once;

const LOW_BITS: u64 = 0x7f7f_7f7f_7f7f_7f7f;
const HIGH_BITS: u64 = !LOW_BITS;
const ONES: u64 = 0x0101_0101_0101_0101;

/// `a.min(b)`, which a `const fn` can't call.
#[cfg_attr(not(debug_assertions), inline(always))]
pub(crate) const fn least(a: usize, b: usize) -> usize {
    if b < a { b } else { a }
}

/// The first `Q` bytes of two texts joined, each in at most sixteen bytes.
#[cfg_attr(not(debug_assertions), inline(always))]
pub const fn concat<const N: usize, const M: usize, const Q: usize>(first: &[u8; N], len: usize, second: &[u8; M]) -> [u8; Q] {
    if N % 8 == 0 && len == N {
        let mut bytes = resize_at_once(first);
        append(&mut bytes, least(N, Q), second);
        return bytes;
    }
    if N <= 8 && M <= 8 {
        let (front, back) = (u64::from_le_bytes(resize_at_once(first)), u64::from_le_bytes(resize_at_once(second)));
        let bits = 8 * len;
        let halves = [front | back << bits, back >> 8 >> (56 - bits)];
        return resize_at_once([halves[0].to_le_bytes(), halves[1].to_le_bytes()].as_flattened());
    }
    let (front, back) = (u128::from_le_bytes(resize_at_once(first)), u128::from_le_bytes(resize_at_once(second)));
    let bits = 8 * len;
    let halves = [front | back << bits, back >> 8 >> (120 - bits)];
    resize_at_once([halves[0].to_le_bytes(), halves[1].to_le_bytes()].as_flattened())
}

/// The low bytes of four numbers, of which the high bytes are 0.
#[cfg_attr(not(debug_assertions), inline(always))]
pub const fn word_of_four(units: &[u16]) -> u32 {
    let [a, b, c, d] = *units.first_chunk::<4>().unwrap();
    let given = a as u64 | (b as u64) << 16 | (c as u64) << 32 | (d as u64) << 48;
    // two pairs, and then both
    let pairs = given.wrapping_mul(0x101) & 0x00ff_ff00_00ff_ff00;
    (pairs.wrapping_mul(0x1_0001) >> 24) as u32
}

/// At most sixteen bytes, with the replacement for each that isn't a character, and then NULs. Most texts have only characters.
#[cfg_attr(not(debug_assertions), inline(always))]
pub const fn lossy_word<const N: usize>(units: &[u8], replacement: u8) -> [u8; N] {
    let len = units.len();
    if N <= 8 || len <= 8 {
        let mut text = bytes::Load::<u64>::load(units);
        if high_bits_of_faults(text, len) != 0 {
            text = replaced(text, len, replacement);
        }
        return resize_at_once(&text.to_le_bytes());
    }
    // an array of a known length is tested in a vector
    let is_full = len == N;
    let is_text = is_full && bytes::are_characters(units);
    let mut low = bytes::Load::<u64>::load(units.split_at(8).0);
    let mut high = bytes::Load::<u64>::load(units.split_at(len - 8).1) >> (8 * (16 - len));
    if !is_text && (is_full || high_bits_of_faults(low, 8) | high_bits_of_faults(high, len - 8) != 0) {
        (low, high) = (replaced(low, 8, replacement), replaced(high, len - 8, replacement));
    }
    resize_at_once([low.to_le_bytes(), high.to_le_bytes()].as_flattened())
}

/// 1 in each of the first bytes, by their number. A table takes fewer steps than a shift.
static FIRST_ONES: [u64; 9] = {
    let mut ones = [0; 9];
    let mut count = 1;
    while count <= 8 {
        ones[count] = ONES >> (64 - 8 * count);
        count += 1;
    }
    ones
};

/// Whether one of the first `len` bytes isn't a character, where the others are NULs: some high bit is set. A byte above the first
/// such one may have it too.
#[cfg_attr(not(debug_assertions), inline(always))]
const fn high_bits_of_faults(text: u64, len: usize) -> u64 {
    (text.wrapping_sub(FIRST_ONES[len]) | text) & HIGH_BITS
}

/// The first `len` bytes, with the replacement for each that isn't a character.
#[cold]
const fn replaced(text: u64, len: usize, replacement: u8) -> u64 {
    let characters = ((text & LOW_BITS) + LOW_BITS) & !text & HIGH_BITS;
    let kept = (characters << 1).wrapping_sub(characters >> 7);
    let others = FIRST_ONES[len] * replacement as u64;
    others ^ (text ^ others) & kept
}
