//! The calls on sixteen bytes in two words of 64 bits, for any processor: each is a few steps on all bytes of a word. A sum of
//! the low seven bits of bytes leaves their high bits for what it carries, so no byte carries into the next.

const LOW_BITS: u64 = 0x7f7f_7f7f_7f7f_7f7f;
const HIGH_BITS: u64 = !LOW_BITS;
const ONES: u64 = 0x0101_0101_0101_0101;

/// The first eight bytes and the last, in each word the first byte lowest.
#[cfg_attr(not(debug_assertions), inline(always))]
fn words(bytes: [u8; 16]) -> [u64; 2] {
    let number = u128::from_le_bytes(bytes);
    [number as u64, (number >> 64) as u64]
}

#[cfg_attr(not(debug_assertions), inline(always))]
fn bytes([low, high]: [u64; 2]) -> [u8; 16] {
    (u128::from(low) | u128::from(high) << 64).to_le_bytes()
}

#[cfg_attr(not(debug_assertions), inline(always))]
fn zip(a: [u8; 16], b: [u8; 16], op: impl Fn(u64, u64) -> u64) -> [u8; 16] {
    let ([a, b], [c, d]) = (words(a), words(b));
    bytes([op(a, c), op(b, d)])
}

/// In each byte 255 where its high bit is set, else 0.
#[cfg_attr(not(debug_assertions), inline(always))]
fn truths(word: u64) -> u64 {
    let ones = word >> 7 & ONES;
    (ones << 8).wrapping_sub(ones)
}

/// In each byte the high bit where the low seven bits aren't 0, and these seven changed.
#[cfg_attr(not(debug_assertions), inline(always))]
fn nonzero_low_bits(word: u64) -> u64 {
    (word & LOW_BITS) + LOW_BITS
}

/// In each byte the low seven bits of the difference, and the high bit where the first byte's low seven bits are at least the
/// second's.
#[cfg_attr(not(debug_assertions), inline(always))]
fn low_difference(a: u64, b: u64) -> u64 {
    (a | HIGH_BITS) - (b & LOW_BITS)
}

/// In each lane 255 where the bytes are equal, else 0.
#[cfg_attr(not(debug_assertions), inline(always))]
pub fn equal(a: [u8; 16], b: [u8; 16]) -> [u8; 16] {
    zip(a, b, |a, b| truths(!(nonzero_low_bits(a ^ b) | (a ^ b))))
}

/// In each lane 255 where the first byte is less, else 0.
#[cfg_attr(not(debug_assertions), inline(always))]
pub fn less(a: [u8; 16], b: [u8; 16]) -> [u8; 16] {
    zip(a, b, |a, b| truths(!a & b | !(a ^ b) & !low_difference(a, b)))
}

#[cfg_attr(not(debug_assertions), inline(always))]
pub fn sub(a: [u8; 16], b: [u8; 16]) -> [u8; 16] {
    zip(a, b, |a, b| low_difference(a, b) ^ !(a ^ b) & HIGH_BITS)
}

#[cfg_attr(not(debug_assertions), inline(always))]
pub fn bitand(a: [u8; 16], b: [u8; 16]) -> [u8; 16] {
    zip(a, b, |a, b| a & b)
}

#[cfg_attr(not(debug_assertions), inline(always))]
pub fn bitor(a: [u8; 16], b: [u8; 16]) -> [u8; 16] {
    zip(a, b, |a, b| a | b)
}

/// In each lane the one byte where the mask has 255, and the other where it has 0.
#[cfg_attr(not(debug_assertions), inline(always))]
pub fn select(mask: [u8; 16], one: [u8; 16], other: [u8; 16]) -> [u8; 16] {
    bitor(bitand(mask, one), zip(mask, other, |truths, other| !truths & other))
}

/// Of each lane of a mask a bit, the lowest lane's lowest.
#[cfg_attr(not(debug_assertions), inline(always))]
pub fn bits(mask: [u8; 16]) -> u64 {
    // each byte has the bit of its place, and the product has their sum in the highest byte
    let of_eight = |truths: u64| (truths & 0x8040_2010_0804_0201).wrapping_mul(ONES) >> 56;
    let [low, high] = words(mask);
    of_eight(low) | of_eight(high) << 8
}

/// The bytes from the second on, and after them the first of the others.
#[cfg_attr(not(debug_assertions), inline(always))]
pub fn next(a: [u8; 16], b: [u8; 16]) -> [u8; 16] {
    let ([low, high], [following, _]) = (words(a), words(b));
    bytes([low >> 8 | high << 56, high >> 8 | following << 56])
}
