//! What is an instruction or two of x86-64: the calls of `portable`, on sixteen bytes in a vector.

use core::arch::x86_64::*;

#[cfg_attr(not(debug_assertions), inline(always))]
fn vector(bytes: [u8; 16]) -> __m128i {
    // SAFETY: it is sixteen bytes, and each pattern of bits is a value of it.
    unsafe { core::mem::transmute(bytes) }
}

#[cfg_attr(not(debug_assertions), inline(always))]
fn bytes(vector: __m128i) -> [u8; 16] {
    // SAFETY: it is sixteen bytes, and each pattern of bits is a value of them.
    unsafe { core::mem::transmute(vector) }
}

#[cfg_attr(not(debug_assertions), inline(always))]
pub fn equal(a: [u8; 16], b: [u8; 16]) -> [u8; 16] {
    // SAFETY: the processor has SSE2, as `cfg` says where this module is named.
    bytes(unsafe { _mm_cmpeq_epi8(vector(a), vector(b)) })
}

/// SSE2 compares signed bytes alone, so the high bits of both are flipped first: this keeps which is less.
#[cfg_attr(not(debug_assertions), inline(always))]
pub fn less(a: [u8; 16], b: [u8; 16]) -> [u8; 16] {
    // SAFETY: the processor has SSE2, as `cfg` says where this module is named.
    let flipped = |bytes| unsafe { _mm_xor_si128(vector(bytes), _mm_set1_epi8(-128)) };
    // SAFETY: the processor has SSE2, as `cfg` says where this module is named.
    bytes(unsafe { _mm_cmplt_epi8(flipped(a), flipped(b)) })
}

#[cfg_attr(not(debug_assertions), inline(always))]
pub fn sub(a: [u8; 16], b: [u8; 16]) -> [u8; 16] {
    // SAFETY: the processor has SSE2, as `cfg` says where this module is named.
    bytes(unsafe { _mm_sub_epi8(vector(a), vector(b)) })
}

#[cfg_attr(not(debug_assertions), inline(always))]
pub fn bitand(a: [u8; 16], b: [u8; 16]) -> [u8; 16] {
    // SAFETY: the processor has SSE2, as `cfg` says where this module is named.
    bytes(unsafe { _mm_and_si128(vector(a), vector(b)) })
}

#[cfg_attr(not(debug_assertions), inline(always))]
pub fn bitor(a: [u8; 16], b: [u8; 16]) -> [u8; 16] {
    // SAFETY: the processor has SSE2, as `cfg` says where this module is named.
    bytes(unsafe { _mm_or_si128(vector(a), vector(b)) })
}

#[cfg_attr(not(debug_assertions), inline(always))]
pub fn select(mask: [u8; 16], one: [u8; 16], other: [u8; 16]) -> [u8; 16] {
    // SAFETY: the processor has SSE2, as `cfg` says where this module is named.
    bitor(bitand(mask, one), bytes(unsafe { _mm_andnot_si128(vector(mask), vector(other)) }))
}

#[cfg_attr(not(debug_assertions), inline(always))]
pub fn bits(mask: [u8; 16]) -> u64 {
    // it sets no bits above the sixteen
    // SAFETY: the processor has SSE2, as `cfg` says where this module is named.
    unsafe { _mm_movemask_epi8(vector(mask)) as u64 }
}

#[cfg_attr(not(debug_assertions), inline(always))]
pub fn next(a: [u8; 16], b: [u8; 16]) -> [u8; 16] {
    // SAFETY: the processor has SSE2, as `cfg` says where this module is named.
    bytes(unsafe { _mm_or_si128(_mm_srli_si128::<1>(vector(a)), _mm_slli_si128::<15>(vector(b))) })
}
