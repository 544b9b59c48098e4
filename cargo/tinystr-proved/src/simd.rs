//! The part of `std::simd` that the proved sources use, for stable Rust. Lanes are an array, which LLVM keeps in registers.
//! The calls on sixteen bytes are `machine`'s on x86-64 with SSE2, an instruction or two each, and else `portable`'s, in words of
//! 64 bits. Written by hand; `tests` has each call at all bytes that a lane can hold.
#![allow(non_camel_case_types)]

use core::ops::{Add, BitAnd, BitOr, BitXor, Not, Shr, Sub};

// (a target without an operating system may have no vectors)
#[cfg(all(target_arch = "x86_64", target_feature = "sse2", not(portable_lanes)))]
mod machine;
// on x86-64 the tests call it, and what `IS_PORTABLE` leaves out
#[allow(dead_code)]
mod portable;
#[cfg(test)]
mod tests;

#[cfg(any(portable_lanes, not(all(target_arch = "x86_64", target_feature = "sse2"))))]
use portable as machine;

/// Whether the calls on sixteen bytes are `portable`'s. A few functions then have a shorter form in words of 64 bits.
pub const IS_PORTABLE: bool = cfg!(any(portable_lanes, not(all(target_arch = "x86_64", target_feature = "sse2"))));

/// `L` numbers, the lowest lane first.
#[derive(Clone, Copy, Debug)]
pub struct Lanes<T, const L: usize>([T; L]);

pub type u8x8 = Lanes<u8, 8>;
pub type u8x16 = Lanes<u8, 16>;
pub type u64x2 = Lanes<u64, 2>;

/// A truth for each of sixteen lanes: 255 or 0.
#[derive(Clone, Copy, Debug)]
pub struct Mask16([u8; 16]);

/// A truth for each of eight lanes: 255 or 0 in the first eight, and then 0.
#[derive(Clone, Copy, Debug)]
pub struct Mask8([u8; 16]);

impl<T: Copy, const L: usize> Lanes<T, L> {
    #[cfg_attr(not(debug_assertions), inline(always))]
    pub const fn from_array(array: [T; L]) -> Self {
        Lanes(array)
    }

    #[cfg_attr(not(debug_assertions), inline(always))]
    pub const fn to_array(self) -> [T; L] {
        self.0
    }

    /// The first `L` elements of a slice: it panics where there are fewer.
    #[cfg_attr(not(debug_assertions), inline(always))]
    pub fn from_slice(slice: &[T]) -> Self {
        Lanes(*slice.first_chunk().unwrap())
    }

    #[cfg_attr(not(debug_assertions), inline(always))]
    pub const fn splat(value: T) -> Self {
        Lanes([value; L])
    }
}

/// The operators on 64-bit numbers, lane by lane, also as functions that constants can call. A loop keeps two numbers in one
/// register: written out one after the other they would take two. The functions are inlined late, when their loops are gone,
/// and not by `inline(always)`: then a question would take more instructions.
macro_rules! on_numbers {
    ($($trait:ident $call:ident |$a:ident, $b:ident| $made:expr;)*) => {$(
        impl<const L: usize> Lanes<u64, L> {
            #[inline]
            pub const fn $call(self, other: Self) -> Self {
                let mut lanes = self.0;
                let mut i = 0;
                while i < L {
                    let ($a, $b) = (self.0[i], other.0[i]);
                    lanes[i] = $made;
                    i += 1;
                }
                Lanes(lanes)
            }
        }

        impl<const L: usize> $trait for Lanes<u64, L> {
            type Output = Self;

            #[cfg_attr(not(debug_assertions), inline(always))]
            fn $call(self, other: Self) -> Self {
                Lanes::$call(self, other)
            }
        }
    )*};
}

on_numbers! {
    Add add |a, b| a.wrapping_add(b);
    BitAnd bitand |a, b| a & b;
    BitOr bitor |a, b| a | b;
    BitXor bitxor |a, b| a ^ b;
    Shr shr |a, b| a >> b;
}

impl<const L: usize> Lanes<u64, L> {
    #[inline]
    pub const fn not(self) -> Self {
        self.bitxor(Lanes::splat(u64::MAX))
    }
}

impl<const L: usize> Not for Lanes<u64, L> {
    type Output = Self;

    #[cfg_attr(not(debug_assertions), inline(always))]
    fn not(self) -> Self {
        Lanes::not(self)
    }
}

/// The operators on bytes. Eight are the first half of sixteen.
macro_rules! on_bytes {
    ($($trait:ident $call:ident;)*) => {$(
        impl $trait for u8x16 {
            type Output = Self;

            #[cfg_attr(not(debug_assertions), inline(always))]
            fn $call(self, other: Self) -> Self {
                Lanes(machine::$call(self.0, other.0))
            }
        }

        impl $trait for u8x8 {
            type Output = Self;

            #[cfg_attr(not(debug_assertions), inline(always))]
            fn $call(self, other: Self) -> Self {
                Lanes(first_half(machine::$call(self.widened(), other.widened())))
            }
        }
    )*};
}

on_bytes! {
    Sub sub;
    BitAnd bitand;
    BitOr bitor;
}

#[cfg_attr(not(debug_assertions), inline(always))]
fn first_half(bytes: [u8; 16]) -> [u8; 8] {
    (u128::from_le_bytes(bytes) as u64).to_le_bytes()
}

impl u8x8 {
    /// Its bytes, and then zeros.
    #[cfg_attr(not(debug_assertions), inline(always))]
    fn widened(self) -> [u8; 16] {
        u128::from(u64::from_le_bytes(self.0)).to_le_bytes()
    }

    #[cfg_attr(not(debug_assertions), inline(always))]
    pub fn simd_lt(self, other: Self) -> Mask8 {
        Mask8(machine::less(self.widened(), other.widened()))
    }
}

impl Mask8 {
    /// The truth of lane `i` in bit `i`.
    #[cfg_attr(not(debug_assertions), inline(always))]
    pub fn to_bitmask(self) -> u64 {
        machine::bits(self.0)
    }
}

impl u8x16 {
    #[cfg_attr(not(debug_assertions), inline(always))]
    pub fn simd_eq(self, other: Self) -> Mask16 {
        Mask16(machine::equal(self.0, other.0))
    }

    // (identifiers alone compare so)
    #[cfg_attr(not(feature = "identifiers"), allow(dead_code))]
    #[cfg_attr(not(debug_assertions), inline(always))]
    pub fn simd_lt(self, other: Self) -> Mask16 {
        Mask16(machine::less(self.0, other.0))
    }

    /// The lanes at these places of this vector followed by the other.
    #[cfg_attr(not(debug_assertions), inline(always))]
    pub fn shuffle(self, other: Self, places: [usize; 16]) -> Self {
        if matches!(places, [1, 2, 3, 4, 5, 6, 7, 8, 9, 10, 11, 12, 13, 14, 15, 16]) {
            return Lanes(machine::next(self.0, other.0));
        }
        Lanes(places.map(|place| if place < 16 { self.0[place] } else { other.0[place - 16] }))
    }
}

// Compares all lanes in one step.
impl PartialEq for u8x16 {
    #[cfg_attr(not(debug_assertions), inline(always))]
    fn eq(&self, other: &Self) -> bool {
        if IS_PORTABLE {
            return u128::from_le_bytes(self.0) == u128::from_le_bytes(other.0);
        }
        self.simd_eq(*other).to_bitmask() == 0xffff
    }
}

impl BitOr for Mask16 {
    type Output = Self;

    #[cfg_attr(not(debug_assertions), inline(always))]
    fn bitor(self, other: Self) -> Self {
        Mask16(machine::bitor(self.0, other.0))
    }
}

impl Mask16 {
    /// The truth of lane `i` in bit `i`.
    #[cfg_attr(not(debug_assertions), inline(always))]
    pub fn to_bitmask(self) -> u64 {
        machine::bits(self.0)
    }

    /// Each lane of the one where it is true, else of the other.
    #[cfg_attr(not(debug_assertions), inline(always))]
    pub fn select(self, one: u8x16, other: u8x16) -> u8x16 {
        Lanes(machine::select(self.0, one.0, other.0))
    }
}

impl u64x2 {
    #[cfg_attr(not(debug_assertions), inline(always))]
    pub fn to_le_bytes(self) -> u8x16 {
        let number = u128::from(self.0[0]) | u128::from(self.0[1]) << 64;
        Lanes(number.to_le_bytes())
    }
}
