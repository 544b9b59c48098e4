//! Each call returns in each lane what `std::simd` says of it: calls on bytes at all bytes that a lane can hold, masks at all
//! masks. `machine` and `portable` are tested alike.

use super::*;

/// A pair of these has a call of `machine` and the same call of `portable`.
type Binary = fn([u8; 16], [u8; 16]) -> [u8; 16];

const STEP: usize = 4099;

/// All pairs of bytes in each of `L` lanes: pair `k` in lane 0, and others beside it, which meet all lanes as `k` goes on.
fn each_pair<const L: usize>(call: impl Fn([u8; L], [u8; L])) {
    for k in 0..0x10000 {
        let pair = |lane: usize| (k + lane * STEP) % 0x10000;
        call(core::array::from_fn(|lane| (pair(lane) / 256) as u8), core::array::from_fn(|lane| (pair(lane) % 256) as u8));
    }
}

fn truth(is_true: bool) -> u8 {
    if is_true { 255 } else { 0 }
}

/// A call on two vectors is its definition, lane by lane.
fn is_lanewise(on_vectors: impl Fn(u8x16, u8x16) -> [u8; 16], direct: [Binary; 2], define: fn(u8, u8) -> u8) {
    each_pair(|a, b| {
        let wanted = core::array::from_fn(|i| define(a[i], b[i]));
        assert_eq!(on_vectors(Lanes(a), Lanes(b)), wanted);
        assert_eq!(direct.map(|call| call(a, b)), [wanted; 2]);
    });
}

#[test]
fn sixteen_lanes() {
    is_lanewise(|a, b| (a - b).0, [machine::sub, portable::sub], u8::wrapping_sub);
    is_lanewise(|a, b| (a & b).0, [machine::bitand, portable::bitand], |a, b| a & b);
    is_lanewise(|a, b| (a | b).0, [machine::bitor, portable::bitor], |a, b| a | b);
    is_lanewise(|a, b| a.simd_eq(b).0, [machine::equal, portable::equal], |a, b| truth(a == b));
    is_lanewise(|a, b| a.simd_lt(b).0, [machine::less, portable::less], |a, b| truth(a < b));
}

#[test]
fn eight_lanes() {
    each_pair(|a: [u8; 8], b: [u8; 8]| {
        assert_eq!((Lanes(a) - Lanes(b)).0, core::array::from_fn(|i| a[i].wrapping_sub(b[i])));
        assert_eq!((Lanes(a) & Lanes(b)).0, core::array::from_fn(|i| a[i] & b[i]));
        assert_eq!((Lanes(a) | Lanes(b)).0, core::array::from_fn(|i| a[i] | b[i]));
        assert_eq!(Lanes(a).simd_lt(Lanes(b)).to_bitmask(), (0..8).map(|i| u64::from(a[i] < b[i]) << i).sum());
    });
}

/// The mask whose lanes are the bits of a number.
fn mask(bits: u64) -> [u8; 16] {
    core::array::from_fn(|lane| truth(bits >> lane & 1 == 1))
}

#[test]
fn masks() {
    for bits in 0..0x10000 {
        let lanes = mask(bits);
        assert_eq!([machine::bits(lanes), portable::bits(lanes)], [bits; 2]);
        assert_eq!(Mask16(lanes).to_bitmask(), bits);
        assert_eq!(Lanes(lanes) == Lanes([255; 16]), bits == 0xffff);
        assert_eq!(Lanes([255; 16]) == Lanes(lanes), bits == 0xffff);
        let one = core::array::from_fn(|lane| (bits as u8).wrapping_add(lane as u8 * 5));
        let other = core::array::from_fn(|lane| ((bits >> 8) as u8).wrapping_sub(lane as u8 * 3));
        let wanted = core::array::from_fn(|lane| if bits >> lane & 1 == 1 { one[lane] } else { other[lane] });
        assert_eq!([machine::select(lanes, one, other), portable::select(lanes, one, other)], [wanted; 2]);
        assert_eq!(Mask16(lanes).select(Lanes(one), Lanes(other)).0, wanted);
    }
}

/// Both choices of a mask at all pairs of bytes.
#[test]
fn selections() {
    each_pair(|a, b| {
        for lanes in [mask(0x5555), mask(0xaaaa)] {
            let wanted = core::array::from_fn(|i| if lanes[i] == 255 { a[i] } else { b[i] });
            assert_eq!([machine::select(lanes, a, b), portable::select(lanes, a, b)], [wanted; 2]);
        }
    });
}

/// Vectors are equal exactly if no lane differs.
#[test]
fn equality() {
    each_pair(|a: [u8; 16], b| {
        assert_eq!(Lanes(a) == Lanes(b), a == b);
        let lane = usize::from(a[0]) % 16;
        let mut like = a;
        assert!(Lanes(a) == Lanes(like));
        like[lane] = b[lane];
        assert_eq!(Lanes(a) == Lanes(like), a[lane] == b[lane]);
    });
}

/// Each place of two vectors in each lane.
#[test]
fn lanes_at_places() {
    let (one, other) = (core::array::from_fn(|lane| 3 + lane as u8), core::array::from_fn(|lane| 100 + lane as u8));
    let both: [u8; 32] = core::array::from_fn(|place| if place < 16 { one[place] } else { other[place - 16] });
    for first in 0..32 {
        for step in [1, 2, 5] {
            let of_two = core::array::from_fn(|lane| (first + step * lane) % 32);
            assert_eq!(Lanes(one).shuffle(Lanes(other), of_two).0, of_two.map(|place| both[place]));
        }
    }
    // those of `next`, with another place in a lane
    for (lane, other_place) in (0..16).flat_map(|lane| [lane, lane + 2].map(|place| (lane, place))) {
        let places = core::array::from_fn(|it| if it == lane { other_place } else { it + 1 });
        assert_eq!(Lanes(one).shuffle(Lanes(other), places).0, places.map(|place| both[place]));
    }
}

/// The lanes one further on, at all pairs of bytes beside each other.
#[test]
fn next_lanes() {
    each_pair(|a, b| {
        let next = core::array::from_fn(|i| if i == 15 { b[0] } else { a[i + 1] });
        let one_further = Lanes(a).shuffle(Lanes(b), [1, 2, 3, 4, 5, 6, 7, 8, 9, 10, 11, 12, 13, 14, 15, 16]);
        assert_eq!([machine::next(a, b), portable::next(a, b), one_further.0], [next; 3]);
    });
}

/// The characters of a vector and others in the place of the rest: in words and by comparisons.
#[test]
fn characters() {
    each_pair(|a, b| {
        let wanted = core::array::from_fn(|i| if (1..=127).contains(&a[i]) { a[i] } else { b[i] });
        let are_characters = (Lanes(a) - Lanes([1; 16])).simd_lt(Lanes([127; 16]));
        assert_eq!(are_characters.select(Lanes(a), Lanes(b)).0, wanted);
    });
}

#[test]
fn numbers() {
    let mut state = 88172645463325252u64;
    let mut next = || {
        state ^= state << 13;
        state ^= state >> 7;
        state ^= state << 17;
        // also numbers of few bits, and those with few zeros
        match state % 4 {
            0 => state >> (state >> 58),
            1 => !(state >> (state >> 58)),
            _ => state,
        }
    };
    for _ in 0..100_000 {
        let [a, b, c, d] = [0; 4].map(|_| next());
        let (left, right) = (u64x2::from_array([a, b]), u64x2::from_array([c, d]));
        assert_eq!((left + right).0, [a.wrapping_add(c), b.wrapping_add(d)]);
        assert_eq!((left & right).0, [a & c, b & d]);
        assert_eq!((left | right).0, [a | c, b | d]);
        assert_eq!((left ^ right).0, [a ^ c, b ^ d]);
        assert_eq!((!left).0, [!a, !b]);
        assert_eq!((left >> u64x2::from_array([2, c % 64])).0, [a >> 2, b >> (c % 64)]);
        let bytes: [u8; 16] = core::array::from_fn(|i| ([a, b][i / 8] >> (8 * (i % 8))) as u8);
        assert_eq!(left.to_le_bytes().0, bytes);
    }
}

#[test]
#[should_panic]
fn fewer_bytes_than_lanes() {
    u8x16::from_slice(&[0; 15]);
}
