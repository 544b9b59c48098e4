//! Readers return what is defined with a unit of each kind at each place, and `concat` and `len` with texts of each length.

#[macro_use]
mod definitions;

use definitions::{assert_read, assert_read_raw, lossy, padded, read, with};
use tinystr::TinyAsciiStr;

/// Characters that all differ, so that two in each other's places are seen.
fn characters(places: std::ops::Range<usize>) -> Vec<u8> {
    places.map(|place| (1 + (11 + 37 * place) % 127) as u8).collect()
}

fn reads_as_defined<const N: usize>(units: &[u16], replacement: u8) {
    assert_eq!(TinyAsciiStr::<N>::try_from_utf16(units).map(|text| *text.all_bytes()), read(units), "{units:?}");
    let read_lossily = TinyAsciiStr::<N>::from_utf16_lossy(units, replacement);
    assert_eq!(*read_lossily.all_bytes(), lossy(units, replacement), "{units:?}");
    if let Ok(bytes) = units.iter().map(|unit| u8::try_from(*unit)).collect::<Result<Vec<_>, _>>() {
        assert_read::<N>(&bytes, replacement);
    }
}

/// At each length with one faulty unit, and with a second one at the end.
fn readers<const N: usize>() {
    const FAULTS: [u16; 6] = [0, 0x80, 0xff, 0x100, 0x161, 0xffff];
    for len in 0..=N + 2 {
        let text: Vec<u16> = characters(0..len).into_iter().map(u16::from).collect();
        reads_as_defined::<N>(&text, b'?');
        for (place, fault) in (0..len).flat_map(|place| FAULTS.map(|fault| (place, fault))) {
            let faulty = with(&text, place, fault);
            reads_as_defined::<N>(&faulty, 1);
            for last in FAULTS {
                reads_as_defined::<N>(&with(&faulty, len - 1, last), 127);
            }
        }
    }
}

#[test]
fn readers_read_or_refuse_as_defined() {
    at_each_capacity!(readers);
}

/// With each byte at each place of a text as long as the capacity, and with some bytes at each place of a shorter one and its NULs.
fn raw_reader<const N: usize>() {
    for len in 0..=N {
        let bytes: [u8; N] = padded(characters(0..len));
        assert_read_raw(bytes);
        for place in 0..N {
            for byte in (0..=255).filter(|byte| len == N || [0, 1, 127, 128, 255].contains(byte)) {
                let mut changed = bytes;
                changed[place] = byte;
                assert_read_raw(changed);
            }
        }
    }
}

#[test]
fn the_reader_of_arrays_reads_or_refuses_as_defined() {
    at_each_capacity!(raw_reader);
}

/// Lengths are summed in parts of long texts.
fn lengths<const N: usize>() {
    for len in 0..=N {
        let text: Vec<u8> = (0..len).map(|place| [1, 127][place % 2]).collect();
        assert_eq!(TinyAsciiStr::<N>::try_from_utf8(&text).unwrap().len(), len);
    }
}

#[test]
fn long_texts_have_their_lengths() {
    at_each_capacity!(lengths: 239 240 241 247 248 256 481 488);
}

/// Both texts at each length.
fn concat<const N: usize, const M: usize, const Q: usize>() {
    for (len, other) in (0..=N).flat_map(|len| (0..=M).map(move |other| (len, other))) {
        let (front, back) = (characters(0..len), characters(64..64 + other));
        let texts = (TinyAsciiStr::<N>::try_from_utf8(&front).unwrap(), TinyAsciiStr::<M>::try_from_utf8(&back).unwrap());
        let joined: [u8; Q] = padded(front.into_iter().chain(back));
        assert_eq!(*texts.0.concat::<M, Q>(texts.1).all_bytes(), joined, "{texts:?}");
    }
}

/// To targets that cut the second text or both, and to one that has room.
fn concats<const N: usize>() {
    macro_rules! onto {
        ($($m:literal $q:literal)*) => {$(
            concat::<N, $m, $q>();
            concat::<N, $m, 97>();
        )*};
    }
    onto!(0 4 3 8 8 13 9 24 17 40);
}

#[test]
fn concatenated_texts_are_as_defined() {
    at_each_capacity!(concats);
}
