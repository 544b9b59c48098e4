//! What calls return by the definitions, in plain loops. A text is a list of bytes from 1 to 127, and a value of capacity `N` is
//! `N` bytes: a text and then NULs.
#![allow(dead_code, unused_macros)] // each file of tests uses a part
#![allow(clippy::manual_is_ascii_check)] // classes are ranges, as they are defined

use tinystr::{Case, ParseError, Question, TinyAsciiStr};

/// Calls a function at capacities on both sides of each size of a word, or at those that are listed.
macro_rules! at_each_capacity {
    ($check:ident) => {
        at_each_capacity!($check: 0 1 2 3 4 5 6 7 8 9 10 11 12 13 14 15 16 17 24 31 32 33 40 64)
    };
    ($check:ident: $($n:literal)*) => {
        $($check::<$n>();)*
    };
}

/// A list with another item at a place.
pub fn with<T: Copy>(list: &[T], place: usize, item: T) -> Vec<T> {
    let mut changed = list.to_vec();
    changed[place] = item;
    changed
}

type Class = fn(u8) -> bool;

/// `N` bytes: a text, and then NULs.
pub fn padded<const N: usize>(text: impl IntoIterator<Item = u8>) -> [u8; N] {
    let mut bytes = [0; N];
    for (place, character) in bytes.iter_mut().zip(text) {
        *place = character;
    }
    bytes
}

/// The first unit above 127, or from 1 to 127 after a NUL.
pub fn first_fault<U: Copy + Into<u16>>(units: &[U]) -> Option<ParseError> {
    let mut is_after_nul = false;
    for unit in units {
        match (*unit).into() {
            128.. => return Some(ParseError::NonAscii),
            0 => is_after_nul = true,
            _ if is_after_nul => return Some(ParseError::ContainsNull),
            _ => {}
        }
    }
    None
}

/// What a reader of a list returns: the bytes of the value.
pub fn read<const N: usize, U: Copy + Into<u16>>(units: &[U]) -> Result<[u8; N], ParseError> {
    if units.len() > N {
        return Err(ParseError::TooLong { max: N, len: units.len() });
    }
    match first_fault(units) {
        Some(fault) => Err(fault),
        None if units.iter().any(|unit| (*unit).into() == 0) => Err(ParseError::ContainsNull),
        None => Ok(padded(units.iter().map(|unit| (*unit).into() as u8))),
    }
}

/// What the reader of `N` bytes returns.
pub fn read_raw<const N: usize>(raw: [u8; N]) -> Result<[u8; N], ParseError> {
    first_fault(&raw).map_or(Ok(raw), Err)
}

/// What a lossy reader returns.
pub fn lossy<const N: usize, U: Copy + Into<u16>>(units: &[U], replacement: u8) -> [u8; N] {
    padded(units.iter().map(|unit| match (*unit).into() {
        character @ 1..=127 => character as u8,
        _ => replacement,
    }))
}

const LETTER: Class = |byte| matches!(byte, b'A'..=b'Z' | b'a'..=b'z');
const LETTER_OR_DIGIT: Class = |byte| matches!(byte, b'A'..=b'Z' | b'a'..=b'z' | b'0'..=b'9');
const DIGIT: Class = |byte| matches!(byte, b'0'..=b'9');
const LOWER: Class = |byte| matches!(byte, b'a'..=b'z');
const UPPER: Class = |byte| matches!(byte, b'A'..=b'Z');
const NOT_LOWER: Class = |byte| !matches!(byte, b'a'..=b'z');
const NOT_UPPER: Class = |byte| !matches!(byte, b'A'..=b'Z');

/// Each question, and the classes of the first byte and of the others.
pub const QUESTIONS: [(Question, Class, Class); 9] = [
    (Question::Alphabetic, LETTER, LETTER),
    (Question::Alphanumeric, LETTER_OR_DIGIT, LETTER_OR_DIGIT),
    (Question::Numeric, DIGIT, DIGIT),
    (Question::Lowercase, NOT_UPPER, NOT_UPPER),
    (Question::Titlecase, NOT_LOWER, NOT_UPPER),
    (Question::Uppercase, NOT_LOWER, NOT_LOWER),
    (Question::AlphabeticLowercase, LOWER, LOWER),
    (Question::AlphabeticTitlecase, UPPER, LOWER),
    (Question::AlphabeticUppercase, UPPER, UPPER),
];

pub fn is_in(text: &[u8], first: Class, others: Class) -> bool {
    text.split_first().is_none_or(|(byte, rest)| first(*byte) && rest.iter().all(|byte| others(*byte)))
}

type Change = fn(u8) -> u8;

const LOWERED: Change = |byte| if UPPER(byte) { byte + 32 } else { byte };
const RAISED: Change = |byte| if LOWER(byte) { byte - 32 } else { byte };

/// Each change of case: what it does to the first byte and to the others.
pub const CASES: [(Case, Change, Change); 3] =
    [(Case::Lower, LOWERED, LOWERED), (Case::Title, RAISED, LOWERED), (Case::Upper, RAISED, RAISED)];

pub fn in_case<const N: usize>(text: &[u8], first: Change, others: Change) -> [u8; N] {
    let mut bytes = [0; N];
    for place in 0..text.len() {
        bytes[place] = if place == 0 { first(text[place]) } else { others(text[place]) };
    }
    bytes
}

/// The length of a text, its bytes, the questions and the changes of case are as defined.
pub fn assert_answers<const N: usize>(value: &TinyAsciiStr<N>, text: &[u8]) {
    assert_eq!((value.len(), value.is_empty(), value.as_utf8()), (text.len(), text.is_empty(), text));
    for (question, first, others) in QUESTIONS {
        assert_eq!(value.ask(question), is_in(text, first, others), "{question:?} of {text:?} at {N}");
    }
    for (case, first, others) in CASES {
        assert_eq!(*value.in_case(case).all_bytes(), in_case(text, first, others), "{case:?} of {text:?}");
    }
}

/// The readers of bytes return what is defined. Inlined, since billions of lists have a known length.
#[inline(always)]
pub fn assert_read<const N: usize>(units: &[u8], replacement: u8) {
    assert_eq!(TinyAsciiStr::<N>::try_from_utf8(units).map(|text| *text.all_bytes()), read(units), "{units:?}");
    assert_eq!(*TinyAsciiStr::<N>::from_utf8_lossy(units, replacement).all_bytes(), lossy(units, replacement), "{units:?}");
}

pub fn assert_read_raw<const N: usize>(raw: [u8; N]) {
    assert_eq!(TinyAsciiStr::try_from_raw(raw).map(|text| *text.all_bytes()), read_raw(raw), "{raw:?}");
}
