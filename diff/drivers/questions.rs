//! The questions on the classes of a text's bytes.

use super::numbers;

/// A question, its number, the bytes of a text that passes it, at the first place and later, and a first byte that fails.
pub struct Question {
    pub call: &'static str,
    pub number: usize,
    pub first: &'static [u8],
    pub later: &'static [u8],
    pub failing: u8,
}

const LOWER: &[u8] = b"abcdefghijklmnopqrstuvwxyz";
const UPPER: &[u8] = b"ABCDEFGHIJKLMNOPQRSTUVWXYZ";
const LETTERS: &[u8] = b"abcdefghijklmnopqrstuvwxyzABCDEFGHIJKLMNOPQRSTUVWXYZ";
const DIGITS: &[u8] = b"0123456789";
const LETTERS_AND_DIGITS: &[u8] = b"abcdefghijklmnopqrstuvwxyzABCDEFGHIJKLMNOPQRSTUVWXYZ0123456789";

const fn question(call: &'static str, number: usize, first: &'static [u8], later: &'static [u8], failing: u8) -> Question {
    Question { call, number, first, later, failing }
}

pub const QUESTIONS: &[Question] = &[
    question("is_ascii_alphabetic", numbers::ALPHABETIC, LETTERS, LETTERS, b'-'),
    question("is_ascii_alphanumeric", numbers::ALPHANUMERIC, LETTERS_AND_DIGITS, LETTERS_AND_DIGITS, b'-'),
    question("is_ascii_numeric", numbers::NUMERIC, DIGITS, DIGITS, b'-'),
    question("is_ascii_lowercase", numbers::LOWERCASE, LOWER, LOWER, b'A'),
    question("is_ascii_titlecase", numbers::TITLECASE, UPPER, LOWER, b'a'),
    question("is_ascii_uppercase", numbers::UPPERCASE, UPPER, UPPER, b'a'),
    question("is_ascii_alphabetic_lowercase", numbers::ALPHABETIC_LOWERCASE, LOWER, LOWER, b'A'),
    question("is_ascii_alphabetic_titlecase", numbers::ALPHABETIC_TITLECASE, UPPER, LOWER, b'a'),
    question("is_ascii_alphabetic_uppercase", numbers::ALPHABETIC_UPPERCASE, UPPER, UPPER, b'a'),
];
