//! The length, the questions and the changes of case are as defined for texts with each byte at each place.

#[macro_use]
mod definitions;

use definitions::{assert_answers, with};
use tinystr::TinyAsciiStr;

fn answers<const N: usize>() {
    let texts: [fn(usize) -> u8; 5] = [
        |place| b'a' + (place % 26) as u8,
        |place| b'A' + (place % 26) as u8,
        |place| if place == 0 { b'N' } else { b'a' + (place % 26) as u8 },
        |place| b'0' + (place % 10) as u8,
        |place| b"-@[`{/:\x01\x7f"[place % 9],
    ];
    for text in texts {
        for len in 0..=N {
            let text: Vec<u8> = (0..len).map(text).collect();
            let is_as_defined = |text: &[u8]| assert_answers(&TinyAsciiStr::<N>::try_from_utf8(text).unwrap(), text);
            is_as_defined(&text);
            for place in (0..len).filter(|_| len == N) {
                (1..=127).for_each(|byte| is_as_defined(&with(&text, place, byte)));
            }
        }
    }
}

#[test]
fn lengths_questions_and_cases_are_as_defined() {
    at_each_capacity!(answers);
}
