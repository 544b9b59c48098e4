//! The calls that bench/calls and bench/cargo time, over the crate with the name `tinystr` in the build of this file. Each call is
//! inlined, as in a user's program.

// printing in other forms, and some others, aren't timed
#[allow(dead_code)]
#[macro_use]
#[path = "../../diff/drivers/original.rs"]
pub mod original;

use original::COUNT;
use std::hint::black_box;
use tinystr::TinyAsciiStr;

/// Counts the keys that are in a sorted table of these records, in each round again.
#[cfg(made)]
#[inline(never)]
pub fn count_found(records: &[u8], keys: &[[u8; 8]], rounds: usize, counts: &mut [u32]) -> bool {
    let table = tinystr::packed::SortedTable::<8>::from_bytes(records).unwrap();
    let keys: Vec<_> = keys.iter().map(|key| tinystr::TinyStr8::try_from_raw(*key).unwrap()).collect();
    counts[0] = (0..rounds).map(|_| keys.iter().filter(|key| table.contains(key)).count() as u32).sum();
    true
}

/// The calls on one value at a time, by their numbers. The compiler knows neither the value nor what is made of the result.
pub const CALLS: [&str; 6] = ["len", "is_ascii_alphabetic", "to_ascii_lowercase", "==", "as_str, its length", "cmp"];

#[inline(never)]
fn call_each<const N: usize>(rounds: usize, texts: &[TinyAsciiStr<N>], call: impl Fn(&TinyAsciiStr<N>, &TinyAsciiStr<N>) -> usize) -> usize {
    let mut sum = 0usize;
    for _ in 0..rounds {
        for (text, next) in texts.iter().zip(texts.iter().cycle().skip(1)) {
            sum = sum.wrapping_add(call(black_box(text), black_box(next)));
        }
    }
    sum
}

fn batch<const N: usize>(call: usize, rounds: usize, texts: &[u8], answers: &mut [u8]) -> bool {
    let read = |raw: &[u8]| TinyAsciiStr::<N>::try_from_raw(raw.try_into().unwrap()).unwrap();
    let texts: Vec<TinyAsciiStr<N>> = texts.chunks_exact(N).take(COUNT).map(read).collect();
    let sum = match call {
        0 => call_each(rounds, &texts, |text, _| text.len()),
        1 => call_each(rounds, &texts, |text, _| usize::from(text.is_ascii_alphabetic())),
        2 => call_each(rounds, &texts, |text, _| usize::from(black_box(text.to_ascii_lowercase()).all_bytes()[0])),
        3 => call_each(rounds, &texts, |text, next| usize::from(text == next)),
        4 => call_each(rounds, &texts, |text, _| text.as_str().len()),
        _ => call_each(rounds, &texts, |text, next| text.cmp(next) as usize),
    };
    answers[..8].copy_from_slice(&sum.to_le_bytes());
    true
}

/// The sum of a call's results for all texts.
pub fn single(capacity: usize, call: usize, rounds: usize, texts: &[u8], answers: &mut [u8]) -> bool {
    at_few_capacities!(capacity, batch, call, rounds, texts, answers)
}
