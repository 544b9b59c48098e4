//! At capacities up to 4: readers of bytes at every list and array that fits, and the length, each question and each change of case
//! at every text. Built with `--release`, on all processors.

mod definitions;

use definitions::{assert_answers, assert_read, assert_read_raw, padded};
use std::array::from_fn;
use std::sync::atomic::{AtomicUsize, Ordering};
use std::thread;
use tinystr::TinyAsciiStr;

/// Every list of `LEN` bytes that begins with a byte.
fn begins_with<const N: usize, const LEN: usize>(first: u8) {
    for number in 0..1u32 << (8 * LEN.saturating_sub(1)) {
        let units: [u8; LEN] = from_fn(|place| if place == 0 { first } else { number.to_le_bytes()[LEN - 1 - place] });
        assert_read::<N>(&units, b'?');
        if LEN == N {
            assert_read_raw::<N>(padded(units));
        }
        if let Ok(text) = TinyAsciiStr::<N>::try_from_utf8(&units) {
            assert_answers(&text, &units);
        }
    }
}

/// The first bytes are divided among the processors.
fn every_list<const N: usize, const LEN: usize>() {
    let next = AtomicUsize::new(0);
    thread::scope(|scope| {
        for _ in 0..thread::available_parallelism().unwrap().get() {
            scope.spawn(|| {
                while let Ok(first) = u8::try_from(next.fetch_add(1, Ordering::Relaxed)) {
                    begins_with::<N, LEN>(first);
                }
            });
        }
    });
}

#[test]
#[ignore = "half a minute on four processors, with --release"]
fn every_input_of_at_most_four_bytes() {
    every_list::<0, 0>();
    every_list::<1, 0>();
    every_list::<1, 1>();
    every_list::<2, 0>();
    every_list::<2, 1>();
    every_list::<2, 2>();
    every_list::<3, 0>();
    every_list::<3, 1>();
    every_list::<3, 2>();
    every_list::<3, 3>();
    every_list::<4, 0>();
    every_list::<4, 1>();
    every_list::<4, 2>();
    every_list::<4, 3>();
    every_list::<4, 4>();
}
