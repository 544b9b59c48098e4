//! The tables that bench/cargo has besides: calls on one value at a time, and look-ups in packed tables compared with those of
//! Rust's own sets.

use crate::batch::Batch;
use crate::measure::{Answers, HERE, Row, THERE};
use crate::inputs::Random;
use crate::{Bench, CAPACITIES};
use made::count_found;
use std::collections::{BTreeSet, HashSet};
use theirs::CALLS;

const KEYS: usize = 1 << 16;

pub fn take_all(bench: &Bench, random: &mut Random) {
    for &n in CAPACITIES {
        take_single(bench, "Full texts, one at a time", &Batch::full(random, n));
        take_single(bench, "Mixed texts, one at a time", &Batch::mixed(random, n, 1));
    }
    for records in [10_000, 400_000] {
        take_searches(bench, random, records);
    }
}

fn take_single(bench: &Bench, table: &str, given: &Batch) {
    let n = given.capacity;
    for (number, call) in CALLS.iter().enumerate() {
        bench.take(table, call, n, &[
            (HERE, &|rounds, answers| made::single(n, number, rounds, &given.texts, &mut answers.marks)),
            (THERE, &|rounds, answers| theirs::single(n, number, rounds, &given.texts, &mut answers.marks)),
        ]);
    }
}

/// Looks up keys in a number of records.
fn take_searches(bench: &Bench, random: &mut Random, records: usize) {
    let tree: BTreeSet<[u8; 8]> = std::iter::repeat_with(|| record(random)).take(records).collect();
    let sorted: Vec<[u8; 8]> = tree.iter().copied().collect();
    let hashed: HashSet<[u8; 8]> = sorted.iter().copied().collect();
    let bytes = sorted.concat();
    let table = format!("Look-ups in {records} records");
    for (call, there) in [("keys that are there", 2), ("half of them", 1), ("any keys", 0)] {
        let keys: Vec<[u8; 8]> = (0..KEYS)
            .map(|_| if random.below(2) < there { sorted[random.below(sorted.len())] } else { record(random) })
            .collect();
        let count = |contains: &dyn Fn(&[u8; 8]) -> bool, rounds: usize, answers: &mut Answers| {
            answers.codes[0] = (0..rounds).map(|_| keys.iter().filter(|key| contains(key)).count() as u32).sum();
            true
        };
        if table.contains(&bench.only) {
            Row { table: &table, call, column: String::new(), values: KEYS, rounds: 1 }.take(&[
                (HERE, &|rounds, answers| count_found(&bytes, &keys, rounds, &mut answers.codes)),
                ("slice::binary_search", &|rounds, answers| count(&|key| sorted.binary_search(key).is_ok(), rounds, answers)),
                ("HashSet", &|rounds, answers| count(&|key| hashed.contains(key), rounds, answers)),
                ("BTreeSet", &|rounds, answers| count(&|key| tree.contains(key), rounds, answers)),
            ]);
        }
    }
}

/// A text of three to eight letters, and then NULs.
fn record(random: &mut Random) -> [u8; 8] {
    let len = 3 + random.below(6);
    std::array::from_fn(|place| if place < len { b'a' + random.below(26) as u8 } else { 0 })
}
