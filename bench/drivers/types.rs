//! Times a value and a key of two to eight letters: this crate's type, and what one would use instead. The argument of a timed call
//! is made before; all types have to give the same sum of the results.

use arrayvec::ArrayString;
use std::collections::{BTreeMap, HashMap};
use std::hash::Hash;
use std::hint::black_box;
use std::time::Instant;
use tinystr::TinyAsciiStr;

const TABLE: &str = "Values of 2 to 8 letters, also as keys";
const COUNT: usize = 100_000;
const ROUNDS: usize = 9;

/// Random words of lowercase letters, of which the last may be a capital.
fn words(last: u8) -> Vec<String> {
    let mut state = 1u64;
    let mut below = |bound: u64| {
        state = state.wrapping_mul(6_364_136_223_846_793_005).wrapping_add(1_442_695_040_888_963_407);
        (state >> 33) % bound
    };
    let mut word = || {
        let others: String = (0..1 + below(7)).map(|_| (b'a' + below(26) as u8) as char).collect();
        format!("{others}{}", (last + below(26) as u8) as char)
    };
    (0..COUNT).map(|_| word()).collect()
}

/// A call, the nanoseconds for a value in the least of some rounds (or its bytes), and a sum of the results.
type Timed = (&'static str, f64, u64);

fn least<T>(call: &'static str, given: impl Fn() -> T, timed: impl Fn(T) -> u64) -> Timed {
    let mut best = (call, f64::MAX, 0);
    for _ in 0..ROUNDS {
        let given = black_box(given());
        let start = Instant::now();
        let sum = black_box(timed(given));
        best = (call, best.1.min(start.elapsed().as_nanos() as f64 / COUNT as f64), sum);
    }
    best
}

/// The calls on values that `read` makes of words: of those that are keys, and of those that aren't.
fn timed<'a, T: Clone + Ord + Hash>(present: &'a [String], absent: &'a [String], read: impl Fn(&'a str) -> T) -> Vec<Timed> {
    let values: Vec<T> = present.iter().map(|word| read(word)).collect();
    let others: Vec<T> = absent.iter().map(|word| read(word)).collect();
    let numbered = || values.iter().cloned().zip(0u64..).collect::<Vec<(T, u64)>>();
    let tree: BTreeMap<T, u64> = numbered().into_iter().collect();
    let hashed: HashMap<T, u64> = numbered().into_iter().collect();
    let pairs = || values.iter().zip(values.iter().skip(1));
    vec![
        ("bytes a value", size_of::<T>() as f64, 0),
        least("read", || present, |words| words.iter().map(|word| black_box(read(word))).count() as u64),
        least("==", pairs, |pairs| pairs.map(|(a, b)| u64::from(a == b)).sum()),
        least("cmp", pairs, |pairs| pairs.map(|(a, b)| u64::from(a < b)).sum()),
        least("sort", || values.clone(), |mut values| {
            values.sort_unstable();
            black_box(values).len() as u64
        }),
        least("BTreeMap, insert", numbered, |pairs| pairs.into_iter().collect::<BTreeMap<T, u64>>().len() as u64),
        least("BTreeMap, get a present key", || &values, |keys| keys.iter().filter_map(|key| tree.get(key)).sum()),
        least("BTreeMap, get an absent key", || &others, |keys| keys.iter().filter_map(|key| tree.get(key)).sum()),
        least("HashMap, insert", numbered, |pairs| pairs.into_iter().collect::<HashMap<T, u64>>().len() as u64),
        least("HashMap, get a present key", || &values, |keys| keys.iter().filter_map(|key| hashed.get(key)).sum()),
        least("HashMap, get an absent key", || &others, |keys| keys.iter().filter_map(|key| hashed.get(key)).sum()),
    ]
}

fn main() {
    let (present, absent) = (words(b'a'), words(b'A'));
    let all = [
        ("here", timed(&present, &absent, |word| word.parse::<TinyAsciiStr<8>>().unwrap())),
        ("ArrayString", timed(&present, &absent, |word| ArrayString::<8>::from(word).unwrap())),
        ("String", timed(&present, &absent, str::to_string)),
        ("&str", timed(&present, &absent, |word| word)),
    ];
    for call in 0..all[0].1.len() {
        for (whose, times) in &all {
            let (name, number, sum) = times[call];
            assert_eq!(sum, all[0].1[call].2, "{name}: {whose}");
            println!("{TABLE}|{name}||{whose}|{number:.4}");
        }
    }
}
