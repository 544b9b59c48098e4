//! The tables of bench/calls and bench/cargo: the calls of the static library, or those of tinystr-proved where they are inlined,
//! compared with the Rust crate's.

mod batch;
#[allow(dead_code)]
#[path = "../../diff/drivers/inputs.rs"]
mod inputs;
#[cfg(inlined)]
mod inlined;
mod measure;
// printing in other forms isn't timed
#[allow(dead_code)]
#[cfg(not(inlined))]
#[path = "../../diff/drivers/ours.rs"]
mod ours;

use batch::Batch;
#[cfg(inlined)]
use made::original as ours;
use inputs::Random;
use measure::{Contender, HERE, Row, THERE};
use std::hint::black_box;
use theirs::original::numbers::*;
use theirs::original::questions::QUESTIONS;
use theirs::original::{self, COUNT};

const CAPACITIES: &[usize] = if cfg!(inlined) { &[3, 4, 8, 12, 16, 24, 32, 64] } else { &[4, 8, 12, 16, 24, 32, 64] };
const ROUNDS: usize = 100;

/// The capacities of packed records, and of bytes before others.
const PACKED_CAPACITIES: [usize; 5] = [3, 4, 8, 16, 24];
const RECORDS: usize = 1_000_000;

/// The number of lists that are read once in a round, so that no branch predictor learns their lengths.
const BATCHES: usize = 32;

/// The call of this crate and that of the original on a batch, with the arguments before and after the rounds, and the fields that
/// they write.
macro_rules! both {
    ($name:ident ($($before:expr),*) ($($after:expr),*) -> ($($made:ident),*)) => {
        &[
            (HERE, &|rounds, answers| ours::$name($($before,)* rounds, $($after,)* $(&mut answers.$made),*)),
            (THERE, &|rounds, answers| original::$name($($before,)* rounds, $($after,)* $(&mut answers.$made),*)),
        ]
    };
}

/// The part of a name that selects calls.
struct Bench {
    only: String,
}

impl Bench {
    /// Times calls of `values` values.
    fn take_of(&self, table: &str, call: &str, n: usize, values: usize, contenders: &[Contender]) {
        if call.contains(&self.only) {
            Row { table, call, column: n.to_string(), values, rounds: ROUNDS }.take(contenders);
        }
    }

    fn take(&self, table: &str, call: &str, n: usize, contenders: &[Contender]) {
        self.take_of(table, call, n, COUNT, contenders);
    }

    fn take_batch(&self, table: &str, given: &Batch) {
        let n = given.capacity;
        // (no call has a capacity of 6)
        let to = if n == 3 { 7 } else { 2 * n };
        self.take(table, "try_from_utf8", n, both!(read8(n, READ)(&given.units, &given.starts) -> (texts, codes)));
        self.take(table, "try_from_utf16", n, both!(read16(n, READ)(&given.wide, &given.starts) -> (texts, codes)));
        self.take(table, "try_from_raw", n, both!(read8(n, RAW)(&given.texts, &given.raw_starts) -> (texts, codes)));
        self.take(table, "from_utf8_lossy", n, both!(read8(n, LOSSY)(&given.units, &given.starts) -> (texts, codes)));
        self.take(table, "cmp", n, both!(compare(n, ORDER)(&given.texts, &given.others) -> (marks)));
        self.take(table, "==", n, both!(compare(n, EQUALITY)(&given.texts, &given.others) -> (marks)));
        self.take(table, "len", n, both!(ask(n, LEN)(&given.texts) -> (marks)));
        self.take(table, "is_ascii_alphabetic", n, both!(ask(n, ALPHABETIC)(&given.texts) -> (marks)));
        self.take(table, "is_ascii_alphanumeric", n, both!(ask(n, ALPHANUMERIC)(&given.texts) -> (marks)));
        self.take(table, "is_ascii_lowercase", n, both!(ask(n, LOWERCASE)(&given.texts) -> (marks)));
        self.take(table, "to_ascii_lowercase", n, both!(change(n, LOWER)(&given.texts) -> (texts)));
        self.take(table, "to_ascii_titlecase", n, both!(change(n, TITLE)(&given.texts) -> (texts)));
        self.take(table, "to_ascii_uppercase", n, both!(change(n, UPPER)(&given.texts) -> (texts)));
        self.take(table, "new_unsigned_decimal", n, both!(decimal(n)(&given.numbers) -> (texts, marks)));
        self.take(table, "resize to 2N", n, both!(resize(n, to)(&given.texts) -> (texts)));
        self.take(table, "resize to 4", n, both!(resize(n, 4)(&given.texts) -> (texts)));
        self.take(table, "concat to 2N", n, both!(concat(n, to)(&given.texts, &given.others) -> (texts)));
        self.take(table, "concat to N", n, both!(concat(n, n)(&given.texts, &given.others) -> (texts)));
    }

    /// Hashes of pairs are compared, so each value costs two of them.
    fn take_others(&self, table: &str, given: &Batch) {
        let n = given.capacity;
        self.take(table, "is_empty", n, both!(ask(n, IS_EMPTY)(&given.texts) -> (marks)));
        self.take(table, "as_str, its last byte", n, both!(ask(n, LAST_OF_STR)(&given.texts) -> (marks)));
        self.take(table, "Display", n, both!(display(n)(&given.texts) -> (texts)));
        self.take_of(table, "Hash", n, 2 * COUNT, both!(compare(n, EQUALITY_OF_HASHES)(&given.texts, &given.others) -> (marks)));
    }

    fn take_questions(&self, table: &str, random: &mut Random, passes: bool, is_full: bool) {
        for &n in CAPACITIES {
            for question in QUESTIONS {
                let texts = batch::texts(question, passes, random, n, if is_full { n } else { 1 });
                let mut answers = vec![0; COUNT];
                assert!(original::ask(n, question.number, 1, &texts, &mut answers));
                assert!(answers.iter().all(|&answer| answer == u8::from(passes)), "{} at {n}", question.call);
                self.take(table, question.call, n, both!(ask(n, question.number)(&texts) -> (marks)));
            }
        }
    }

    /// Reads lists, each once in a round. Texts are written only while results are compared.
    fn take_lists(&self, random: &mut Random) {
        let table = "Mixed lists, each read once in a round";
        for &n in CAPACITIES {
            let batches: Vec<Batch> = (0..BATCHES).map(|_| Batch::mixed(random, n, 1)).collect();
            let readers = [("try_from_utf8", READ), ("from_utf8_lossy", LOSSY), ("try_from_raw", RAW)];
            for (call, reader) in readers.into_iter().filter(|(call, _)| call.contains(&self.only)) {
                let lists = batches.iter().map(|given| match reader {
                    RAW => (&given.texts, &given.raw_starts),
                    _ => (&given.units, &given.starts),
                });
                let lists: Vec<_> = lists.collect();
                let row = Row { table, call, column: n.to_string(), values: BATCHES * COUNT, rounds: 1 };
                lists.iter().for_each(|(units, starts)| row.compare(both!(read8(n, reader)(units, starts) -> (texts, codes))));
                macro_rules! all {
                    ($from:ident) => {
                        &|rounds, _| lists.iter().all(|(units, starts)| $from::read8(n, reader, rounds, units, starts, &mut [], &mut []))
                    };
                }
                row.take(&[(HERE, all!(ours)), (THERE, all!(original))]);
            }
        }
    }

    /// Times `read_bytes`, and `validate_bytes` of records that fill the capacity, or have any length.
    fn take_packed(&self, random: &mut Random) {
        let table = "Bytes before others, and packed records";
        for n in PACKED_CAPACITIES {
            let given = Batch::mixed(random, n, 1);
            self.take(table, "read_bytes", n, both!(read_bytes(n)(&given.texts) -> (texts)));
        }
        for call in ["validate_bytes, full", "validate_bytes, mixed"] {
            for n in PACKED_CAPACITIES.into_iter().filter(|_| call.contains(&self.only)) {
                let mut bytes = vec![0; RECORDS * n];
                for record in bytes.chunks_exact_mut(n) {
                    let len = if call.ends_with("full") { n } else { random.below(n + 1) };
                    record[..len].fill_with(|| b'a' + random.below(26) as u8);
                }
                macro_rules! records {
                    ($from:ident) => {
                        &|rounds, answers| (0..rounds).all(|_| $from::records(n, black_box(&bytes), &mut answers.codes))
                    };
                }
                let row = Row { table, call, column: n.to_string(), values: RECORDS, rounds: 1 };
                row.take(&[(HERE, records!(ours)), (THERE, records!(original))]);
            }
        }
    }
}

fn main() {
    let bench = &Bench { only: std::env::args().nth(1).unwrap_or_default() };
    let random = &mut Random(88172645463325252);
    for &n in CAPACITIES {
        bench.take_batch("Full texts", &Batch::full(random, n));
        bench.take_batch("Mixed texts", &Batch::mixed(random, n, 1));
        bench.take_others("Other calls, full texts", &Batch::full(random, n));
        bench.take_others("Other calls, mixed texts and empty ones", &Batch::mixed(random, n, 0));
    }
    bench.take_packed(random);
    bench.take_lists(random);
    bench.take_questions("Questions, full texts that pass", random, true, true);
    bench.take_questions("Questions, mixed texts that pass", random, true, false);
    bench.take_questions("Questions, full texts that fail at their first byte", random, false, true);
    #[cfg(inlined)]
    inlined::take_all(bench, random);
}
