//! Compares what two sides write for each call: the static library (or, under `--cfg made`, the crate that is made for Cargo)
//! and the crate with the name `tinystr`. That is the original, from which three answers depart as `departures` says; or,
//! under `--cfg added`, the crate for Cargo, whose tables and identifiers are compared too, and where nothing may depart.

#[cfg(added)]
mod added;
// some inputs are those of tables, and some calls are only timed
#[allow(dead_code)]
mod inputs;
#[allow(dead_code)]
mod original;
#[allow(dead_code)]
#[cfg(not(made))]
mod ours;

#[cfg(added)]
use added::libraries;
#[cfg(added)]
use original::{batch, numbers};
#[cfg(made)]
use made as ours;

use inputs::{Random, escaped, hostile, padded, text_within, texts};
use original::COUNT;
use original::numbers::*;
use original::questions::QUESTIONS;
use std::collections::BTreeMap;
use std::fmt::Debug;

const CUT: [usize; 13] = [0, 1, 3, 4, 5, 8, 9, 12, 16, 17, 24, 32, 64];
const TARGETS: [usize; 14] = [0, 1, 3, 4, 7, 8, 12, 16, 17, 24, 32, 48, 64, 128];
/// What `ask` answers beside the questions.
const OTHERS: [(usize, &str); 3] = [(LEN, "len"), (IS_EMPTY, "is_empty"), (LAST_OF_STR, "the last byte of as_str")];
const CASES: [&str; 4] = ["to_ascii_lowercase", "to_ascii_titlecase", "to_ascii_uppercase", "clone"];
const READERS: [&str; 3] = ["try_from_utf8", "from_utf8_lossy", "try_from_raw"];
const READERS16: [&str; 2] = ["try_from_utf16", "from_utf16_lossy"];
const RELATIONS: [&str; 3] = ["cmp", "==", "== of hashes"];
const FORMS: [&str; 4] = ["`{}`", "`{:-^9.5}`", "`{:?}`", "`{:?}` of the unvalidated type"];
const OF_TEXTS: [usize; 3] = [DISPLAY, PADDED, DEBUG];
const OF_ANY_BYTES: [usize; 1] = [UNVALIDATED_DEBUG];

fn capacities() -> impl Iterator<Item = usize> {
    (0..=40).chain([64])
}

/// The number of calls, and of those that differ by name.
#[derive(Default)]
struct Count {
    calls: u64,
    differed: BTreeMap<String, u64>,
}

impl Count {
    /// What both sides wrote for some values, a part of the same length for each.
    fn compare<T: PartialEq + Debug>(&mut self, call: &str, given: &dyn Fn(usize) -> String, values: usize, ours: &[T], theirs: &[T]) {
        if ours == theirs {
            return;
        }
        let width = ours.len() / values;
        for (i, (ours, theirs)) in ours.chunks(width).zip(theirs.chunks(width)).enumerate() {
            if ours != theirs {
                let differed = self.differed.entry(call.to_string()).or_default();
                *differed += 1;
                if *differed <= 3 {
                    eprintln!("{call} of {}: {ours:?} here, {theirs:?} there", given(i));
                }
            }
        }
    }
}

/// Makes a call for a number of values here and there, and compares each slice that it writes.
macro_rules! alike {
    ($count:ident, $values:expr, $call:expr, $given:expr, $there:ident::$name:ident($($argument:expr),*), $($made:ident: $filled:expr),*) => {{
        $(let mut $made = [$filled, $filled];)*
        assert!(ours::$name($($argument,)* $(&mut $made[0]),*));
        assert!($there::$name($($argument,)* $(&mut $made[1]),*));
        $count.calls += $values as u64;
        $($count.compare($call, $given, $values, &$made[0], &$made[1]);)*
    }};
}

/// All lists, one after another, and where each starts, and the last ends.
fn joined<U: Copy>(lists: &[Vec<U>]) -> (Vec<U>, Vec<u32>) {
    let mut starts = vec![0u32];
    for list in lists {
        starts.push(starts[starts.len() - 1] + list.len() as u32);
    }
    (lists.concat(), starts)
}

macro_rules! reads {
    ($name:ident, $unit:ty, $readers:ident) => {
        /// Reads each list by each reader, at one capacity.
        fn $name(count: &mut Count, n: usize, lists: &[Vec<$unit>]) {
            for lists in lists.chunks(COUNT) {
                let (units, starts) = joined(lists);
                for (reader, call) in $readers.iter().enumerate() {
                    alike!(count, lists.len(), call, &|i| format!("{:?} at {n}", lists[i]), original::$name(n, reader, 1, &units, &starts),
                        texts: vec![0u8; lists.len() * n], faults: vec![0u32; lists.len()]);
                }
            }
        }
    };
}

reads!(read8, u8, READERS);
reads!(read16, u16, READERS16);

/// Compares the answer to each question about each text, the text in each case, and how it is printed.
fn ask_and_print(count: &mut Count, n: usize, texts: &[Vec<u8>]) {
    for texts in texts.chunks(COUNT) {
        for (question, call) in QUESTIONS.iter().map(|question| (question.number, question.call)).chain(OTHERS) {
            let departs = |text: &&Vec<u8>| DEPARTS && text.is_empty() && OF_CASED_LETTERS.contains(&question);
            let texts: Vec<Vec<u8>> = texts.iter().filter(|text| !departs(text)).cloned().collect();
            let bytes = padded(&texts, n);
            alike!(count, texts.len(), call, &|i| format!("{:?} at {n}", texts[i]), original::ask(n, question, 1, &bytes),
                answers: vec![0u8; texts.len()]);
        }
        let bytes = padded(texts, n);
        for (case, call) in CASES.iter().enumerate() {
            alike!(count, texts.len(), call, &|i| format!("{:?} at {n}", texts[i]), original::change(n, case, 1, &bytes),
                changed: vec![0u8; texts.len() * n]);
        }
    }
    print(count, n, &OF_TEXTS, texts);
}

/// Prints each list in some forms: a text, or any bytes.
fn print(count: &mut Count, n: usize, forms: &[usize], lists: &[Vec<u8>]) {
    for lists in lists.chunks(COUNT) {
        let values = padded(lists, n);
        for &form in forms {
            alike!(count, lists.len(), FORMS[form], &|i| format!("{:?} or near it at {n}", lists[i]), original::print(n, form, 1, &values),
                printed: vec![0u8; lists.len() * (9 + 6 * n)], ends: vec![u64::MAX; lists.len()]);
        }
    }
}

fn decimals(count: &mut Count, n: usize, numbers: &[u32]) {
    let numbers: Vec<u32> = numbers.iter().copied().filter(|number| !(DEPARTS && n == 0 && *number == 0)).collect();
    for numbers in numbers.chunks(COUNT) {
        alike!(count, numbers.len(), "new_unsigned_decimal", &|i| format!("{} at {n}", numbers[i]), original::decimal(n, 1, numbers),
            texts: vec![0u8; numbers.len() * n], cuts: vec![0u8; numbers.len()]);
    }
}

/// Compares each text with each other.
fn compare(count: &mut Count, n: usize, texts: &[Vec<u8>]) {
    for right in texts.chunks(COUNT) {
        let right_bytes = padded(right, n);
        for left in texts {
            let left_bytes = padded(&vec![left.clone(); right.len()], n);
            for (relation, call) in RELATIONS.iter().enumerate() {
                alike!(count, right.len(), call, &|i| format!("{left:?} and {:?} at {n}", right[i]),
                    original::compare(n, relation, 1, &left_bytes, &right_bytes), answers: vec![0u8; right.len()]);
            }
        }
    }
}

fn cut(count: &mut Count, n: usize, texts: &[Vec<u8>], others: &[Vec<u8>]) {
    let (first, second) = (padded(texts, n), padded(others, n));
    for to in TARGETS {
        let given = |i: usize| format!("{:?} and {:?} at {n} to {to}", texts[i], others[i]);
        alike!(count, texts.len(), "resize", &given, original::resize(n, to, 1, &first), out: vec![0u8; texts.len() * to]);
        alike!(count, texts.len(), "concat", &given, original::concat(n, to, 1, &first, &second), out: vec![0u8; texts.len() * to]);
    }
}

const DEPARTS: bool = !cfg!(added);
const OF_CASED_LETTERS: [usize; 3] = [ALPHABETIC_LOWERCASE, ALPHABETIC_TITLECASE, ALPHABETIC_UPPERCASE];

/// The three departures, which aren't compared otherwise.
fn departures() {
    // `is_empty` at capacity 0, where the original panics; original.rs answers in its place
    std::panic::set_hook(Box::new(|_| ()));
    assert!(std::panic::catch_unwind(|| tinystr::TinyAsciiStr::<0>::default().is_empty()).is_err());
    let _ = std::panic::take_hook();
    // `new_unsigned_decimal(0)` at capacity 0, where the original is Ok of the empty text
    let mut cuts = [[9], [9]];
    assert!(ours::decimal(0, 1, &[0], &mut [], &mut cuts[0]) && original::decimal(0, 1, &[0], &mut [], &mut cuts[1]));
    assert_eq!(cuts, [[1], [0]], "the cut of 0 at capacity 0");
    // the questions on letters in a case, of the empty text, where the original is false at some capacities
    let mut is_false = false;
    for (n, question) in capacities().flat_map(|n| OF_CASED_LETTERS.map(|question| (n, question))) {
        let mut answers = [[9], [9]];
        assert!(ours::ask(n, question, 1, &vec![0; n], &mut answers[0]) && original::ask(n, question, 1, &vec![0; n], &mut answers[1]));
        assert_eq!(answers[0], [1], "question {question} of the empty text at {n}");
        is_false |= answers[1] == [0];
    }
    assert!(is_false, "no answer of the original departs");
}

/// Language identifiers, and calls on tables and maps: the names of these by their numbers.
#[cfg(added)]
mod of_tables {
    use super::*;
    use crate::inputs::{identifier, key, records, spoiled, text};
    use libraries::{LangId, TinyAsciiStr};

    const KEYS: usize = 64;
    const CALLS: [&str; 14] = [
        "SortedTable::binary_search", "SortedTable::binary_search_each", "SortedTable::find_text", "SortedTable::with_prefix",
        "PackedMap::get", "PackedMap::get_each", "TextMap::get", "HashedTable::position", "HashedTable::find_text",
        "HashedMap::get", "HashedTextMap::get", "in_place::search", "in_place::with_prefix", "in_place::position",
    ];
    const OF_HASHED: [usize; 5] = [POSITION, HASHED_FIND_TEXT, HASHED_GET, HASHED_GET_TEXT, POSITION_IN_PLACE];

    fn identifiers(count: &mut Count, random: &mut Random) {
        let mut read = 0;
        for _ in 0..3000 {
            let lists: Vec<Vec<u8>> = (0..COUNT).map(|_| identifier(random)).collect();
            let (units, starts) = joined(&lists);
            alike!(count, COUNT, "LangId::try_from_utf8", &|i| format!("{:?}", lists[i]), added::lang_ids(1, &units, &starts),
                texts: vec![0u8; 17 * COUNT], faults: vec![9u8; COUNT]);
            for id in lists.iter().filter_map(|list| LangId::try_from_utf8(list).ok()) {
                assert_eq!(LangId::from_parts(id.language(), id.script(), id.region()), id);
                read += 1;
            }
        }
        assert!(read > 1000, "{read} lists are identifiers");
    }

    /// A hashed table of some texts: that of the crate for Cargo.
    fn hashed<const N: usize>(records: &[Vec<u8>]) -> Vec<u8> {
        let texts: Vec<TinyAsciiStr<N>> = records.iter().map(|text| TinyAsciiStr::try_from_utf8(text).unwrap()).collect();
        tinystr::hashed::pack_hashed(&texts).unwrap_or_default()
    }

    fn tables<const N: usize>(count: &mut Count, random: &mut Random) {
        for _ in 0..1000 {
            let records = records(random, N);
            let keys: Vec<Vec<u8>> = (0..KEYS).map(|_| key(random, &records, N)).collect();
            let key_bytes = padded(&keys, N);
            let values: Vec<Vec<u8>> = records.iter().map(|_| text(random, 8)).collect();
            for (call, name) in CALLS.into_iter().enumerate() {
                let table = if OF_HASHED.contains(&call) { hashed::<N>(&records) } else { padded(&records, N) };
                let table = spoiled(random, table);
                let values = match call {
                    GET_TEXT | HASHED_GET_TEXT => spoiled(random, padded(&values, 8)),
                    GET | GET_EACH | HASHED_GET => spoiled(random, padded(&values, 8)[..4 * values.len()].to_vec()),
                    _ => vec![],
                };
                alike!(count, KEYS, name, &|i| format!("{:?} at {N} in {table:?} with {values:?}", keys[i]),
                    added::search(N, call, &table, &values, &key_bytes), answers: vec![u64::MAX - 1; KEYS]);
            }
        }
    }

    pub fn compare(count: &mut Count, random: &mut Random) {
        identifiers(count, random);
        for tables in [tables::<1>, tables::<3>, tables::<4>, tables::<5>, tables::<8>, tables::<9>, tables::<12>, tables::<16>,
            tables::<17>, tables::<24>, tables::<32>] {
            tables(count, random);
        }
    }
}

/// All lists of at most two bytes, and all texts of at most two characters.
fn compare_short(count: &mut Count) {
    let mut short: Vec<Vec<u8>> = vec![vec![]];
    short.extend((0..=255).map(|a| vec![a]));
    short.extend((0..=65535u16).map(|ab| ab.to_be_bytes().to_vec()));
    for n in [0, 1, 2, 3, 4, 8, 9] {
        read8(count, n, &short);
    }
    for n in [2, 9] {
        print(count, n, &OF_ANY_BYTES, &short);
    }
    short.retain(|list| list.iter().all(|b| (1..128).contains(b)));
    for n in [2, 3, 4, 7, 8, 9, 16, 17, 24] {
        ask_and_print(count, n, &short);
    }
    ask_and_print(count, 1, &short[..128]);
    ask_and_print(count, 0, &short[..1]);
}

/// Every byte at every position of texts of these letters.
fn compare_positions(count: &mut Count, n: usize, letters: &[u8]) {
    for letter in letters {
        let mut lists = vec![];
        for (place, byte) in (0..n).flat_map(|place| (0..=255).map(move |byte| (place, byte))) {
            let mut list = vec![*letter; n];
            list[place] = byte;
            lists.push(list);
        }
        read8(count, n, &lists);
        print(count, n, &OF_ANY_BYTES, &lists);
        lists.retain(|list| list.iter().all(|b| (1..128).contains(b)));
        ask_and_print(count, n, &lists);
    }
}

/// Lists around a capacity.
fn compare_lists(count: &mut Count, random: &mut Random, n: usize) {
    let odd = [0u16, 1, 0x7f, 0x80, 0xff, 0x100, 0x141, 0x161, 0xd800, 0xff61, 0xffff];
    let (mut lists, mut wide) = (vec![], vec![]);
    for len in n.saturating_sub(2)..=n + 3 {
        for _ in 0..400 {
            lists.push(hostile(random, len));
            let mut list: Vec<u16> = hostile(random, len).into_iter().map(u16::from).collect();
            if len > 0 && random.one_in(2) {
                list[random.below(len)] = random.of(&odd);
            }
            wide.push(list);
        }
    }
    for (place, unit) in (0..n).flat_map(|place| odd.map(|unit| (place, unit))) {
        let mut list = vec![u16::from(b'q'); n];
        list[place] = unit;
        wide.push(list);
    }
    read8(count, n, &lists);
    read16(count, n, &wide);
    lists.retain(|list| list.len() <= n);
    print(count, n, &OF_ANY_BYTES, &lists);
    ask_and_print(count, n, &texts(random, n, COUNT));
    let some: Vec<Vec<u8>> = (0..COUNT).map(|i| escaped(random, n.saturating_sub(i % 3))).collect();
    print(count, n, &OF_TEXTS, &some);
}

/// Powers of ten and their neighbours, and random numbers.
fn compare_decimals(count: &mut Count, random: &mut Random) {
    let mut numbers: Vec<u32> = (0..10).map(|k| 10u32.pow(k)).flat_map(|p| [p - 1, p, p + 1]).collect();
    numbers.extend([u32::MAX - 1, u32::MAX, 4_000_000_000]);
    for n in capacities() {
        decimals(count, n, &numbers);
    }
    for n in [1, 3, 4, 8, 9, 10, 11, 12, 16, 64] {
        let many: Vec<u32> = (0..100_000).map(|_| (random.next() as u32) >> random.below(32)).collect();
        decimals(count, n, &many);
    }
}

/// Pairs, of which many share a beginning.
fn compare_pairs(count: &mut Count, random: &mut Random) {
    let most = [(0, 1), (1, 128), (3, 300), (4, 600), (8, 2000), (12, 600), (16, 600), (17, 300), (24, 300), (40, 300), (64, 300)];
    for (n, how_many) in most {
        let mut list = texts(random, n, how_many);
        for i in 1..list.len() {
            if random.one_in(2) {
                let kept = random.below(list[i - 1].len() + 1);
                list[i] = [&list[i - 1][..kept], &text_within(random, n - kept)].concat();
            }
        }
        compare(count, n, &list);
    }
}

fn main() {
    let mut count = Count::default();
    let mut random = Random(88172645463325252);
    #[cfg(added)]
    of_tables::compare(&mut count, &mut random);
    if DEPARTS {
        departures();
    }
    compare_short(&mut count);
    for n in capacities() {
        compare_positions(&mut count, n, b"qQ7");
        compare_lists(&mut count, &mut random, n);
    }
    for n in [1, 4] {
        read16(&mut count, n, &(0..=65535).map(|unit| vec![unit]).collect::<Vec<_>>());
    }
    compare_decimals(&mut count, &mut random);
    for n in CUT {
        let (first, second) = (texts(&mut random, n, COUNT), texts(&mut random, n, COUNT));
        cut(&mut count, n, &first, &second);
    }
    compare_pairs(&mut count, &mut random);

    println!("{} calls compared, which differ: {:?}", count.calls, count.differed);
    assert!(count.calls >= 33_000_000, "fewer calls were compared than docs/SPEED.md says");
    std::process::exit(i32::from(!count.differed.is_empty()));
}
