//! Times std's look-ups of the keys that the program many_keys looked up: in sorted arrays of bytes, in a `HashSet` whose hasher is
//! like the kit's, in one with std's own hasher, and in a `BTreeSet`. It prints a line for each time, with that program's. The
//! argument is a file with what that program printed, of one table.

#[path = "../../crates/many_keys/src/numbers.rt"]
mod numbers;

use numbers::{KEYS, Numbers, ORDERS, Order, bytes_of};
use std::alloc::{GlobalAlloc, Layout, System};
use std::collections::{BTreeSet, HashSet};
use std::hash::{BuildHasher, BuildHasherDefault, Hasher};
use std::hint::black_box;
use std::sync::atomic::{AtomicUsize, Ordering::Relaxed};
use std::time::Instant;

const ROUNDS: usize = 9;
const BUILDING_ROUNDS: usize = 3;

/// A set of few records is built several times in a round, of about this number of records in all.
const RECORDS: usize = 100_000;

// What the program measures other than look-ups, and two orders of keys: in the second each key depends on the last record.
const BYTES: &str = "bytes a record";
const BUILD: &str = "build, a record";
const OPEN: &str = "open, a record";
const DEPENDENT: &str = "random, there, dependent";

// A `HashSet` with a hasher like the kit's, and with std's own.
const FAST_SET: &str = "HashSet";
const STD_SET: &str = "HashSet with SipHash";

/// The system's memory, counted.
struct Counted;

static HELD: AtomicUsize = AtomicUsize::new(0);

unsafe impl GlobalAlloc for Counted {
    unsafe fn alloc(&self, layout: Layout) -> *mut u8 {
        HELD.fetch_add(layout.size(), Relaxed);
        unsafe { System.alloc(layout) }
    }

    unsafe fn dealloc(&self, start: *mut u8, layout: Layout) {
        HELD.fetch_sub(layout.size(), Relaxed);
        unsafe { System.dealloc(start, layout) }
    }
}

#[global_allocator]
static MEMORY: Counted = Counted;

/// A hasher like that of the kit's maps: it has a fixed seed, and folds the product of each eight bytes.
#[derive(Default)]
struct Folding(u64);

impl Hasher for Folding {
    fn finish(&self) -> u64 {
        self.0
    }

    #[inline]
    fn write(&mut self, bytes: &[u8]) {
        bytes.chunks(8).for_each(|piece| self.write_u64(short(piece) ^ bytes.len() as u64));
    }

    #[inline]
    fn write_u64(&mut self, piece: u64) {
        const FACTOR: u64 = 0x9e37_79b9_7f4a_7c15;
        let product = u128::from(self.0 ^ piece ^ FACTOR.rotate_left(32)) * u128::from(FACTOR);
        self.0 = product as u64 ^ (product >> 64) as u64;
    }

    #[inline]
    fn write_usize(&mut self, number: usize) {
        self.write_u64(number as u64);
    }
}

/// At most eight bytes as a number: two pieces that may overlap, or three bytes.
#[inline]
fn short(bytes: &[u8]) -> u64 {
    let four = |at: usize| u64::from(u32::from_le_bytes(bytes[at..at + 4].try_into().unwrap()));
    match bytes.len() {
        0 => 0,
        len @ 1..=3 => u64::from(bytes[0]) | u64::from(bytes[len / 2]) << 8 | u64::from(bytes[len - 1]) << 16,
        len => four(0) | four(len - 4) << 32,
    }
}

fn keys<const N: usize>(order: &str, count: u32) -> Vec<[u8; N]> {
    let order = ORDERS.iter().find(|(name, _)| *name == order).map_or(Order::Present, |(_, order)| *order);
    let mut numbers = Numbers::new(order, count);
    (0..KEYS).map(|_| bytes_of(numbers.next(), count)).collect()
}

/// The nanoseconds for a key or a record in the least of some rounds, and what these give.
fn least<T>(rounds: usize, count: usize, round: impl Fn() -> T) -> (f64, T) {
    let timed = || {
        let start = Instant::now();
        let given = black_box(round());
        (start.elapsed().as_nanos() as f64 / count as f64, given)
    };
    (0..rounds).map(|_| timed()).min_by(|a, b| a.0.total_cmp(&b.0)).unwrap()
}

/// The time for a key, and the sum of what all looks give.
fn time<const N: usize>(keys: &[[u8; N]], look: impl Fn(&[u8; N]) -> u64) -> (f64, u64) {
    least(ROUNDS, keys.len(), || keys.iter().map(&look).fold(0, u64::wrapping_add))
}

/// The same in a set, where the next key may depend on the record that is found. The first bit of that is 0, but the processor
/// doesn't know the next key before it has loaded the record.
fn time_set<const N: usize, S: BuildHasher>(order: &str, keys: &[[u8; N]], set: &HashSet<[u8; N], S>) -> (f64, u64) {
    if order != DEPENDENT {
        return time(keys, |key| u64::from(set.contains(key)));
    }
    least(ROUNDS, keys.len(), || {
        let (mut found, mut skipped) = (0, 0);
        for index in 0..keys.len() {
            if let Some(record) = set.get(&keys[index + skipped]) {
                found += 1;
                skipped = usize::from(record[0] >> 7);
            }
        }
        found
    })
}

/// What is made, how many bytes it holds for a record, and the time to make it.
fn built<T>(count: usize, make: impl Fn() -> T) -> (T, f64, f64) {
    let times = (RECORDS / count).max(1);
    let (nanos, ()) = least(BUILDING_ROUNDS, count * times, || (0..times).for_each(|_| drop(black_box(make()))));
    let before = HELD.load(Relaxed);
    let made = make();
    (made, (HELD.load(Relaxed) - before) as f64 / count as f64, nanos)
}

/// What the program printed: an order or other thing, the number of records, whose time it is, the time, and both sums.
type Row<'a> = [&'a str; 6];

fn print_table<const N: usize>(table: &str, rows: &[Row]) {
    let count: u32 = rows[0][1].parse().unwrap();
    let print = |order: &str, whose: &str, number: f64| println!("{table}|{order}|{count}|{whose}|{number:.3}");
    let sorted: Vec<[u8; N]> = (0..count).map(|index| bytes_of(2 * u64::from(index), count)).collect();
    let (fast, fast_bytes, fast_nanos) = built(sorted.len(), || sorted.iter().copied().collect::<HashSet<_, BuildHasherDefault<Folding>>>());
    let (of_std, std_bytes, std_nanos) = built(sorted.len(), || sorted.iter().copied().collect::<HashSet<_>>());
    let (in_tree, tree_bytes, _) = built(sorted.len(), || sorted.iter().copied().collect::<BTreeSet<_>>());
    for [order, _, whose, nanos, ..] in rows {
        println!("{table}|{order}|{count}|{whose}|{nanos}");
    }
    for (whose, bytes) in [("here", N as f64), ("slice::binary_search", N as f64), (FAST_SET, fast_bytes), (STD_SET, std_bytes), ("BTreeSet", tree_bytes)] {
        print(BYTES, whose, bytes);
    }
    print(BUILD, FAST_SET, fast_nanos);
    print(BUILD, STD_SET, std_nanos);
    let mut orders: Vec<&str> = rows.iter().map(|row| row[0]).filter(|order| ![BYTES, BUILD, OPEN].contains(order)).collect();
    orders.dedup();
    for order in orders {
        let keys = keys::<N>(order, count);
        // a place twice, and one more where the key is there
        let in_slice = time(&keys, |key| sorted.binary_search(key).map_or_else(|place| 2 * place, |place| 2 * place + 1) as u64);
        let mut sets = vec![(FAST_SET, time_set(order, &keys, &fast)), (STD_SET, time_set(order, &keys, &of_std))];
        if order != DEPENDENT {
            print(order, "slice::binary_search", in_slice.0);
            sets.push(("BTreeSet", time(&keys, |key| u64::from(in_tree.contains(key)))));
        }
        for (whose, (nanos, found)) in &sets {
            assert_eq!(*found, sets[0].1.1, "{table}, {order}: {whose}");
            print(order, whose, *nanos);
        }
        for [_, _, whose, _, places, found] in rows.iter().filter(|row| row[0] == order) {
            assert_eq!(found.parse(), Ok(sets[0].1.1), "{table}, {order}: {whose}");
            assert!(*whose == "hashed" || places.parse() == Ok(in_slice.1), "{table}, {order}: {whose}");
        }
    }
}

fn main() {
    let printed = std::fs::read_to_string(std::env::args().nth(1).unwrap()).unwrap();
    let lines = printed.lines().map(|line| line.split_once('|').unwrap());
    let rows: Vec<Row> = lines.map(|(_, fields)| fields.split('|').collect::<Vec<_>>().try_into().unwrap()).collect();
    let table = printed.split('|').next().unwrap();
    match table.split(' ').next().unwrap() {
        "3" => print_table::<3>(table, &rows),
        "8" => print_table::<8>(table, &rows),
        "16" => print_table::<16>(table, &rows),
        "32" => print_table::<32>(table, &rows),
        bytes => panic!("no table of {bytes} bytes"),
    }
}
