//! Packed files, as sorted arrays.

use crate::codes::short_code;
use crate::digest::Digest;
use crate::random::Random;
use std::collections::BTreeMap;
use tinystr::TinyAsciiStr;

pub fn run(random: &mut Random, digest: &mut Digest) {
    run_at::<3, 2>(random, digest, 100_000, 4_096);
    run_at::<8, 3>(random, digest, 400_000, 50_000);
    run_at::<16, 3>(random, digest, 200_000, 25_000);
}

fn run_at<const N: usize, const B: usize>(random: &mut Random, digest: &mut Digest, count: usize, beginnings: usize) {
    let codes: Vec<[u8; N]> = (0..count).map(|_| short_code(random)).collect();
    digest.add_bytes(&codes.concat());
    let file = pack_sorted(&codes);
    digest.add_bytes(&file);
    let sorted = open::<N>(&file).unwrap();
    search(sorted, &codes, random, digest);
    for _ in 0..beginnings {
        let code: [u8; N] = short_code(random);
        let found = with_prefix(sorted, &code[..B]);
        digest.add(found.len() as u64);
        for code in found {
            digest.add_bytes(code);
        }
    }
    for code in &sorted.to_vec() {
        digest.add_bytes(code);
    }
    map(&codes, random, digest);
}

pub fn pack_sorted<const N: usize>(codes: &[[u8; N]]) -> Vec<u8> {
    let mut sorted = codes.to_vec();
    sorted.sort_unstable();
    sorted.dedup();
    sorted.into_flattened()
}

/// The codes of a file, if each is a padded text and they are strictly ascending.
pub fn open<const N: usize>(file: &[u8]) -> Option<&[[u8; N]]> {
    let (codes, rest) = file.as_chunks::<N>();
    let valid = rest.is_empty() && codes.iter().all(|code| TinyAsciiStr::try_from_raw(*code).is_ok());
    (valid && codes.is_sorted_by(|a, b| a < b)).then_some(codes)
}

/// The codes that begin with `beginning`.
pub fn with_prefix<'a, const N: usize>(sorted: &'a [[u8; N]], beginning: &[u8]) -> &'a [[u8; N]] {
    let rest = &sorted[sorted.partition_point(|code| &code[..] < beginning)..];
    &rest[..rest.partition_point(|code| code.starts_with(beginning))]
}

fn search<const N: usize>(sorted: &[[u8; N]], codes: &[[u8; N]], random: &mut Random, digest: &mut Digest) {
    for code in sorted {
        digest.add_bytes(code);
        digest.add(u64::from(sorted.binary_search(code).is_ok()));
    }
    for code in codes {
        digest.add_place(sorted.binary_search(code));
    }
    for _ in 0..codes.len() {
        digest.add_place(sorted.binary_search(&short_code(random)));
    }
}

/// A map of every fourth code: packed, looked up and walked.
fn map<const N: usize>(codes: &[[u8; N]], random: &mut Random, digest: &mut Digest) {
    let mut places = BTreeMap::new();
    for code in codes.iter().step_by(4) {
        places.insert(*code, (random.bits() as u32).to_le_bytes());
    }
    let keys: Vec<u8> = places.keys().flatten().copied().collect();
    let values: Vec<u8> = places.values().flatten().copied().collect();
    let keys = open::<N>(&keys).unwrap();
    let values = values.as_chunks::<4>().0;
    for code in codes {
        digest.add(keys.binary_search(code).map_or(0, |index| u64::from(u32::from_le_bytes(values[index]))));
    }
    for (key, value) in keys.iter().zip(values) {
        digest.add_bytes(key);
        digest.add(u64::from(u32::from_le_bytes(*value)));
    }
}
