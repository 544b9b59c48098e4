//! Prints digests of what the crate makes of the same texts on each processor: packed tables, what is found in them, and
//! identifiers.

use std::collections::BTreeSet;
use std::fmt::Debug;
use tinystr::TinyAsciiStr;
use tinystr::hashed::{HashedTable, pack_hashed};
use tinystr::packed::{SortedTable, pack_sorted};
use tinystr::subtags::LangId;

/// The FNV-1a hash of bytes.
fn digest(bytes: &[u8]) -> u64 {
    bytes.iter().fold(0xcbf29ce484222325, |hash, byte| (hash ^ u64::from(*byte)).wrapping_mul(0x100000001b3))
}

/// That of what a value prints.
fn digest_of(value: impl Debug) -> u64 {
    digest(format!("{value:?}").as_bytes())
}

/// The next of a row of numbers (xorshift).
fn next(state: &mut u64) -> u64 {
    *state ^= *state << 13;
    *state ^= *state >> 7;
    *state ^= *state << 17;
    *state
}

/// Texts of one byte to `N`, each once.
fn texts<const N: usize>(count: usize) -> Vec<TinyAsciiStr<N>> {
    let mut state = 88172645463325252;
    let mut character = move |count: u64| 1 + (next(&mut state) % count) as u8;
    let texts = (0..count).map(|_| {
        let len = usize::from(character(N as u64));
        let text: Vec<u8> = (0..len).map(|_| character(127)).collect();
        TinyAsciiStr::try_from_utf8(&text).unwrap()
    });
    texts.collect::<BTreeSet<_>>().into_iter().collect()
}

fn tables<const N: usize>() {
    for count in [0, 1, 7, 8, 9, 100, 1000] {
        let (texts, others) = (texts::<N>(count), texts::<N>(2 * count));
        let (sorted, hashed) = (pack_sorted(&texts), pack_hashed(&texts).unwrap());
        let (in_sorted, in_hashed) =
            (SortedTable::<N>::from_bytes(&sorted).unwrap(), HashedTable::<N>::from_bytes(&hashed).unwrap());
        let found = others
            .iter()
            .map(|text| (in_sorted.binary_search(text), in_hashed.position(text), in_sorted.with_prefix(text).len()));
        println!("{N}, {}: {:x} {:x} {:x}", texts.len(), digest(&sorted), digest(&hashed), digest_of(found.collect::<Vec<_>>()));
    }
}

/// Languages, scripts and regions in each combination, with a byte changed at each place.
fn identifiers() {
    let mut answers = Vec::new();
    for language in ["en", "ZH", "und", "abcd", "abcdefgh", "e1"] {
        for script in ["", "-Latn", "_hANT", "-Lat"] {
            for region in ["", "-US", "_419", "-gb", "-4"] {
                let whole = [language, script, region].concat().into_bytes();
                answers.push(LangId::try_from_utf8(&whole));
                for place in 0..whole.len() {
                    for byte in [0, b'-', b'7', b'Q', 0xc3] {
                        let mut changed = whole.clone();
                        changed[place] = byte;
                        answers.push(LangId::try_from_utf8(&changed));
                    }
                }
            }
        }
    }
    println!("{} identifiers: {:x}", answers.len(), digest_of(answers));
}

fn main() {
    tables::<1>();
    tables::<2>();
    tables::<3>();
    tables::<4>();
    tables::<5>();
    tables::<8>();
    tables::<9>();
    tables::<16>();
    tables::<17>();
    tables::<32>();
    tables::<64>();
    identifiers();
}
