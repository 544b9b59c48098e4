//! A text hashes as its `str`, which `Borrow<str>` promises, so a map finds it by one.

use std::collections::HashMap;
use std::hash::{Hash, Hasher};
use tinystr::TinyAsciiStr;

const PANGRAM: &str = "the quick brown fox jumps over the lazy dog";

/// The texts of each length from 0 to `N`.
fn texts<const N: usize>() -> impl Iterator<Item = (TinyAsciiStr<N>, &'static str)> {
    (0..=N).map(|len| (PANGRAM[..len].parse().unwrap(), &PANGRAM[..len]))
}

/// What is written into a hasher, write by write.
#[derive(Debug, Default, PartialEq)]
struct Writes(Vec<Vec<u8>>);

impl Hasher for Writes {
    fn write(&mut self, bytes: &[u8]) {
        self.0.push(bytes.into());
    }

    fn finish(&self) -> u64 {
        unreachable!()
    }
}

fn writes_of(value: impl Hash) -> Writes {
    let mut writes = Writes::default();
    value.hash(&mut writes);
    writes
}

fn hash_as_str<const N: usize>() {
    let map: HashMap<_, _> = texts::<N>().collect();
    for (text, s) in texts::<N>() {
        assert_eq!((map.get(s), writes_of(text)), (Some(&s), writes_of(s)));
    }
}

#[test]
fn texts_hash_as_str() {
    hash_as_str::<0>();
    hash_as_str::<1>();
    hash_as_str::<3>();
    hash_as_str::<8>();
    hash_as_str::<16>();
    hash_as_str::<17>();
    hash_as_str::<33>();
}
