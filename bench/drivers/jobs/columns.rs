//! Columns of codes, over the original crate, with serde_json's strings.

use crate::cells::Cells;
use crate::digest::Digest;
use crate::random::{push_word, Random, LOWERCASE, MIXED, UPPERCASE};
use serde_json::Value;
use std::collections::BTreeMap;
use std::fmt::Write;
use tinystr::TinyAsciiStr;

const COUNT: usize = 50_000;

pub fn run(random: &mut Random, digest: &mut Digest) {
    run_at::<3>(random, digest);
    run_at::<4>(random, digest);
    run_at::<8>(random, digest);
    run_at::<16>(random, digest);
    run_at::<48>(random, digest);
}

fn run_at<const N: usize>(random: &mut Random, digest: &mut Digest) {
    let cells = make_cells::<N>(random);
    let texts = read::<N>(&cells, digest);
    read_others::<N>(&cells, digest);
    read_records(&texts, random, digest);
    let changed = change(&texts, digest);
    count(&changed, digest);
    print(&changed, digest);
    through_json(&texts, digest);
}

fn make_cells<const N: usize>(random: &mut Random) -> Cells {
    let mut cells = Cells::default();
    for _ in 0..COUNT {
        push_cell::<N>(&mut cells.bytes, random);
        cells.end();
    }
    cells
}

/// Most cells fill the capacity or nearly; some are empty, too long, or have a byte that is no character.
fn push_cell<const N: usize>(cell: &mut Vec<u8>, random: &mut Random) {
    let kind = random.below(100);
    if kind < 6 {
        return;
    }
    let letters = match kind % 4 {
        0 => LOWERCASE,
        1 => MIXED,
        _ => UPPERCASE,
    };
    let mut left = if kind < 60 { N } else { N.min(1 + random.below(48)) };
    for _ in 0..=N / 8 {
        push_word(cell, random, letters, left);
        left = left.saturating_sub(8);
    }
    match kind {
        94 | 95 => cell.extend_from_slice(b"more"),
        96 | 97 => cell.extend_from_slice("é".as_bytes()),
        98 => *cell.last_mut().unwrap() = 0xff,
        99 => *cell.last_mut().unwrap() = 0,
        _ => {}
    }
}

fn read<const N: usize>(cells: &Cells, digest: &mut Digest) -> Vec<TinyAsciiStr<N>> {
    let mut texts = vec![];
    for cell in cells.iter() {
        match TinyAsciiStr::try_from_utf8(cell) {
            Ok(text) => texts.push(text),
            Err(fault) => digest.add_fault(fault),
        }
    }
    texts
}

/// The same cells by the lossy reader, and as numbers of 16 bits by both.
fn read_others<const N: usize>(cells: &Cells, digest: &mut Digest) {
    let mut texts = vec![];
    let mut units: Vec<u16> = vec![];
    for (index, cell) in cells.iter().enumerate() {
        texts.push(TinyAsciiStr::<N>::from_utf8_lossy(cell, b'?'));
        units.clear();
        units.extend(cell.iter().map(|byte| u16::from(*byte)));
        if index % 2 == 0 {
            match TinyAsciiStr::try_from_utf16(&units) {
                Ok(text) => texts.push(text),
                Err(fault) => digest.add_fault(fault),
            }
        } else {
            texts.push(TinyAsciiStr::from_utf16_lossy(&units, b'?'));
        }
    }
    for text in &texts {
        digest.add_text(text);
    }
}

/// The texts as records of a file, of which one in some hundreds was spoiled.
fn read_records<const N: usize>(texts: &[TinyAsciiStr<N>], random: &mut Random, digest: &mut Digest) {
    let mut file: Vec<u8> = vec![];
    for text in texts {
        file.extend_from_slice(text.all_bytes());
    }
    let valid = file.as_chunks::<N>().0.iter().all(|raw| TinyAsciiStr::try_from_raw(*raw).is_ok());
    digest.add(u64::from(valid));
    for _ in 0..COUNT / 256 {
        let place = random.bits() as usize % file.len();
        file[place] = 0x80;
    }
    for raw in file.as_chunks::<N>().0 {
        match TinyAsciiStr::try_from_raw(*raw) {
            Ok(text) => digest.add_text(&text),
            Err(fault) => digest.add_fault(fault),
        }
    }
}

fn change<const N: usize>(texts: &[TinyAsciiStr<N>], digest: &mut Digest) -> Vec<TinyAsciiStr<N>> {
    let mut changed = vec![];
    for text in texts {
        // the original returns false for the empty text at some capacities
        let uppercase = text.is_empty() || text.is_ascii_alphabetic_uppercase();
        digest.add(
            u64::from(text.is_ascii_alphabetic())
                | u64::from(text.is_ascii_alphanumeric()) << 1
                | u64::from(uppercase) << 2,
        );
        changed.push(if text.is_ascii_lowercase() { text.to_ascii_titlecase() } else { text.to_ascii_uppercase() });
    }
    changed
}

fn count<const N: usize>(texts: &[TinyAsciiStr<N>], digest: &mut Digest) {
    let mut counts = BTreeMap::new();
    for text in texts {
        *counts.entry(*text).or_insert(0u32) += 1;
    }
    for (text, count) in &counts {
        digest.add_text(text);
        digest.add(u64::from(*count));
    }
}

fn print<const N: usize>(texts: &[TinyAsciiStr<N>], digest: &mut Digest) {
    let mut printed = String::new();
    for text in texts {
        write!(printed, "{text},").unwrap();
    }
    digest.add_bytes(printed.as_bytes());
}

fn through_json<const N: usize>(texts: &[TinyAsciiStr<N>], digest: &mut Digest) {
    let values: Vec<Value> = texts.iter().map(|text| Value::from(text.as_str())).collect();
    for value in &values {
        match value.as_str().and_then(|text| TinyAsciiStr::<N>::try_from_str(text).ok()) {
            Some(text) => digest.add_text(&text),
            None => digest.add(1 << 40),
        }
    }
}
