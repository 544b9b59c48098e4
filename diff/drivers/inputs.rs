//! Generated texts, identifiers, records and keys: valid ones, what is nearly valid, and any bytes.

use std::iter::repeat;

/// Numbers by shifts and exclusive ors (xorshift), the same in each run from one start.
pub struct Random(pub u64);

impl Random {
    pub fn next(&mut self) -> u64 {
        self.0 ^= self.0 << 13;
        self.0 ^= self.0 >> 7;
        self.0 ^= self.0 << 17;
        self.0 >> 11
    }

    pub fn below(&mut self, bound: usize) -> usize {
        (self.next() % bound as u64) as usize
    }

    pub fn one_in(&mut self, bound: usize) -> bool {
        self.below(bound) == 0
    }

    pub fn of<T: Copy>(&mut self, all: &[T]) -> T {
        all[self.below(all.len())]
    }
}

/// Bytes that a reader may meet: mostly letters, with NULs and bytes above 127.
pub fn hostile(random: &mut Random, len: usize) -> Vec<u8> {
    (0..len)
        .map(|_| match random.below(12) {
            0 => 0,
            1 => random.of(&[0x7f, 0x80, 0xff]),
            2 => random.below(256) as u8,
            _ => random.of(b"aZ09 z"),
        })
        .collect()
}

pub fn text(random: &mut Random, len: usize) -> Vec<u8> {
    let kind = random.below(4);
    (0..len)
        .map(|i| match kind {
            1 if i == 0 => b'A' + random.below(26) as u8,
            0 | 1 => b'a' + random.below(26) as u8,
            2 => b'0' + random.below(10) as u8,
            _ => 1 + random.below(127) as u8,
        })
        .collect()
}

/// A text of at most `n` bytes.
pub fn text_within(random: &mut Random, n: usize) -> Vec<u8> {
    let len = random.below(n + 1);
    text(random, len)
}

pub fn texts(random: &mut Random, n: usize, how_many: usize) -> Vec<Vec<u8>> {
    (0..how_many).map(|_| text_within(random, n)).collect()
}

/// A text of characters of which most are escaped.
pub fn escaped(random: &mut Random, len: usize) -> Vec<u8> {
    (0..len).map(|_| random.of(b"\"\\'\t\r\n\x01\x0b\x1b\x1f\x7f~ aZ0{}")).collect()
}

/// Subtags, what is nearly one, and separators.
const PIECES: [&[u8]; 24] = [
    b"en", b"zh", b"EN", b"und", b"abcde", b"abcdefgh", b"Hant", b"latn", b"TW", b"us", b"419", b"-", b"_", b"--", b"", b"x",
    b"1", b"\x80", b"\0", b"abcd", b"posix", b"1a", b"@[`{", b"-",
];

/// Bytes near the grammar of identifiers.
pub fn identifier(random: &mut Random) -> Vec<u8> {
    let mut bytes = vec![];
    for place in 0..random.below(7) {
        if place > 0 && random.below(4) > 0 {
            bytes.push(random.of(b"-_"));
        }
        bytes.extend(random.of(&PIECES));
    }
    if let Some(last) = bytes.last_mut().filter(|_| random.one_in(16)) {
        *last = random.below(256) as u8;
    }
    bytes
}

/// Texts of few letters, so that some are near each other, or that begin with the same bytes: mostly sorted, without equal ones.
pub fn records(random: &mut Random, n: usize) -> Vec<Vec<u8>> {
    let count = if random.one_in(3) { random.below(300) } else { random.below(20) };
    let shared = if random.one_in(3) { n.saturating_sub(3) } else { 0 };
    let mut records: Vec<Vec<u8>> = (0..count)
        .map(|_| {
            let len = shared + random.below(n - shared + 1);
            (0..len).map(|place| if place < shared { b'm' } else { random.of(b"abyz") }).collect()
        })
        .collect();
    if !random.one_in(6) {
        records.sort();
        records.dedup();
    }
    records
}

/// Each padded to `n` bytes.
pub fn padded(texts: &[Vec<u8>], n: usize) -> Vec<u8> {
    texts.iter().flat_map(|text| text.iter().copied().chain(repeat(0)).take(n)).collect()
}

/// The bytes of a table, of which some have a fault.
pub fn spoiled(random: &mut Random, mut bytes: Vec<u8>) -> Vec<u8> {
    if !bytes.is_empty() && random.one_in(4) {
        let place = random.below(bytes.len());
        bytes[place] = if random.one_in(3) { random.below(256) as u8 } else { random.of(b"\0\0\x80\xff\x7f\x01-_") };
    }
    if random.one_in(12) {
        bytes.truncate(random.below(bytes.len() + 1));
    }
    bytes
}

/// A text of the records, its beginning, one near it, or any.
pub fn key(random: &mut Random, records: &[Vec<u8>], n: usize) -> Vec<u8> {
    if records.is_empty() || random.one_in(4) {
        return text_within(random, n);
    }
    let mut key = records[random.below(records.len())].clone();
    if random.one_in(3) {
        key.truncate(random.below(key.len() + 1));
    }
    if !key.is_empty() && random.one_in(3) {
        let place = random.below(key.len());
        key[place] = random.of(b"abyzm");
    }
    key
}
