//! Rare and difficult inputs, over sorted arrays, the original crate and unic-langid.

use crate::codes::long_code;
use crate::digest::Digest;
use crate::identifiers;
use crate::lines::answer;
use crate::random::{letters_of, Random, LOWERCASE, MIXED};
use crate::tables::{open, pack_sorted, with_prefix};
use tinystr::{ParseError, TinyAsciiStr};
use unic_langid_impl::parser::ParserError;

pub fn run(random: &mut Random, digest: &mut Digest) {
    let codes: Vec<[u8; 1]> = long_codes(random, 20_000);
    digest.add_bytes(&pack_sorted(&codes));
    spoil(&codes, digest);
    texts_at::<17>(random, digest, 20_000);
    texts_at::<31>(random, digest, 20_000);
    texts_at::<33>(random, digest, 20_000);
    texts_at::<255>(random, digest, 4_000);
    near_identifiers(random, digest);
    lines(random, digest);
}

fn long_codes<const N: usize>(random: &mut Random, count: usize) -> Vec<[u8; N]> {
    (0..count).map(|_| long_code(random)).collect()
}

fn texts_at<const N: usize>(random: &mut Random, digest: &mut Digest, count: usize) {
    let codes = long_codes::<N>(random, count);
    let file = pack_sorted(&codes);
    digest.add_bytes(&file);
    search(open(&file).unwrap(), &codes, digest);
    for pair in codes.windows(2) {
        digest.add(u64::from(pair[0] < pair[1]) << 1 | u64::from(pair[0] == pair[1]));
    }
    spoil(&codes, digest);
    read_units(&codes, random, digest);
}

/// Keys that are there, others below and above all, and all that begins with all but the last byte.
fn search<const N: usize>(sorted: &[[u8; N]], codes: &[[u8; N]], digest: &mut Digest) {
    for code in codes {
        digest.add_place(sorted.binary_search(code));
        digest.add_place(sorted.binary_search(&begun_with(code, b'!')));
        digest.add_place(sorted.binary_search(&begun_with(code, 127)));
        let beginning = TinyAsciiStr::<N>::from_utf8_lossy(&code[..N - 1], b'~');
        let found = with_prefix(sorted, beginning.as_utf8());
        digest.add(found.len() as u64);
        for code in found {
            digest.add_bytes(code);
        }
    }
}

/// The code with another first byte.
fn begun_with<const N: usize>(code: &[u8; N], byte: u8) -> [u8; N] {
    let mut other = *code;
    other[0] = byte;
    other
}

/// Why a file can't be opened.
enum Refusal {
    Length(usize),
    Parse(usize, ParseError),
}

fn validate<const N: usize>(file: &[u8]) -> Result<&[[u8; N]], Refusal> {
    let (records, rest) = file.as_chunks::<N>();
    if !rest.is_empty() {
        return Err(Refusal::Length(file.len()));
    }
    for (index, raw) in records.iter().enumerate() {
        TinyAsciiStr::try_from_raw(*raw).map_err(|fault| Refusal::Parse(index, fault))?;
    }
    Ok(records)
}

/// Files whose last record is bad, whose length is wrong, or whose records are in no order.
fn spoil<const N: usize>(codes: &[[u8; N]], digest: &mut Digest) {
    let mut file = codes.concat();
    add_refusal(digest, validate::<N>(&file[..file.len() - 1]).err());
    for byte in 0x80..0x94 {
        *file.last_mut().unwrap() = byte;
        add_refusal(digest, validate::<N>(&file).err());
    }
    file.truncate(file.len() - N);
    if let Ok(records) = validate::<N>(&file) {
        if let Some(index) = records.windows(2).position(|pair| pair[0] >= pair[1]) {
            digest.add(index as u64 + 1);
        }
    }
}

fn add_refusal(digest: &mut Digest, refusal: Option<Refusal>) {
    match refusal {
        Some(Refusal::Length(len)) => digest.add(len as u64),
        Some(Refusal::Parse(index, fault)) => {
            digest.add(index as u64);
            digest.add_fault(fault);
        }
        None => digest.add(0),
    }
}

/// The texts as numbers of 16 bits whose last is half of a pair, or a character.
fn read_units<const N: usize>(codes: &[[u8; N]], random: &mut Random, digest: &mut Digest) {
    let mut units: Vec<u16> = vec![];
    for code in codes {
        units.clear();
        units.extend(code.iter().take_while(|byte| **byte != 0).map(|byte| u16::from(*byte)));
        if random.with_probability(50) {
            *units.last_mut().unwrap() = 0xd800;
        }
        match TinyAsciiStr::<N>::try_from_utf16(&units) {
            Ok(text) => digest.add_text(&text),
            Err(fault) => digest.add_fault(fault),
        }
        let text = TinyAsciiStr::<N>::from_utf16_lossy(&units, b'?');
        digest.add_text(&text.to_ascii_lowercase());
    }
}

fn near_identifiers(random: &mut Random, digest: &mut Digest) {
    for _ in 0..100_000 {
        let (bytes, len) = near_identifier(random);
        match identifiers::read(&bytes[..len]) {
            Ok(id) => digest.add_bytes(id.to_string().as_bytes()),
            Err(ParserError::InvalidLanguage) => digest.add(1),
            Err(ParserError::InvalidSubtag) => digest.add(2),
        }
    }
}

/// At most three subtags, many of a length that is accepted, of letters and here and there a digit; and their length.
fn near_identifier(random: &mut Random) -> ([u8; 48], usize) {
    let mut bytes = [b'a'; 48];
    let mut end = 0;
    for (accepted, most) in [(2, 9), (4, 5), (2, 4)] {
        bytes[end..end + 8].copy_from_slice(&letters_of(random.bits(), MIXED));
        end += if random.with_probability(60) { accepted } else { 1 + random.below(most) };
        if random.with_probability(30) {
            break;
        }
        bytes[end] = if random.with_probability(80) { b'-' } else { b'_' };
        end += 1;
    }
    (bytes, end)
}

/// Lines with nothing in them, a line that never ends, and lines of no command.
fn lines(random: &mut Random, digest: &mut Digest) {
    let mut input = vec![];
    for _ in 0..20_000 {
        match random.below(4) {
            0 => input.push(b'\n'),
            1 => push_line(&mut input, random, b"32 alphabetic_titlecasf ", b"qrstuvwxyzabcdef\n"),
            2 => push_line(&mut input, random, b"17 records ", b"qabcdefghijklmn\0\0qabcdefghijklmnopq\n"),
            _ => push_line(&mut input, random, b"32 upper ", b"qrstuvwxyzabcdefg\n"),
        }
    }
    for _ in 0..100_000 {
        input.extend_from_slice(b"8 text ");
    }
    digest.add_bytes(&answer(&input[..]).unwrap());
}

/// A command, sixteen letters, and the end of the line.
fn push_line(input: &mut Vec<u8>, random: &mut Random, command: &[u8], end: &[u8]) {
    input.extend_from_slice(command);
    input.extend_from_slice(&letters_of(random.bits(), LOWERCASE));
    input.extend_from_slice(&letters_of(random.bits(), LOWERCASE));
    input.extend_from_slice(end);
}
