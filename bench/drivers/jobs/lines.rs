//! The line program, over the original crate and unic-langid.

use crate::cells::Cells;
use crate::digest::Digest;
use crate::identifiers;
use crate::random::{push_word, Random, LOWERCASE, MIXED, UPPERCASE};
use std::io::{self, BufRead, Write};
use tinystr::{ParseError, TinyAsciiStr};
use unic_langid_impl::parser::ParserError;

const COUNT: usize = 250_000;

const DIFFERENT: u32 = 8_192;

const CAPACITIES: [&str; 11] = ["0", "1", "2", "3", "4", "5", "8", "9", "16", "17", "32"];

const COMMANDS: [&str; 17] = [
    "text", "len", "alphabetic", "alphanumeric", "numeric", "lowercase", "titlecase", "uppercase",
    "alphabetic_lowercase", "alphabetic_titlecase", "alphabetic_uppercase", "lower", "title", "upper", "lossy",
    "records", "locale",
];

const LOCALES: [&str; 12] = [
    "en-US", "de", "zh_hant_tw", "EN_us", "fr-CA", "es-419", "en-US-posix", "e", "sr-Latn", "ja-JP", "pt_BR", "hsb-DE",
];

const BAD: [&str; 8] = ["", "8", "tEsT", "7 len a", "8 length a", " len a", "8  a", "16 TEXT abc"];

pub fn run(random: &mut Random, digest: &mut Digest) {
    let input = make_input(random);
    digest.add_bytes(&answer(&input[..]).unwrap());
}

fn make_input(random: &mut Random) -> Vec<u8> {
    let mut lines = Cells::default();
    for _ in 0..DIFFERENT {
        push_line(&mut lines.bytes, random);
        lines.bytes.push(b'\n');
        lines.end();
    }
    let mut input = vec![];
    for _ in 0..COUNT {
        input.extend_from_slice(lines.get(random.below(DIFFERENT)));
    }
    input
}

fn push_line(line: &mut Vec<u8>, random: &mut Random) {
    let kind = random.below(100);
    if kind < 4 {
        return line.extend_from_slice(random.one_of(&BAD).as_bytes());
    }
    line.extend_from_slice(random.one_of(&CAPACITIES).as_bytes());
    line.push(b' ');
    if kind < 12 {
        line.extend_from_slice(b"locale ");
        return line.extend_from_slice(random.one_of(&LOCALES).as_bytes());
    }
    line.extend_from_slice(random.one_of(&COMMANDS).as_bytes());
    line.push(b' ');
    push_text(line, random, kind);
}

fn push_text(line: &mut Vec<u8>, random: &mut Random, kind: usize) {
    let letters = match kind % 3 {
        0 => LOWERCASE,
        1 => UPPERCASE,
        _ => MIXED,
    };
    let len = random.below(9);
    push_word(line, random, letters, len);
    if kind < 40 {
        push_word(line, random, letters, 8);
    }
    if kind < 20 {
        push_word(line, random, letters, len);
    }
    if kind >= 96 {
        line.push(0xe9);
    }
}

/// The replies to all lines of an input.
pub fn answer(mut input: impl BufRead) -> io::Result<Vec<u8>> {
    let (mut line, mut out) = (vec![], vec![]);
    while input.read_until(b'\n', &mut line)? > 0 {
        reply(line.strip_suffix(b"\n").unwrap_or(&line), &mut out)?;
        out.push(b'\n');
        line.clear();
    }
    Ok(out)
}

fn split_once(text: &[u8], separator: u8) -> Option<(&[u8], &[u8])> {
    let end = text.iter().position(|byte| *byte == separator)?;
    Some((&text[..end], &text[end + 1..]))
}

fn reply(line: &[u8], out: &mut Vec<u8>) -> io::Result<()> {
    let Some((capacity, rest)) = split_once(line, b' ') else {
        return out.write_all(b"bad line");
    };
    let (command, text) = split_once(rest, b' ').unwrap_or((rest, &[]));
    match capacity {
        b"0" => reply_at::<0>(command, text, out),
        b"1" => reply_at::<1>(command, text, out),
        b"2" => reply_at::<2>(command, text, out),
        b"3" => reply_at::<3>(command, text, out),
        b"4" => reply_at::<4>(command, text, out),
        b"5" => reply_at::<5>(command, text, out),
        b"8" => reply_at::<8>(command, text, out),
        b"9" => reply_at::<9>(command, text, out),
        b"16" => reply_at::<16>(command, text, out),
        b"17" => reply_at::<17>(command, text, out),
        b"32" => reply_at::<32>(command, text, out),
        _ => out.write_all(b"bad capacity"),
    }
}

fn reply_at<const N: usize>(command: &[u8], bytes: &[u8], out: &mut Vec<u8>) -> io::Result<()> {
    let answer: fn(&mut Vec<u8>, TinyAsciiStr<N>) -> io::Result<()> = match command {
        b"text" => |out, text| out.write_all(text.as_utf8()),
        b"len" => |out, text| write!(out, "{}", text.len()),
        b"alphabetic" => |out, text| write_truth(out, text.is_ascii_alphabetic()),
        b"alphanumeric" => |out, text| write_truth(out, text.is_ascii_alphanumeric()),
        b"numeric" => |out, text| write_truth(out, text.is_ascii_numeric()),
        b"lowercase" => |out, text| write_truth(out, text.is_ascii_lowercase()),
        b"titlecase" => |out, text| write_truth(out, text.is_ascii_titlecase()),
        b"uppercase" => |out, text| write_truth(out, text.is_ascii_uppercase()),
        b"alphabetic_lowercase" => |out, text| write_cased(out, text, TinyAsciiStr::is_ascii_alphabetic_lowercase),
        b"alphabetic_titlecase" => |out, text| write_cased(out, text, TinyAsciiStr::is_ascii_alphabetic_titlecase),
        b"alphabetic_uppercase" => |out, text| write_cased(out, text, TinyAsciiStr::is_ascii_alphabetic_uppercase),
        b"lower" => |out, text| out.write_all(text.to_ascii_lowercase().as_utf8()),
        b"title" => |out, text| out.write_all(text.to_ascii_titlecase().as_utf8()),
        b"upper" => |out, text| out.write_all(text.to_ascii_uppercase().as_utf8()),
        b"lossy" => return out.write_all(TinyAsciiStr::<N>::from_utf8_lossy(bytes, b'?').as_utf8()),
        b"records" => return reply_to_records::<N>(bytes, out),
        b"locale" => return reply_to_locale(bytes, out),
        _ => return out.write_all(b"bad command"),
    };
    match TinyAsciiStr::try_from_utf8(bytes) {
        Ok(text) => answer(out, text),
        Err(fault) => write_fault(out, fault),
    }
}

fn write_truth(out: &mut Vec<u8>, truth: bool) -> io::Result<()> {
    out.write_all(if truth { b"true" } else { b"false" })
}

/// The original returns false for the empty text at some capacities.
fn write_cased<const N: usize>(
    out: &mut Vec<u8>,
    text: TinyAsciiStr<N>,
    is_cased: fn(&TinyAsciiStr<N>) -> bool,
) -> io::Result<()> {
    write_truth(out, text.len() == 0 || is_cased(&text))
}

fn write_fault(out: &mut Vec<u8>, fault: ParseError) -> io::Result<()> {
    match fault {
        ParseError::TooLong { max, len } => write!(out, "too long {len} > {max}"),
        ParseError::ContainsNull => out.write_all(b"contains null"),
        _ => out.write_all(b"non ascii"),
    }
}

fn reply_to_locale(bytes: &[u8], out: &mut Vec<u8>) -> io::Result<()> {
    match identifiers::read(bytes) {
        Ok(id) => write!(out, "{id}"),
        Err(ParserError::InvalidLanguage) => out.write_all(b"invalid language"),
        Err(ParserError::InvalidSubtag) => out.write_all(b"invalid subtag"),
    }
}

fn reply_to_records<const N: usize>(bytes: &[u8], out: &mut Vec<u8>) -> io::Result<()> {
    if N == 0 {
        return out.write_all(b"bad capacity");
    }
    if bytes.len() % N != 0 {
        return write!(out, "bad length {}", bytes.len());
    }
    for (index, raw) in bytes.chunks_exact(N).enumerate() {
        if let Err(fault) = TinyAsciiStr::<N>::try_from_raw(raw.try_into().unwrap()) {
            write!(out, "bad record {index} ")?;
            return write_fault(out, fault);
        }
    }
    write!(out, "ok {}", bytes.len() / N)
}
