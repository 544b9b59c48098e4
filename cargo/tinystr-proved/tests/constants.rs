//! What constants call gives what is defined, and the twins for tables give the same as the calls that aren't `const`.
#![cfg(all(feature = "identifiers", feature = "hashed"))]

mod definitions;

use definitions::{CASES, QUESTIONS};
use tinystr::hashed::{HashedMap, HashedMapError, HashedTable, HashedTextMap};
use tinystr::packed::{NotRising, PackedMap, SortedError, SortedTable, Table, TextEntries, TextMap};
use tinystr::subtags::{LangId, Language};
use tinystr::ule::UleError;
use tinystr::{Case, ParseError, Question, TinyAsciiStr, UnvalidatedTinyAsciiStr, tinystr};

type Maps<'a> = (PackedMap<'a, 3, 1>, TextMap<'a, 3, 1>, HashedMap<'a, 3, 1>, HashedTextMap<'a, 3, 1>);
type Tables<'a> = (Table<'a, 3>, SortedTable<'a, 3>, HashedTable<'a, 3>);

macro_rules! parts_of_map {
    ($map:expr) => {
        ($map.len(), $map.is_empty(), $map.iter(), $map.keys(), $map.values())
    };
}

/// What else a `const fn` can call: it compiles.
#[allow(dead_code)]
const fn what_constants_call(text: TinyAsciiStr<3>, ids: &(LangId, Language), tables: &Tables, maps: &Maps) -> UnvalidatedTinyAsciiStr<3> {
    let _ = (text.is_empty(), text.get_byte(0), text.all_bytes(), text.to_bytes(), text.ask(Question::Numeric), text.in_case(Case::Lower));
    let _ = (TinyAsciiStr::<3>::niche_bit_pattern(), TinyAsciiStr::<3>::default(), UnvalidatedTinyAsciiStr::<3>::default());
    let _ = (ids.0.to_text(), ids.1.to_text(), UnvalidatedTinyAsciiStr::from_utf8_unchecked(*b"GBP"));
    let _ = (tables.0.len(), tables.0.is_empty(), tables.0.iter(), tables.0.records(), tables.1.table());
    let _ = (tables.2.len(), tables.2.is_empty(), tables.2.table(), TextEntries::new(&tables.0, &tables.0));
    let _ = (parts_of_map!(maps.0), parts_of_map!(maps.1), parts_of_map!(maps.2), parts_of_map!(maps.3));
    text.to_unvalidated()
}

/// How some units are read, as bytes and as 16-bit numbers, and what is made of them.
type Read<const N: usize> = ([Result<TinyAsciiStr<N>, ParseError>; 3], [TinyAsciiStr<N>; 2]);

const fn read_all<const N: usize>(bytes: [u8; N]) -> Read<N> {
    let mut wide = [0; N];
    let mut at = 0;
    while at < N {
        wide[at] = bytes[at] as u16;
        at += 1;
    }
    let read = [TinyAsciiStr::try_from_utf8(&bytes), TinyAsciiStr::try_from_utf16(&wide), TinyAsciiStr::try_from_raw(bytes)];
    (read, [TinyAsciiStr::from_utf8_lossy(&bytes, b'?'), TinyAsciiStr::from_utf16_lossy(&wide, b'?')])
}

/// The length, the answers in the order of `QUESTIONS`, the changes of case in that of `CASES`, and a longer text.
type Answers<const N: usize> = (usize, [bool; 9], [TinyAsciiStr<N>; 3], TinyAsciiStr<24>);

const fn answers<const N: usize>(text: TinyAsciiStr<N>) -> Answers<N> {
    let answers = [
        text.is_ascii_alphabetic(),
        text.is_ascii_alphanumeric(),
        text.is_ascii_numeric(),
        text.is_ascii_lowercase(),
        text.is_ascii_titlecase(),
        text.is_ascii_uppercase(),
        text.is_ascii_alphabetic_lowercase(),
        text.is_ascii_alphabetic_titlecase(),
        text.is_ascii_alphabetic_uppercase(),
    ];
    (text.as_str().len(), answers, [text.to_ascii_lowercase(), text.to_ascii_titlecase(), text.to_ascii_uppercase()], text.concat(text))
}

fn are_as_defined<const N: usize>(bytes: [u8; N], (read, lossy): Read<N>) {
    let texts = read.map(|text| text.map(|text| text.to_bytes()));
    assert_eq!(texts, [definitions::read(&bytes), definitions::read(&bytes), definitions::read_raw(bytes)]);
    assert_eq!(lossy.map(|text| text.to_bytes()), [definitions::lossy(&bytes, b'?'); 2]);
}

fn answers_are_as_defined<const N: usize>(text: &[u8], (len, answers, in_case, twice): Answers<N>) {
    assert_eq!((len, answers), (text.len(), QUESTIONS.map(|(_, first, others)| definitions::is_in(text, first, others))));
    assert_eq!(in_case.map(|text| text.to_bytes()), CASES.map(|(_, first, others)| definitions::in_case(text, first, others)));
    assert_eq!(twice.to_bytes(), definitions::padded([text, text].concat()));
}

/// At each width of a word, and past sixteen bytes. A sum that is too large, or a byte above 127 in a text, doesn't compile.
#[test]
fn constants_are_as_defined() {
    macro_rules! readers {
        ($($bytes:literal)*) => {
            $(are_as_defined(*$bytes, const { read_all(*$bytes) });)*
        };
    }
    macro_rules! answers {
        ($($n:literal $text:literal)*) => {
            $(answers_are_as_defined($text.as_bytes(), const { answers(tinystr!($n, $text)) });)*
        };
    }
    readers!(b"" b"GB" b"\0\x80" b"Latn" b"a\0b\0" b"en-GB-wa" b"calenda\xff" b"zh-Hant-TW\0\0\0" b"zh-Hant\0TW\0\0\0");
    readers!(b"America/New_York\0\0" b"America/Sao\xe3o_Pau" b"America/Argentina/Salta\0" b"America/Argentina\0Salta\0");
    answers!(2 "GB" 4 "Latn" 5 "" 8 "z@`[A{/:" 13 "zh-Hant-TW" 16 "abcdefghijklmnop" 18 "123456789012345678" 24 "Aaaaaaaaaaaaaaaaaaaaaaaa");
}

macro_rules! agree {
    ($type:ty, $twin:ident, $call:ident, $($bytes:expr),+) => {
        assert_eq!(<$type>::$twin($($bytes),+), <$type>::$call($($bytes),+), "{:?}", [$($bytes),+])
    };
}

fn tables_agree<const N: usize>(bytes: &[u8]) {
    let hashed = &[b"\x01\0\0\0\0\0\0\0\0\0\0\0\0\0\0\0", bytes].concat()[..];
    agree!(Table<N>, new_const, new, bytes);
    agree!(SortedTable<N>, from_bytes_const, from_bytes, bytes);
    agree!(HashedTable<N>, from_bytes_const, from_bytes, hashed);
    for values in [&b""[..], b"b\0", b"b\0a", b"\0b", b"bba\0"] {
        agree!(PackedMap<N, 2>, new_const, new, bytes, values);
        agree!(TextMap<N, 2>, new_const, new, bytes, values);
        agree!(HashedMap<N, 2>, new_const, new, hashed, values);
        agree!(HashedTextMap<N, 2>, new_const, new, hashed, values);
    }
}

/// All lists of at most two bytes, and of longer ones each that has one of four bytes at each place.
#[test]
fn tables_of_constants_agree() {
    for number in 0..=u16::MAX {
        tables_agree::<1>(&number.to_be_bytes());
        tables_agree::<2>(&number.to_be_bytes());
    }
    for len in 0..=7u32 {
        for kinds in 0..4usize.pow(len) {
            let bytes: Vec<u8> = (0..len).map(|at| [0, b'a', b'b', 0x80][kinds / 4usize.pow(at) % 4]).collect();
            tables_agree::<1>(&bytes);
            tables_agree::<2>(&bytes);
            tables_agree::<3>(&bytes);
        }
    }
}

/// A hashed table of 64 texts, with pilots and a move that one of them takes: each bit of it is flipped.
#[cfg(feature = "alloc")]
#[test]
fn hashed_tables_of_constants_agree() {
    let texts: Vec<TinyAsciiStr<17>> = (0..64).map(|number| format!("ht{number}").parse().unwrap()).collect();
    let short: Vec<TinyAsciiStr<8>> = texts.iter().map(|text| text.resize()).collect();
    let mut bytes = tinystr::hashed::pack_hashed(&short).unwrap();
    for bit in 0..8 * bytes.len() {
        bytes[bit / 8] ^= 1 << (bit % 8);
        agree!(HashedTable<8>, from_bytes_const, from_bytes, &bytes);
        bytes[bit / 8] ^= 1 << (bit % 8);
    }
    agree!(HashedTable<8>, from_bytes_const, from_bytes, &bytes);
    let long = tinystr::hashed::pack_hashed(&texts).unwrap();
    agree!(HashedTable<17>, from_bytes_const, from_bytes, &long);
}

static NAMES: Result<Table<'static, 4>, UleError> = Table::new_const(b"EuroYen\0");
const DESCENDING: Result<SortedTable<'static, 3>, SortedError> = SortedTable::from_bytes_const(b"EURCHF");
static DIGITS: Result<HashedMap<'static, 3, 1>, HashedMapError> =
    HashedMap::new_const(b"\x01\0\0\0\0\0\0\0\0\0\0\0\0\0\0\0EURJPY", &[2, 0]);

#[test]
fn tables_are_constants() {
    assert_eq!(NAMES.unwrap().get(1), Some(tinystr!(4, "Yen")));
    assert_eq!(DESCENDING.err(), Some(SortedError::Order(NotRising { index: 1 })));
    assert_eq!(DIGITS.unwrap().get(&tinystr!(3, "JPY")), Some(&[0]));
}

/// The message of a literal that is no text isn't a format.
#[test]
fn a_literal_may_have_braces() {
    assert_eq!(tinystr!(4, "{0}}").as_str(), "{0}}");
}
