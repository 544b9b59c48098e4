//! Equality with strings, conversions and the texts of errors, which are written by hand.
#![cfg(all(feature = "alloc", feature = "identifiers", feature = "hashed"))]

use std::collections::BTreeMap;
use std::error::Error;
use tinystr::hashed::{HashedMap, HashedTable, HashedTextMap, PackIntoError, pack_hashed};
use tinystr::packed::{PackedMap, SortedTable, Table, TextMap};
use tinystr::subtags::{LangId, LangIdError, Language, Region};
use tinystr::{ParseError, TinyAsciiStr, UnvalidatedTinyAsciiStr, tinystr};

const EURO: TinyAsciiStr<3> = tinystr!(3, "EUR");

#[test]
fn a_value_equals_strings_and_lends_one() {
    for (s, is_same) in [("EUR", true), ("EU", false), ("EURO", false), ("EUS", false), ("eur", false), ("", false)] {
        let word = String::from(s);
        assert_eq!([EURO == s, EURO == *s, EURO == word], [is_same; 3], "{s}");
        assert_eq!([s == EURO, *s == EURO, word == EURO], [is_same; 3], "{s}");
    }
    let (id, language) = ("EN_gb".parse::<LangId>().unwrap(), "EN".parse::<Language>().unwrap());
    assert_eq!([id == "en-GB", id == "en", language == "en", language == "EN"], [true, false, true, false]);
    assert_eq!((AsRef::<str>::as_ref(&id), AsRef::<str>::as_ref(&language)), ("en-GB", "en"));
    assert_eq!(BTreeMap::from([(EURO, 2)]).get("EUR"), Some(&2));
}

#[test]
fn arrays_texts_and_strings_are_converted() {
    assert_eq!((TinyAsciiStr::try_from(b"EUR"), TinyAsciiStr::<4>::try_from(&[]).unwrap()), (Ok(EURO), TinyAsciiStr::EMPTY));
    assert_eq!(TinyAsciiStr::<2>::try_from(b"EUR"), Err(ParseError::TooLong { max: 2, len: 3 }));
    assert_eq!(TinyAsciiStr::<4>::try_from(b"a\0b\x80"), Err(ParseError::ContainsNull));
    let (id, region) = (LangId::try_from(tinystr!(8, "ZH_tw")).unwrap(), Region::try_from(tinystr!(4, "tw")).unwrap());
    assert_eq!([String::from(EURO), id.into(), region.into()], ["EUR", "zh-TW", "TW"]);
    assert_eq!(Language::try_from(tinystr!(4, "latn")), Err(LangIdError::InvalidLanguage));
    assert_eq!(LangId::try_from(tinystr!(8, "zh-latin")), Err(LangIdError::InvalidSubtag));
}

#[cfg(feature = "std")]
#[test]
fn each_as_ref_is_that_of_str() {
    let (text, bytes): (&str, &[u8]) = (EURO.as_ref(), EURO.as_ref());
    let (word, path): (&std::ffi::OsStr, &std::path::Path) = (EURO.as_ref(), EURO.as_ref());
    assert_eq!((text, bytes, word.to_str(), path.to_str()), ("EUR", b"EUR".as_slice(), Some("EUR"), Some("EUR")));
}

/// What the error of a call says.
fn fault<T>(result: Result<T, impl Error>) -> String {
    result.err().unwrap().to_string()
}

#[test]
fn each_error_says_what_is_wrong() {
    type Text<const N: usize> = TinyAsciiStr<N>;
    assert_eq!(fault("euros".parse::<Text<3>>()), "found string of larger length 5 when constructing string of length 3");
    assert_eq!(fault(Text::<3>::try_from_utf8(b"\0")), "tinystr types do not support strings with null bytes");
    assert_eq!(fault("né".parse::<Text<3>>()), "attempted to construct TinyAsciiStr from a non-ASCII string");
    assert_eq!(fault(Text::<4>::read_bytes(b"EUR")), "there are fewer than 4 bytes");
    assert_eq!(fault(Text::<4>::read_bytes(b"G\0B\0")), "a byte other than NUL follows a NUL");
    assert_eq!(fault(Text::<4>::read_bytes(b"caf\xe9")), "a byte is above 127");
    let unvalidated = UnvalidatedTinyAsciiStr::from_utf8_unchecked(*b"\0GB");
    assert_eq!(fault(unvalidated.to_bytes()), "the bytes aren't a text and then NULs");
    assert_eq!(fault(Table::<3>::new(b"EURJP\xff")), "record 1: attempted to construct TinyAsciiStr from a non-ASCII string");
    assert_eq!(fault(Table::<3>::new(b"EU\0E\0U")), "record 1: a byte other than NUL follows a NUL");
    assert_eq!(fault(SortedTable::<3>::from_bytes(b"EURJP")), "5 bytes can't be divided into records");
    assert_eq!(fault(PackedMap::<3, 1>::new(b"EU", &[2])), "keys: 2 bytes can't be divided into records");
    assert_eq!(fault(PackedMap::<3, 1>::new(b"JPYEUR", &[0, 2])), "keys: record 1 isn't above the one before it");
    assert_eq!(fault(PackedMap::<3, 1>::new(b"EURJPY", &[2])), "1 bytes aren't a value for each of 2 keys");
    assert_eq!(fault(TextMap::<2, 3>::new(b"JPCH", b"JPYCHF")), "keys: record 1 isn't above the one before it");
    assert_eq!(fault(TextMap::<2, 3>::new(b"CHJP", b"CHFJP")), "values: 5 bytes can't be divided into records");
    assert_eq!(fault(TextMap::<2, 3>::new(b"CHJP", b"CHF")), "there are 1 values for 2 keys");
}

#[test]
fn each_error_of_a_hashed_table_says_what_is_wrong() {
    let header = |pilots: u8| [1, 0, 0, 0, pilots, 0, 0, 0, 0, 0, 0, 0, 0, 0, 0, 0];
    let [sorted, unsorted, one] = ["EURJPY", "JPYEUR", "EUR"].map(|records| [&header(0), records.as_bytes()].concat());
    assert_eq!(fault(HashedTable::<3>::from_bytes(b"EUR")), "3 bytes are fewer than the sixteen of a header");
    assert_eq!(fault(HashedTable::<3>::from_bytes(&[2, 0, 0, 0].repeat(4))), "the version is 2, and not 1");
    let fewer = "1 bytes after the header are fewer than the 2 of pilots and moves";
    assert_eq!(fault(HashedTable::<3>::from_bytes(&[&header(2), b"E".as_slice()].concat())), fewer);
    assert_eq!(fault(HashedTable::<3>::from_bytes(&sorted[..21])), "5 bytes can't be divided into records");
    assert_eq!(fault(HashedTable::<3>::from_bytes(&unsorted)), "record 1 is out of order");
    assert_eq!(fault(HashedMap::<3, 1>::new(b"EUR", &[2])), "keys: 3 bytes are fewer than the sixteen of a header");
    assert_eq!(fault(HashedMap::<3, 1>::new(&one, &[2, 0])), "2 bytes aren't a value for each of 1 keys");
    assert_eq!(fault(HashedTextMap::<3, 2>::new(b"EUR", b"EU")), "keys: 3 bytes are fewer than the sixteen of a header");
    assert_eq!(fault(HashedTextMap::<3, 2>::new(&one, b"E")), "values: 1 bytes can't be divided into records");
    assert_eq!(fault(HashedTextMap::<3, 2>::new(&one, b"EUUS")), "there are 2 values for 1 keys");
    assert_eq!(fault(pack_hashed(&[EURO, EURO])), "a text occurs twice: EUR");
    let texts = [PackIntoError::Out, PackIntoError::Scratch, PackIntoError::Duplicate { index: 2 }].map(|fault| fault.to_string());
    assert_eq!(texts, ["there is too little room for the table", "there is too little scratch", "text 2 is equal to one before it"]);
}
