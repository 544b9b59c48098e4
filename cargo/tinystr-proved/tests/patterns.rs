//! Sizes of optional texts, constants of texts as patterns, and that a pattern fits where `==` is true.
#![cfg(feature = "packed")]

use tinystr::packed::{Table, in_place};
use tinystr::{TinyAsciiStr, tinystr};

macro_rules! sizes {
    ($($n:literal)*) => {$(
        assert_eq!((size_of::<TinyAsciiStr<$n>>(), align_of::<TinyAsciiStr<$n>>()), ($n, 1));
        assert_eq!(size_of::<Option<TinyAsciiStr<$n>>>(), $n, "of capacity {}", $n);
        assert_eq!(size_of::<Result<Option<Option<TinyAsciiStr<$n>>>, ()>>(), $n, "three times of capacity {}", $n);
    )*};
}

#[test]
fn an_optional_text_is_as_large_as_the_text() {
    sizes!(1 2 3 4 5 6 7 8 9 10 11 12 13 14 15 16 24 32);
    assert_eq!((size_of::<TinyAsciiStr<0>>(), size_of::<Option<TinyAsciiStr<0>>>()), (0, 1));
}

const EUR: TinyAsciiStr<3> = tinystr!(3, "EUR");
const USD: TinyAsciiStr<3> = tinystr!(3, "USD");
const NOTHING: TinyAsciiStr<0> = TinyAsciiStr::EMPTY;

fn decimals(code: TinyAsciiStr<3>) -> Option<u8> {
    match code {
        EUR | USD => Some(2),
        TinyAsciiStr::<3>::EMPTY => Some(9),
        _ => None,
    }
}

#[test]
fn constants_are_patterns_of_a_match() {
    let of = |text: &str| decimals(text.parse().unwrap());
    assert_eq!([of("EUR"), of("USD"), of("")], [Some(2), Some(2), Some(9)]);
    assert_eq!([of("EUS"), of("USR"), of("eur"), of("E"), of("UEU")], [None; 5]);
    assert!(matches!(TinyAsciiStr::<0>::EMPTY, NOTHING));
}

/// A pattern fits exactly where `==` is true: at a text itself, with another byte at each place, and cut at each.
macro_rules! patterns {
    ($($n:literal $text:literal)*) => {$({
        const TEXT: TinyAsciiStr<$n> = tinystr!($n, $text);
        let mut others = vec![TEXT];
        for at in 0..$text.len() {
            others.push(TEXT.take(at));
            let mut bytes = TEXT.to_bytes();
            for byte in 1..=127 {
                bytes[at] = byte;
                others.push(TinyAsciiStr::try_from_raw(bytes).unwrap());
            }
        }
        for other in &others {
            let is_same = other.all_bytes() == TEXT.all_bytes();
            assert_eq!((matches!(*other, TEXT), *other == TEXT, TEXT == *other), (is_same, is_same, is_same), "{other:?}");
        }
        assert_eq!(others.iter().filter(|it| matches!(**it, TEXT)).count(), 1 + $text.len());
    })*};
}

#[test]
fn a_pattern_fits_where_the_texts_are_equal() {
    patterns! {
        1 "a" 2 "de" 3 "deu" 4 "Latn" 5 "en-GB" 7 "winters" 8 "calendar" 9 "Shavian-x" 12 "zh-Hant-TW" 15 "America/Caracas"
        16 "America/New_York" 17 "America/Sao_Paulo" 24 "America/Argentina/Salta" 31 "America/Argentina/Buenos_Aires1"
        32 "America/Argentina/ComodRivadavia" 33 "America/North_Dakota/New_Salem-xy" 64 "a text of more bytes than two vectors have, of which all differ"
    }
}

/// What is made of records is a text: its bytes are read back, also where a part of it is made.
#[test]
fn texts_of_tables_are_patterns() {
    let table = Table::<3>::new(b"CHFEURUSD").unwrap();
    let found: Vec<_> = table.iter().map(|code| matches!(code, EUR | USD)).collect();
    assert_eq!(found, [false, true, true]);
    assert!(matches!(table.get(1), Some(EUR)) && table.get(3).is_none());
    assert_eq!(in_place::search(b"CHFEURUSD", &EUR), Ok(1));
    assert_eq!(Table::<1>::new(b"\x7f").unwrap().get(0), Some(tinystr!(1, "\x7f")));
}
