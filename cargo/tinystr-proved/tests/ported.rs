//! A program for the original in the style of icu_locale_core: subtag types by a macro, calls in constants, constants as patterns.
//! On 2026-11-30 it also compiled with the original.

use std::borrow::Borrow;
use std::collections::BTreeMap;
use std::fmt;
use std::str::FromStr;
use tinystr::{ParseError, TinyAsciiStr, TinyStr8, UnvalidatedTinyAsciiStr, tinystr};

macro_rules! subtag {
    ($name:ident, $n:literal, $len:pat, $is_valid:ident, $in_case:ident) => {
        #[derive(Clone, Copy, Debug, PartialEq, Eq, PartialOrd, Ord, Hash)]
        pub struct $name(TinyAsciiStr<$n>);

        impl $name {
            pub const fn try_from_utf8(code_units: &[u8]) -> Result<Self, ParseError> {
                match TinyAsciiStr::try_from_utf8(code_units) {
                    Ok(text) => match text.len() {
                        $len if text.$is_valid() => Ok(Self(text.$in_case())),
                        _ => Err(ParseError::NonAscii),
                    },
                    Err(error) => Err(error),
                }
            }

            pub const fn try_from_raw(raw: [u8; $n]) -> Result<Self, ParseError> {
                match TinyAsciiStr::try_from_raw(raw) {
                    Ok(text) => Self::try_from_utf8(text.as_utf8()),
                    Err(error) => Err(error),
                }
            }

            pub const fn as_str(&self) -> &str {
                self.0.as_str()
            }

            pub const fn to_tinystr(self) -> TinyAsciiStr<$n> {
                self.0
            }
        }

        impl FromStr for $name {
            type Err = ParseError;

            fn from_str(code: &str) -> Result<Self, ParseError> {
                Self::try_from_utf8(code.as_bytes())
            }
        }

        impl fmt::Display for $name {
            fn fmt(&self, out: &mut fmt::Formatter<'_>) -> fmt::Result {
                out.write_str(self.as_str())
            }
        }

        impl Borrow<str> for $name {
            fn borrow(&self) -> &str {
                &self.0
            }
        }
    };
}

subtag!(Language, 3, 2..=3, is_ascii_alphabetic, to_ascii_lowercase);
subtag!(Script, 4, 4, is_ascii_alphabetic, to_ascii_titlecase);
subtag!(Region, 3, 2..=3, is_ascii_alphanumeric, to_ascii_uppercase);

const fn language(s: &str) -> Language {
    match Language::try_from_utf8(s.as_bytes()) {
        Ok(language) => language,
        Err(_) => panic!("no language"),
    }
}

const fn joined<const N: usize>(front: TinyStr8, subtag: TinyAsciiStr<N>) -> TinyStr8 {
    let front: TinyStr8 = front.concat(tinystr!(1, "-"));
    front.concat(subtag)
}

const EN: Language = language("EN");
const GB: Region = match Region::try_from_raw(*b"gb\0") {
    Ok(region) => region,
    Err(_) => panic!("no region"),
};
const TAG: TinyStr8 = joined(EN.to_tinystr().resize(), GB.to_tinystr());
const TAG_LEN: usize = TAG.len();
const LETTERS: [u8; TAG_LEN] = [b'a'; TAG_LEN];
const LOSSY: [TinyAsciiStr<4>; 2] = [TinyAsciiStr::from_utf16_lossy(&[0x61, 0x20ac], b'?'), TinyAsciiStr::from_utf8_lossy(b"a\xff", b'?')];
const WIDE: Result<TinyAsciiStr<4>, ParseError> = TinyAsciiStr::try_from_utf16(&[0x61, 0x3f]);
const AFTER_NULS: Result<TinyAsciiStr<4>, ParseError> = TinyAsciiStr::try_from_raw(*b"a\0b\0");
static NAME: &str = TAG.as_str();
static UNVALIDATED: UnvalidatedTinyAsciiStr<3> = EN.to_tinystr().to_unvalidated();

fn is_british(language: Language, region: Option<Region>) -> bool {
    matches!((language, region), (EN, Some(GB)))
}

#[test]
fn the_program_runs() {
    assert_eq!((NAME, TAG_LEN, LETTERS.len(), LOSSY.map(Ok)), ("en-GB", 5, 5, [WIDE; 2]));
    assert_eq!((AFTER_NULS, UNVALIDATED.try_into_tinystr()), (Err(ParseError::ContainsNull), Ok(EN.to_tinystr())));
    assert!(is_british("en".parse().unwrap(), "gb".parse().ok()) && !is_british(EN, None));
    assert_eq!("hant".parse::<Script>().unwrap().as_str(), "Hant");
    assert_eq!(("e1".parse::<Language>(), "english".parse::<Language>()), (Err(ParseError::NonAscii), Err(ParseError::TooLong { max: 3, len: 7 })));
    let names: BTreeMap<Language, &str> = [(EN, "English"), (language("de"), "German")].into();
    assert_eq!((names.get("en"), format!("{GB:>4}|{TAG:<7}|{:?}", EN.to_tinystr())), (Some(&"English"), "GB|en-GB  |\"en\"".into()));
}
