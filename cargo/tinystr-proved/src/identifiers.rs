//! Identifiers and subtags as constants, `und`, and conversions. A constant is made by a reader written by hand, since the proved
//! one is no `const fn`. The tests compare both.

use crate::ascii::TinyAsciiStr;
use crate::subtags::subtag::{Subtag, SubtagKind};
use crate::subtags::{LangId, LangIdError, Language, Region, Script};
use crate::{lang_id, language, tinystr};

impl Language {
    /// The undetermined language, `und`.
    pub const UND: Self = language!("und");

    #[doc(hidden)]
    pub const fn try_from_utf8_const(code_units: &[u8]) -> Option<Self> {
        match TinyAsciiStr::try_from_utf8(code_units) {
            Ok(text) if matches!(code_units.len(), 2 | 3 | 5..=8) && text.is_ascii_alphabetic() => {
                Some(Self::from_canonical(text.to_ascii_lowercase()))
            }
            _ => None,
        }
    }
}

impl Script {
    #[doc(hidden)]
    pub const fn try_from_utf8_const(code_units: &[u8]) -> Option<Self> {
        match TinyAsciiStr::try_from_utf8(code_units) {
            Ok(text) if code_units.len() == 4 && text.is_ascii_alphabetic() => {
                Some(Self::from_canonical(text.to_ascii_titlecase()))
            }
            _ => None,
        }
    }
}

impl Region {
    #[doc(hidden)]
    pub const fn try_from_utf8_const(code_units: &[u8]) -> Option<Self> {
        match (TinyAsciiStr::try_from_utf8(code_units), code_units.len()) {
            (Ok(text), 2) if text.is_ascii_alphabetic() => Some(Self::from_canonical(text.to_ascii_uppercase())),
            (Ok(text), 3) if text.is_ascii_numeric() => Some(Self::from_canonical(text)),
            _ => None,
        }
    }
}

impl LangId {
    /// The identifier of the undetermined language, `und`.
    pub const UND: Self = lang_id!("und");

    #[doc(hidden)]
    pub const fn try_from_utf8_const(code_units: &[u8]) -> Result<Self, LangIdError> {
        let (first, mut rest) = split(code_units);
        let Some(language) = Language::try_from_utf8_const(first) else { return Err(LangIdError::InvalidLanguage) };
        let mut text = language.to_text().resize();
        if let Some(tail) = rest {
            let (second, later) = split(tail);
            if let Some(script) = Script::try_from_utf8_const(second) {
                text = joined(text, script.to_text());
                rest = later;
            }
        }
        if let Some(tail) = rest {
            let Some(region) = Region::try_from_utf8_const(tail) else { return Err(LangIdError::InvalidSubtag) };
            text = joined(text, region.to_text());
        }
        Ok(LangId { text })
    }

    /// Reads an identifier as `try_from_utf8` does.
    pub fn try_from_str(s: &str) -> Result<Self, LangIdError> {
        s.parse()
    }
}

impl<K: SubtagKind<N>, const N: usize> Subtag<K, N> {
    /// Reads a subtag as `parse` does.
    pub fn try_from_str(s: &str) -> Result<Self, LangIdError> {
        s.parse()
    }
}

/// Reads a text as `parse` does.
impl<const M: usize> TryFrom<TinyAsciiStr<M>> for LangId {
    type Error = LangIdError;

    fn try_from(text: TinyAsciiStr<M>) -> Result<Self, LangIdError> {
        text.parse()
    }
}

/// Reads a text as `parse` does.
impl<const M: usize, K: SubtagKind<N>, const N: usize> TryFrom<TinyAsciiStr<M>> for Subtag<K, N> {
    type Error = LangIdError;

    fn try_from(text: TinyAsciiStr<M>) -> Result<Self, LangIdError> {
        text.parse()
    }
}

/// What is before the first separator, and what is after it, if there is one.
const fn split(code_units: &[u8]) -> (&[u8], Option<&[u8]>) {
    let mut at = 0;
    while at < code_units.len() {
        if matches!(code_units[at], b'-' | b'_') {
            return (code_units.split_at(at).0, Some(code_units.split_at(at + 1).1));
        }
        at += 1;
    }
    (code_units, None)
}

const fn joined<const N: usize>(front: TinyAsciiStr<17>, subtag: TinyAsciiStr<N>) -> TinyAsciiStr<17> {
    front.concat::<1, 17>(tinystr!(1, "-")).concat(subtag)
}

impl Default for Language {
    fn default() -> Self {
        Self::UND
    }
}

impl Default for LangId {
    fn default() -> Self {
        Self::UND
    }
}

#[doc(hidden)]
#[macro_export]
macro_rules! __constant {
    ($type:ident, $read:ident, $s:literal, $name:literal) => {{
        const VALUE: $crate::subtags::$type = match $crate::subtags::$type::try_from_utf8_const($s.as_bytes()) {
            $read(value) => value,
            // the literal may have braces, so it is no format
            _ => panic!("{}", concat!("no ", $name, ": ", $s)),
        };
        VALUE
    }};
}

/// A constant identifier of a literal. One that isn't an identifier doesn't compile.
///
/// ```
/// use tinystr::lang_id;
/// use tinystr::subtags::LangId;
///
/// const TAIWAN: LangId = lang_id!("ZH_hant-tw");
/// assert_eq!(TAIWAN, "zh-Hant-TW");
/// ```
///
/// ```compile_fail,E0080
/// if false {
///     let id = tinystr::lang_id!("en-Latin");
/// }
/// ```
#[macro_export]
macro_rules! lang_id {
    ($s:literal) => {
        $crate::__constant!(LangId, Ok, $s, "language identifier")
    };
}

/// A constant language of a literal. One that isn't a language doesn't compile.
///
/// ```
/// use tinystr::language;
///
/// assert_eq!(language!("EN"), "en");
/// ```
#[macro_export]
macro_rules! language {
    ($s:literal) => {
        $crate::__constant!(Language, Some, $s, "language")
    };
}

/// A constant script of a literal. One that isn't a script doesn't compile.
///
/// ```
/// use tinystr::script;
///
/// assert_eq!(script!("latn"), "Latn");
/// ```
#[macro_export]
macro_rules! script {
    ($s:literal) => {
        $crate::__constant!(Script, Some, $s, "script")
    };
}

/// A constant region of a literal. One that isn't a region doesn't compile.
///
/// ```
/// use tinystr::region;
///
/// assert_eq!(region!("gb"), "GB");
/// ```
#[macro_export]
macro_rules! region {
    ($s:literal) => {
        $crate::__constant!(Region, Some, $s, "region")
    };
}
