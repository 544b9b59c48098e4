//! An identifier is a string in each format, as in icu_locale_core, and a subtag is as a text.

use super::*;
use crate::subtags::subtag::{Subtag, SubtagKind};
use crate::subtags::{LangId, LangIdError};
use core::marker::PhantomData;
use core::str::FromStr;

impl Serialize for LangId {
    fn serialize<S: Serializer>(&self, serializer: S) -> Result<S::Ok, S::Error> {
        serializer.serialize_str(self.as_str())
    }
}

impl<'de> Deserialize<'de> for LangId {
    fn deserialize<D: Deserializer<'de>>(deserializer: D) -> Result<Self, D::Error> {
        deserializer.deserialize_str(ParsedVisitor("a language identifier", PhantomData))
    }
}

impl<K: SubtagKind<N>, const N: usize> Serialize for Subtag<K, N> {
    fn serialize<S: Serializer>(&self, serializer: S) -> Result<S::Ok, S::Error> {
        self.to_text().serialize(serializer)
    }
}

/// In any case where the format is human-readable, and else only in the canonical one.
impl<'de, K: SubtagKind<N>, const N: usize> Deserialize<'de> for Subtag<K, N> {
    fn deserialize<D: Deserializer<'de>>(deserializer: D) -> Result<Self, D::Error> {
        let is_for_people = deserializer.is_human_readable();
        if is_for_people {
            return deserializer.deserialize_str(ParsedVisitor("a subtag", PhantomData));
        }
        let text = TinyAsciiStr::deserialize(deserializer)?;
        let read = Self::try_from_utf8(text.as_utf8()).filter(|subtag| subtag.to_text() == text);
        read.ok_or_else(|| D::Error::custom(K::refusal()))
    }
}

/// Parses a string, and says what was expected in the place of anything else.
struct ParsedVisitor<T>(&'static str, PhantomData<T>);

impl<T: FromStr<Err = LangIdError>> Visitor<'_> for ParsedVisitor<T> {
    type Value = T;

    fn expecting(&self, f: &mut fmt::Formatter) -> fmt::Result {
        f.write_str(self.0)
    }

    fn visit_str<E: Error>(self, s: &str) -> Result<T, E> {
        s.parse().map_err(E::custom)
    }
}
