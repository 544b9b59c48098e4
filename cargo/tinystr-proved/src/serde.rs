//! Feature `serde`: a text where the format is human-readable, and else its `N` bytes, read by the proved readers.

use crate::ascii::TinyAsciiStr;
use crate::forms::BytesReadError;
use crate::unvalidated::UnvalidatedTinyAsciiStr;
use core::fmt;
use serde::de::{Deserialize, Deserializer, Error, SeqAccess, Visitor};
use serde::ser::{Error as _, Serialize, SerializeTuple, Serializer};

#[cfg(feature = "identifiers")]
mod identifiers;

impl<const N: usize> Serialize for TinyAsciiStr<N> {
    fn serialize<S: Serializer>(&self, serializer: S) -> Result<S::Ok, S::Error> {
        let is_for_people = serializer.is_human_readable();
        if is_for_people {
            return serializer.serialize_str(self.as_str());
        }
        let mut tuple = serializer.serialize_tuple(N)?;
        for byte in self.all_bytes() {
            tuple.serialize_element(byte)?;
        }
        tuple.end()
    }
}

impl<'de, const N: usize> Deserialize<'de> for TinyAsciiStr<N> {
    fn deserialize<D: Deserializer<'de>>(deserializer: D) -> Result<Self, D::Error> {
        let is_for_people = deserializer.is_human_readable();
        if is_for_people {
            return deserializer.deserialize_str(TextVisitor);
        }
        let (bytes, count) = deserializer.deserialize_tuple(N, BytesVisitor::<N>)?;
        match TinyAsciiStr::read_bytes(&bytes[..count]) {
            Ok((text, _)) => Ok(text),
            Err(fault) => Err(refusal::<N, D::Error>(fault)),
        }
    }
}

/// Only bytes that are a text and then NULs are written.
impl<const N: usize> Serialize for UnvalidatedTinyAsciiStr<N> {
    fn serialize<S: Serializer>(&self, serializer: S) -> Result<S::Ok, S::Error> {
        match self.try_into_tinystr() {
            Ok(text) => text.serialize(serializer),
            Err(_) => Err(S::Error::custom("invalid ascii in UnvalidatedTinyAsciiStr")),
        }
    }
}

/// A text where the format is human-readable, and else any `N` bytes.
impl<'de, const N: usize> Deserialize<'de> for UnvalidatedTinyAsciiStr<N> {
    fn deserialize<D: Deserializer<'de>>(deserializer: D) -> Result<Self, D::Error> {
        let is_for_people = deserializer.is_human_readable();
        if is_for_people {
            return Ok(TinyAsciiStr::deserialize(deserializer)?.to_unvalidated());
        }
        let (bytes, count) = deserializer.deserialize_tuple(N, BytesVisitor::<N>)?;
        match UnvalidatedTinyAsciiStr::read_bytes(&bytes[..count]) {
            Ok((bytes, _)) => Ok(bytes),
            Err(fault) => Err(refusal::<N, D::Error>(fault)),
        }
    }
}

// The original's words for the first fault of bytes.
fn refusal<const N: usize, E: Error>(fault: BytesReadError) -> E {
    match fault {
        BytesReadError::Length { expected } => E::invalid_length(expected, &BytesVisitor::<N>),
        BytesReadError::Null => E::custom("TinyAsciiStr cannot contain null bytes"),
        BytesReadError::NonAscii => E::custom("TinyAsciiStr cannot contain non-ascii bytes"),
    }
}

struct TextVisitor<const N: usize>;

impl<const N: usize> Visitor<'_> for TextVisitor<N> {
    type Value = TinyAsciiStr<N>;

    fn expecting(&self, f: &mut fmt::Formatter) -> fmt::Result {
        write!(f, "a TinyAsciiStr<{N}>")
    }

    fn visit_str<E: Error>(self, s: &str) -> Result<TinyAsciiStr<N>, E> {
        TinyAsciiStr::try_from_str(s).map_err(|_| E::custom("invalid str"))
    }
}

/// Takes at most `N` bytes, and returns their number.
struct BytesVisitor<const N: usize>;

impl<'de, const N: usize> Visitor<'de> for BytesVisitor<N> {
    type Value = ([u8; N], usize);

    fn expecting(&self, f: &mut fmt::Formatter) -> fmt::Result {
        write!(f, "a TinyAsciiStr<{N}>")
    }

    fn visit_seq<A: SeqAccess<'de>>(self, mut elements: A) -> Result<([u8; N], usize), A::Error> {
        let mut bytes = [0; N];
        for (index, byte) in bytes.iter_mut().enumerate() {
            match elements.next_element()? {
                Some(element) => *byte = element,
                None => return Ok((bytes, index)),
            }
        }
        Ok((bytes, N))
    }
}
