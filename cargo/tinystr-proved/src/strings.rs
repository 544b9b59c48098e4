//! A value in the place of a `str`: each call here is one of the proved `as_str`. And what its parts are to Rust's users, and a text
//! of an array of bytes.

use crate::ascii::{Parts, TinyAsciiStr};
use crate::error::ParseError;
#[cfg(feature = "identifiers")]
use crate::subtags::LangId;
#[cfg(feature = "identifiers")]
use crate::subtags::subtag::{Subtag, SubtagKind};
#[cfg(feature = "alloc")]
use alloc::string::String;
use core::borrow::Borrow;
use core::fmt::{self, Debug, Formatter};
use core::hash::{Hash, Hasher};
use core::iter::FusedIterator;
use core::ops::Deref;

impl<const N: usize> Deref for TinyAsciiStr<N> {
    type Target = str;

    #[inline]
    fn deref(&self) -> &str {
        self.as_str()
    }
}

/// Reads a literal such as `b"EUR"`, which is no slice, as `try_from_utf8` does.
impl<const N: usize, const K: usize> TryFrom<&[u8; K]> for TinyAsciiStr<N> {
    type Error = ParseError;

    #[inline]
    fn try_from(code_units: &[u8; K]) -> Result<Self, ParseError> {
        Self::try_from_utf8(code_units)
    }
}

/// A `HashMap` or a `BTreeMap` with texts as keys finds one by a `str`.
impl<const N: usize> Borrow<str> for TinyAsciiStr<N> {
    #[inline]
    fn borrow(&self) -> &str {
        self.as_str()
    }
}

/// The hash of the `str`, which `Borrow<str>` promises.
impl<const N: usize> Hash for TinyAsciiStr<N> {
    #[inline]
    fn hash<H: Hasher>(&self, state: &mut H) {
        self.as_str().hash(state);
    }
}

// Equality with strings, both ways, and the `String`.
macro_rules! with_strings {
    ($([$($generics:tt)*] $type:ty;)*) => {$(
        with_strings!(equal [$($generics)*] $type, str);
        with_strings!(equal [$($generics)*] $type, &str);
        #[cfg(feature = "alloc")]
        with_strings!(equal [$($generics)*] $type, String);

        #[cfg(feature = "alloc")]
        impl<$($generics)*> From<$type> for String {
            #[inline]
            fn from(value: $type) -> Self {
                value.as_str().into()
            }
        }
    )*};
    (equal [$($generics:tt)*] $type:ty, $string:ty) => {
        impl<$($generics)*> PartialEq<$string> for $type {
            #[inline]
            fn eq(&self, other: &$string) -> bool {
                let text: &str = other;
                self.as_str() == text
            }
        }

        impl<$($generics)*> PartialEq<$type> for $string {
            #[inline]
            fn eq(&self, other: &$type) -> bool {
                let text: &str = self;
                text == other.as_str()
            }
        }
    };
}

with_strings! {
    [const N: usize] TinyAsciiStr<N>;
}

#[cfg(feature = "identifiers")]
with_strings! {
    [] LangId;
    [K: SubtagKind<N>, const N: usize] Subtag<K, N>;
}

// Each `AsRef` of `str` or none: where some are missing, `text.as_ref()` no longer finds those of `str` by `Deref`.
#[cfg(feature = "std")]
macro_rules! as_ref_like_str {
    ($($type:ty),*) => {$(
        impl<const N: usize> AsRef<$type> for TinyAsciiStr<N> {
            #[inline]
            fn as_ref(&self) -> &$type {
                self.as_str().as_ref()
            }
        }
    )*};
}

#[cfg(feature = "std")]
as_ref_like_str! { str, [u8], std::ffi::OsStr, std::path::Path }

#[cfg(feature = "identifiers")]
impl AsRef<str> for LangId {
    #[inline]
    fn as_ref(&self) -> &str {
        self.as_str()
    }
}

#[cfg(feature = "identifiers")]
impl<K: SubtagKind<N>, const N: usize> AsRef<str> for Subtag<K, N> {
    #[inline]
    fn as_ref(&self) -> &str {
        self.as_str()
    }
}

/// A list of the parts that are left.
impl<const N: usize> Debug for Parts<'_, N> {
    fn fmt(&self, f: &mut Formatter<'_>) -> fmt::Result {
        f.debug_list().entries(self.clone()).finish()
    }
}

// After the last one it gives `None` again.
impl<const N: usize> FusedIterator for Parts<'_, N> {}
