//! The bytes of a text in a type that knows that each is below 128. So `Option` of a text is as large as the text, and a
//! constant is a pattern.

use crate::ascii::TinyAsciiStr;
use core::hint::assert_unchecked;
use core::marker::PhantomData;

/// A byte below 128. Texts are made of arrays of bytes, so no variant is named elsewhere.
#[allow(dead_code)]
#[derive(Clone, Copy, PartialEq, Eq)]
#[repr(u8)]
#[rustfmt::skip]
enum AsciiByte {
    X00, X01, X02, X03, X04, X05, X06, X07, X08, X09, X0A, X0B, X0C, X0D, X0E, X0F,
    X10, X11, X12, X13, X14, X15, X16, X17, X18, X19, X1A, X1B, X1C, X1D, X1E, X1F,
    X20, X21, X22, X23, X24, X25, X26, X27, X28, X29, X2A, X2B, X2C, X2D, X2E, X2F,
    X30, X31, X32, X33, X34, X35, X36, X37, X38, X39, X3A, X3B, X3C, X3D, X3E, X3F,
    X40, X41, X42, X43, X44, X45, X46, X47, X48, X49, X4A, X4B, X4C, X4D, X4E, X4F,
    X50, X51, X52, X53, X54, X55, X56, X57, X58, X59, X5A, X5B, X5C, X5D, X5E, X5F,
    X60, X61, X62, X63, X64, X65, X66, X67, X68, X69, X6A, X6B, X6C, X6D, X6E, X6F,
    X70, X71, X72, X73, X74, X75, X76, X77, X78, X79, X7A, X7B, X7C, X7D, X7E, X7F,
}

/// `N` bytes below 128.
///
/// A constant is a pattern if each type in it derives `PartialEq`. This derive marks each `AsciiBytes<N, E>` as such a type,
/// and gives it an `==` where `E` has one. That `==` compares byte by byte. `Proved` has none, and `AsciiBytes<N>` has the
/// proved `==` of `ascii/order.rs`, which returns the same and compares words or vectors of bytes.
#[derive(Clone, Copy, PartialEq)]
#[repr(transparent)]
pub(crate) struct AsciiBytes<const N: usize, E = Proved>([AsciiByte; N], PhantomData<E>);

#[derive(Clone, Copy)]
pub(crate) struct Proved;

impl<const N: usize> AsciiBytes<N> {
    /// # Safety
    ///
    /// Each byte has to be below 128.
    #[cfg_attr(not(debug_assertions), inline(always))]
    pub(crate) const unsafe fn new(bytes: [u8; N]) -> Self {
        // SAFETY: both types are `N` bytes, and each below 128 is a variant.
        unsafe { *(&raw const bytes).cast::<Self>() }
    }

    #[cfg_attr(not(debug_assertions), inline(always))]
    pub(crate) const fn as_array(&self) -> &[u8; N] {
        // SAFETY: both types are `N` bytes, and each variant is one.
        unsafe { &*(&raw const *self).cast::<[u8; N]>() }
    }

    /// Whether bytes are a text and then NULs, for the assertion of debug builds.
    pub(crate) const fn are_padded(bytes: &[u8; N]) -> bool {
        let mut at = 0;
        while at < N {
            let is_after_nul = at > 0 && bytes[at - 1] == 0;
            if bytes[at] > 127 || is_after_nul && bytes[at] != 0 {
                return false;
            }
            at += 1;
        }
        true
    }
}

impl<const N: usize> TinyAsciiStr<N> {
    /// The text, on its way into an `Option` or a `Result`, where a first byte above 127 is `None` or an error. By the hint that
    /// this text has no such byte the compiler leaves out a test. Where the text is in a vector, the hint costs more than the
    /// test, so few functions give it.
    #[cfg_attr(not(debug_assertions), inline(always))]
    pub(crate) const fn hinted(self) -> Self {
        let bytes = self.all_bytes();
        // SAFETY: each byte of a text is below 128.
        unsafe { assert_unchecked(N == 0 || bytes[0] < 128) };
        self
    }

    /// The same where the `Result` with a `ParseError` is as large as the text. Else it has a word of its own that says which
    /// it is.
    #[cfg_attr(not(debug_assertions), inline(always))]
    pub(crate) const fn hinted_in_result(self) -> Self {
        if size_of::<Result<Self, crate::error::ParseError>>() == N { self.hinted() } else { self }
    }
}
