//! The empty text, and texts of literals.

use crate::ascii::TinyAsciiStr;

#[cfg(feature = "packed")]
pub(crate) mod tables;

impl<const N: usize> TinyAsciiStr<N> {
    /// The empty text.
    pub const EMPTY: Self = Self::default();
}

/// A constant text of a capacity and a `str`, which are literals or constants. One that isn't such a text doesn't compile.
///
/// ```
/// use tinystr::{TinyAsciiStr, tinystr};
///
/// const CITY: TinyAsciiStr<8> = tinystr!(8, "New York");
/// const NAME: &str = "Bern";
/// assert_eq!([CITY, tinystr!(CITY.len(), NAME)], ["New York", "Bern"]);
/// ```
///
/// ```compile_fail,E0080
/// if false {
///     let euro = tinystr::tinystr!(2, "eur");
/// }
/// ```
#[macro_export]
macro_rules! tinystr {
    ($n:literal, $s:literal) => {
        // the literal may have braces, so it is no format
        $crate::tinystr!(@ $n, $s, concat!("no text of capacity ", $n, ": ", $s))
    };
    ($n:expr, $s:expr) => {
        $crate::tinystr!(@ $n, $s, $s)
    };
    (@ $n:expr, $s:expr, $fault:expr) => {{
        const TEXT: $crate::TinyAsciiStr<{ $n }> = match $crate::TinyAsciiStr::try_from_utf8($s.as_bytes()) {
            Ok(text) => text,
            Err(_) => panic!("{}", $fault),
        };
        TEXT
    }};
}
