//! A library that depends on a crate `tinystr`: nine calls at thirteen capacities, or with feature `few` three calls at one. It has
//! no std, so that all that is linked is in it.
#![no_std]

use core::cmp::Ordering;
use tinystr::{ParseError, TinyAsciiStr};

#[panic_handler]
fn panic(_: &core::panic::PanicInfo) -> ! {
    loop {}
}

type Reader<const N: usize> = fn(&[u8]) -> Result<TinyAsciiStr<N>, ParseError>;
type Change<const N: usize> = fn(&TinyAsciiStr<N>) -> TinyAsciiStr<N>;

/// One reader, one question and one change of case.
pub struct Few<const N: usize> {
    read: Reader<N>,
    is_alphanumeric: fn(&TinyAsciiStr<N>) -> bool,
    to_lowercase: Change<N>,
}

pub struct Calls<const N: usize> {
    few: Few<N>,
    read_utf16: fn(&[u16]) -> Result<TinyAsciiStr<N>, ParseError>,
    read_lossy: fn(&[u8]) -> TinyAsciiStr<N>,
    view: fn(&TinyAsciiStr<N>) -> &str,
    is_equal: fn(&TinyAsciiStr<N>, &TinyAsciiStr<N>) -> bool,
    compare: fn(&TinyAsciiStr<N>, &TinyAsciiStr<N>) -> Ordering,
    concat: fn(TinyAsciiStr<N>, TinyAsciiStr<8>) -> TinyAsciiStr<16>,
}

const fn few<const N: usize>() -> Few<N> {
    Few {
        read: |code_units| TinyAsciiStr::try_from_utf8(code_units),
        is_alphanumeric: |text| text.is_ascii_alphanumeric(),
        to_lowercase: |text| text.to_ascii_lowercase(),
    }
}

const fn calls<const N: usize>() -> Calls<N> {
    Calls {
        few: few(),
        read_utf16: |code_units| TinyAsciiStr::try_from_utf16(code_units),
        read_lossy: |code_units| TinyAsciiStr::from_utf8_lossy(code_units, b'?'),
        view: |text| text.as_str(),
        is_equal: |left, right| left == right,
        compare: |left, right| left.cmp(right),
        concat: |text, other| text.concat(other),
    }
}

macro_rules! at {
    ($($n:literal)*) => {
        #[cfg(not(feature = "few"))]
        #[unsafe(no_mangle)]
        pub static CALLS: ($(Calls<$n>,)*) = ($(calls::<$n>(),)*);
    };
}
at!(1 2 3 4 5 6 7 8 12 16 24 32 64);

#[cfg(feature = "few")]
#[unsafe(no_mangle)]
pub static CALLS: Few<8> = few();
