//! The texts of the errors, and that each is an `Error` of std. Those of `ParseError` are the original's.

use crate::error::ParseError;
use crate::forms::{BytesReadError, FormWriteError};
use crate::ule::UleError;
use core::error::Error;
use core::fmt::{Display, Formatter, Result};

#[cfg(feature = "hashed")]
mod hashed;
#[cfg(feature = "packed")]
mod packed;

impl Display for ParseError {
    fn fmt(&self, f: &mut Formatter<'_>) -> Result {
        match self {
            ParseError::TooLong { max, len } => {
                write!(f, "found string of larger length {len} when constructing string of length {max}")
            }
            ParseError::ContainsNull => f.write_str("tinystr types do not support strings with null bytes"),
            ParseError::NonAscii => f.write_str("attempted to construct TinyAsciiStr from a non-ASCII string"),
        }
    }
}

impl Error for ParseError {}

impl Display for BytesReadError {
    fn fmt(&self, f: &mut Formatter<'_>) -> Result {
        match self {
            BytesReadError::Length { expected } => write!(f, "there are fewer than {expected} bytes"),
            BytesReadError::Null => f.write_str("a byte other than NUL follows a NUL"),
            BytesReadError::NonAscii => f.write_str("a byte is above 127"),
        }
    }
}

impl Error for BytesReadError {}

impl Display for FormWriteError {
    fn fmt(&self, f: &mut Formatter<'_>) -> Result {
        match self {
            FormWriteError::NotAscii => f.write_str("the bytes aren't a text and then NULs"),
        }
    }
}

impl Error for FormWriteError {}

impl Display for UleError {
    fn fmt(&self, f: &mut Formatter<'_>) -> Result {
        match self {
            UleError::Length { len } => write!(f, "{len} bytes can't be divided into records"),
            // a record may have NULs, after its text
            UleError::Parse { index, fault: ParseError::ContainsNull } => write!(f, "record {index}: {}", BytesReadError::Null),
            UleError::Parse { index, fault } => write!(f, "record {index}: {fault}"),
        }
    }
}

impl Error for UleError {}
