//! The crate `tinystr-proved` under the name of ICU4X's `tinystr`, for dependencies that ask for that.
#![no_std]

#[doc(inline)]
pub use proved::*;
