//! Short ASCII strings, stored inline. A [`TinyAsciiStr<N>`] is a text of at most `N` bytes, each from 1 to 127, in `N` bytes: a
//! `Copy` value that is compared, ordered and hashed without a pointer.
//!
//! The crate is an independent reimplementation of ICU4X's `tinystr` 0.8.5, generated from sources in which each function is proved
//! to meet its contract. It is `no_std`, and tested on the targets that the README lists.
//!
//! ```
//! use tinystr::{TinyAsciiStr, tinystr};
//!
//! const EURO: TinyAsciiStr<3> = tinystr!(3, "EUR");
//! let read: TinyAsciiStr<3> = "eur".parse()?;
//! assert!(read.is_ascii_alphabetic());
//! assert_eq!(read.to_ascii_uppercase(), EURO);
//! assert_eq!(EURO, "EUR");
//! assert_eq!(EURO.find('R'), Some(2)); // a call of `str`
//! # Ok::<(), tinystr::ParseError>(())
//! ```
//!
//! Three modules are new. [`subtags`] has language identifiers in canonical form, also as constants, by [`lang_id!`]. [`packed`]
//! has sorted tables and maps of texts, and [`hashed`] those that look a key up in one record. Tables and maps are read in place,
//! after one check of their bytes.
//!
//! # Differences from `tinystr` 0.8
//!
//! Names, arguments and results are the same, but for these, which the README has in full:
//!
//! - At capacity 0 `is_empty` returns true, where the original panics, and `new_unsigned_decimal(0)` returns an error.
//! - Class predicates on letters in a case return true for the empty text at every capacity.
//! - A text hashes as its `str`, so that `map.get("EUR")` of a `HashMap` finds it.
//! - There is no feature `zerovec` or `databake`.
//!
//! # Features
//!
//! | feature | what it adds |
//! |---|---|
//! | `alloc`, on by default | packing tables and maps, `count_texts`, and equality with `String` |
//! | `identifiers`, on by default | [`subtags`] |
//! | `packed`, on by default | [`packed`] |
//! | `hashed`, on by default | [`hashed`], and `packed` |
//! | `std` | `AsRef` for `TinyAsciiStr` |
//! | `serde` | `Serialize` and `Deserialize` |
//!
//! # Contracts
//!
//! The documentation of a proved function ends with its contract: what the source returns for each input. [`definitions`] explains
//! the notation. That this crate does what its sources do is tested, and so is what is written by hand, such as macros and serde.
#![cfg_attr(not(test), no_std)]
#![deny(unsafe_op_in_unsafe_fn)]

#[cfg(feature = "alloc")]
extern crate alloc;
#[cfg(feature = "std")]
extern crate std;

mod ascii_bytes;
mod constants;
#[doc = include_str!("../DEFINITIONS.md")]
#[cfg(doc)]
pub mod definitions {}
#[doc = include_str!("../README.md")]
#[cfg(all(doctest, feature = "identifiers", feature = "hashed"))]
mod examples_of_readme {}
mod errors;
#[cfg(feature = "identifiers")]
mod identifiers;
mod in_words;
#[cfg(feature = "identifiers")]
mod sealed;
#[cfg(feature = "serde")]
mod serde;
mod simd;
mod strings;
#[cfg(feature = "packed")]
mod traits;

// `src/proved/` has the modules that `cargo/erase` generates from proved sources. They are included, so `proved` is in no path.
include!("proved/lib.rs");
