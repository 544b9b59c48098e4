//! The calls of cargo/tinystr-proved that the original has none of, by the sources of the exports that are compared with them.

use crate::original::batch::read_texts;

/// What these sources use of the crate.
pub mod libraries {
    pub use tinystr::hashed::in_place::position;
    pub use tinystr::hashed::{HashedError, HashedMap, HashedMapError, HashedTable, HashedTextMap, HashedTextMapError};
    pub use tinystr::packed::in_place::{search, with_prefix};
    pub use tinystr::packed::{MapError, NotRising, PackedMap, SortedError, SortedTable, TextMap, TextMapError};
    pub use tinystr::subtags::{LangId, LangIdError};
    pub use tinystr::ule::UleError;
    pub use tinystr::{ParseError, TinyAsciiStr};
}

#[path = "../../crates/tinystr_exports/src/lang_ids.rt"]
mod lang_ids;
#[path = "../../crates/tinystr_exports/src/tables.rt"]
mod tables;

pub use lang_ids::lang_id_batch as lang_ids;

fn search_batch<const N: usize>(call: usize, bytes: &[u8], values: &[u8], keys: &[u8], answers: &mut [u64]) -> bool {
    tables::search_each(call, bytes, values, &read_texts::<N>(keys), answers)
}

pub fn search(capacity: usize, call: usize, bytes: &[u8], values: &[u8], keys: &[u8], answers: &mut [u64]) -> bool {
    crate::at_few_capacities!(capacity, search_batch, call, bytes, values, keys, answers)
}
