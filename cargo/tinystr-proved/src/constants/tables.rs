//! Tables for constants. A proved call that calls a trait or a vector is no `const fn`, and `NAME_const` gives the same as `NAME`
//! by a loop. At run time `NAME` is faster. The tests compare both.

use crate::ascii::TinyAsciiStr;
use crate::packed::{NotRising, SortedTable, Table};
use crate::ule::UleError;

#[cfg(feature = "hashed")]
pub(crate) mod hashed;

impl<'a, const N: usize> Table<'a, N> {
    /// `new` at compile time. At run time `new` is faster.
    ///
    /// # Panics
    ///
    /// Where `N` is 0.
    pub const fn new_const(bytes: &'a [u8]) -> Result<Self, UleError> {
        assert!(N > 0, "a record has at least one byte");
        let (records, rest) = bytes.as_chunks();
        if !rest.is_empty() {
            return Err(UleError::Length { len: bytes.len() });
        }
        let mut index = 0;
        while index < records.len() {
            if let Err(fault) = TinyAsciiStr::<N>::try_from_raw(records[index]) {
                return Err(UleError::Parse { index, fault });
            }
            index += 1;
        }
        Ok(Table { records })
    }
}

impl<'a, const N: usize> SortedTable<'a, N> {
    /// `new` at compile time. At run time `new` is faster.
    pub const fn new_const(table: Table<'a, N>) -> Result<Self, NotRising> {
        match first_not_above(table.records) {
            None => Ok(SortedTable { table }),
            Some(index) => Err(NotRising { index }),
        }
    }
}

const fn first_not_above<const N: usize>(records: &[[u8; N]]) -> Option<usize> {
    let mut index = 1;
    while index < records.len() {
        if !is_below(&records[index - 1], &records[index]) {
            return Some(index);
        }
        index += 1;
    }
    None
}

const fn is_below<const N: usize>(left: &[u8; N], right: &[u8; N]) -> bool {
    let mut at = 0;
    while at < N && left[at] == right[at] {
        at += 1;
    }
    at < N && left[at] < right[at]
}
