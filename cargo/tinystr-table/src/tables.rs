//! Tables of codes, at the capacities that the command serves.

use crate::Result;
use tinystr::TinyAsciiStr;
use tinystr::hashed::HashedTable;
use tinystr::packed::{SortedTable, Table};

#[derive(Clone, Copy)]
pub enum Kind {
    Sorted,
    Hashed,
}

/// A capacity that the command serves.
pub fn capacity(written: &str) -> Option<usize> {
    written.parse().ok().filter(|n| matches!(n, 1..=16 | 32))
}

/// Calls a function with such a capacity as its const parameter. The binary has the code of each capacity.
macro_rules! at_capacity {
    ($n:expr, $function:ident $given:tt, $($capacity:literal)*) => {
        match $n {
            $($capacity => $function::<$capacity> $given,)*
            _ => unreachable!("arguments are read by `capacity`"),
        }
    };
    ($n:expr, $function:ident $given:tt) => {
        $crate::tables::at_capacity!($n, $function $given, 1 2 3 4 5 6 7 8 9 10 11 12 13 14 15 16 32)
    };
}
pub(crate) use at_capacity;

/// A table whose bytes were checked.
pub enum Checked<'a, const N: usize> {
    Sorted(SortedTable<'a, N>),
    Hashed(HashedTable<'a, N>),
}

impl<'a, const N: usize> Checked<'a, N> {
    pub fn of(kind: Kind, bytes: &'a [u8]) -> Result<Self> {
        Ok(match kind {
            Kind::Sorted => Checked::Sorted(SortedTable::from_bytes(bytes)?),
            Kind::Hashed => Checked::Hashed(HashedTable::from_bytes(bytes)?),
        })
    }

    pub fn table(&self) -> &Table<'a, N> {
        match self {
            Checked::Sorted(it) => it.table(),
            Checked::Hashed(it) => it.table(),
        }
    }

    pub fn position(&self, code: &TinyAsciiStr<N>) -> Option<usize> {
        match self {
            Checked::Sorted(it) => it.binary_search(code).ok(),
            Checked::Hashed(it) => it.position(code),
        }
    }
}
