//! What Rust's users expect of tables, maps and their iterators, each by a proved call: they are printed as lists and maps of
//! what they hold, run through by a value or a reference, and say how much is left. And of subtags: they are copied, compared and
//! hashed as their texts.

#[cfg(feature = "hashed")]
use crate::hashed::{self, HashedError, HashedMap, HashedTable, HashedTextMap};
use crate::packed::{BinarySearchEach, Entries, GetEach, PackedMap, SortedError, SortedTable, Table, TextEntries, TextMap, Texts};
use crate::ule::UleError;
use core::fmt::{self, Debug, Formatter};

// Lists of the values that an expression gives of each of these types, and maps of the entries.
macro_rules! printed {
    ($call:ident: $([$($generics:tt)*] $type:ty, |$it:ident| $values:expr;)*) => {$(
        impl<$($generics)*> Debug for $type {
            fn fmt(&self, f: &mut Formatter<'_>) -> fmt::Result {
                let $it = self;
                f.$call().entries($values).finish()
            }
        }
    )*};
}

printed! {
    debug_list:
    [const N: usize] Table<'_, N>, |it| it.iter();
    [const N: usize] SortedTable<'_, N>, |it| it.iter();
    [const N: usize] Texts<'_, N>, |it| it.clone();
}

#[cfg(feature = "hashed")]
printed! {
    debug_list:
    [const N: usize] HashedTable<'_, N>, |it| it.iter();
}

printed! {
    debug_map:
    [const N: usize, const M: usize] PackedMap<'_, N, M>, |it| it.iter();
    [const N: usize, const M: usize] TextMap<'_, N, M>, |it| it.iter();
    [const N: usize, const M: usize] Entries<'_, N, M>, |it| it.clone();
    [const N: usize, const M: usize] TextEntries<'_, N, M>, |it| it.clone();
}

#[cfg(feature = "hashed")]
printed! {
    debug_map:
    [const N: usize, const M: usize] HashedMap<'_, N, M>, |it| it.iter();
    [const N: usize, const M: usize] HashedTextMap<'_, N, M>, |it| it.iter();
    [const N: usize, const M: usize] hashed::Entries<'_, N, M>, |it| it.clone();
}

// These can't be cloned: their names, and how many results are left.
impl<const N: usize> Debug for BinarySearchEach<'_, '_, N> {
    fn fmt(&self, f: &mut Formatter<'_>) -> fmt::Result {
        f.debug_struct("BinarySearchEach").field("len", &self.len()).finish_non_exhaustive()
    }
}

impl<const N: usize, const M: usize> Debug for GetEach<'_, '_, N, M> {
    fn fmt(&self, f: &mut Formatter<'_>) -> fmt::Result {
        f.debug_struct("GetEach").field("len", &self.len()).finish_non_exhaustive()
    }
}

// The iterator of each of these types, which an expression gives, of a value and of a reference.
macro_rules! run_through {
    ($([$($generics:tt)*] $type:ty, $iterator:ty, |$it:ident| $values:expr;)*) => {$(
        impl<'a, $($generics)*> IntoIterator for &$type {
            type Item = <$iterator as Iterator>::Item;
            type IntoIter = $iterator;

            #[inline]
            fn into_iter(self) -> $iterator {
                let $it = self;
                $values
            }
        }

        impl<'a, $($generics)*> IntoIterator for $type {
            type Item = <$iterator as Iterator>::Item;
            type IntoIter = $iterator;

            #[inline]
            fn into_iter(self) -> $iterator {
                (&self).into_iter()
            }
        }
    )*};
}

run_through! {
    [const N: usize] Table<'a, N>, Texts<'a, N>, |it| it.iter();
    [const N: usize] SortedTable<'a, N>, Texts<'a, N>, |it| it.iter();
    [const N: usize, const M: usize] PackedMap<'a, N, M>, Entries<'a, N, M>, |it| it.iter();
    [const N: usize, const M: usize] TextMap<'a, N, M>, TextEntries<'a, N, M>, |it| it.iter();
}

#[cfg(feature = "hashed")]
run_through! {
    [const N: usize] HashedTable<'a, N>, Texts<'a, N>, |it| it.iter();
    [const N: usize, const M: usize] HashedMap<'a, N, M>, hashed::Entries<'a, N, M>, |it| it.iter();
    [const N: usize, const M: usize] HashedTextMap<'a, N, M>, TextEntries<'a, N, M>, |it| it.iter();
}

// A table or a map is a slice or two.
impl<const N: usize> Copy for Table<'_, N> {}
impl<const N: usize> Copy for SortedTable<'_, N> {}
#[cfg(feature = "hashed")]
impl<const N: usize> Copy for HashedTable<'_, N> {}
impl<const N: usize, const M: usize> Copy for PackedMap<'_, N, M> {}
impl<const N: usize, const M: usize> Copy for TextMap<'_, N, M> {}
#[cfg(feature = "hashed")]
impl<const N: usize, const M: usize> Copy for HashedMap<'_, N, M> {}
#[cfg(feature = "hashed")]
impl<const N: usize, const M: usize> Copy for HashedTextMap<'_, N, M> {}

// Tables and maps whose records are equal, which an expression gives.
macro_rules! compared {
    ($([$($generics:tt)*] $type:ty, |$it:ident| $records:expr;)*) => {$(
        /// The same texts or entries, in the same order.
        impl<$($generics)*> PartialEq for $type {
            fn eq(&self, other: &Self) -> bool {
                let records = |$it: &Self| $records;
                records(self) == records(other)
            }
        }

        impl<$($generics)*> Eq for $type {}
    )*};
}

compared! {
    [const N: usize] Table<'_, N>, |it| it.records();
    [const N: usize] SortedTable<'_, N>, |it| it.table().records();
    [const N: usize, const M: usize] PackedMap<'_, N, M>, |it| (it.keys().table().records(), it.values());
    [const N: usize, const M: usize] TextMap<'_, N, M>, |it| (it.keys().table().records(), it.values().records());
}

#[cfg(feature = "hashed")]
compared! {
    [const N: usize] HashedTable<'_, N>, |it| it.table().records();
    [const N: usize, const M: usize] HashedMap<'_, N, M>, |it| (it.keys().table().records(), it.values());
    [const N: usize, const M: usize] HashedTextMap<'_, N, M>, |it| (it.keys().table().records(), it.values().records());
}

// The reader of each of these tables, and its error.
macro_rules! read_of_bytes {
    ($($type:ident, $read:ident, $error:ident;)*) => {$(
        /// A capacity of 0 is a panic.
        impl<'a, const N: usize> TryFrom<&'a [u8]> for $type<'a, N> {
            type Error = $error;

            fn try_from(bytes: &'a [u8]) -> Result<Self, $error> {
                $type::$read(bytes)
            }
        }
    )*};
}

read_of_bytes! {
    Table, new, UleError;
    SortedTable, from_bytes, SortedError;
}

#[cfg(feature = "hashed")]
read_of_bytes! {
    HashedTable, from_bytes, HashedError;
}
