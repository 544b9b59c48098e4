//! The traits that Rust's users expect of tables, maps, iterators and errors.
#![cfg(all(feature = "identifiers", feature = "hashed"))]

use std::fmt::Debug;
use std::iter::FusedIterator;
use tinystr::forms::FormWriteError;
use tinystr::hashed::{self, HashedMap, HashedTable, HashedTextMap};
use tinystr::packed::{Entries, PackedMap, SortedError, SortedTable, Table, TextEntries, TextMap, Texts};
use tinystr::subtags::{LangId, LangIdError, Language, Region, Script};
use tinystr::ule::UleError;
use tinystr::{ParseError, Parts, TinyAsciiStr, UnvalidatedTinyAsciiStr, tinystr};

fn table() -> Table<'static, 3> {
    Table::try_from(b"EURGB\0USD".as_slice()).unwrap()
}

fn sorted() -> SortedTable<'static, 3> {
    SortedTable::try_from(b"EURGB\0USD".as_slice()).unwrap()
}

fn map() -> PackedMap<'static, 3, 1> {
    PackedMap::new(b"EURJPY", &[2, 0]).unwrap()
}

fn texts() -> TextMap<'static, 2, 3> {
    TextMap::new(b"CHJP", b"CHFJPY").unwrap()
}

/// Each is a header of no pilots, and one text.
const ONE: &[u8] = b"\x01\0\0\0\0\0\0\0\0\0\0\0\0\0\0\0EUR";
const OTHER: &[u8] = b"\x01\0\0\0\0\0\0\0\0\0\0\0\0\0\0\0USD";

fn hashed_table() -> HashedTable<'static, 3> {
    HashedTable::try_from(ONE).unwrap()
}

fn hashed_map() -> HashedMap<'static, 3, 1> {
    HashedMap::new(ONE, &[2]).unwrap()
}

fn hashed_texts() -> HashedTextMap<'static, 3, 2> {
    HashedTextMap::new(ONE, b"DE").unwrap()
}

fn shown(value: impl Debug) -> String {
    format!("{value:?}")
}

#[test]
fn tables_are_printed_as_lists_and_maps_as_maps() {
    assert_eq!([shown(table()), shown(sorted()), shown(table().iter())], [r#"["EUR", "GB", "USD"]"#; 3]);
    assert_eq!(shown(hashed_table()), r#"["EUR"]"#);
    let (mut all, mut parts) = (table().iter(), tinystr!(16, "zh-Hant-TW").split_byte(b'-'));
    assert_eq!((all.next(), parts.next()), (Some(tinystr!(3, "EUR")), Some(tinystr!(16, "zh"))));
    assert_eq!((shown(all), shown(parts)), (r#"["GB", "USD"]"#.into(), r#"["Hant", "TW"]"#.into()));
    assert_eq!([shown(map()), shown(map().iter())], [r#"{"EUR": [2], "JPY": [0]}"#; 2]);
    assert_eq!([shown(texts()), shown(texts().iter())], [r#"{"CH": "CHF", "JP": "JPY"}"#; 2]);
    assert_eq!([shown(hashed_map()), shown(hashed_map().iter())], [r#"{"EUR": [2]}"#; 2]);
    assert_eq!([shown(hashed_texts()), shown(hashed_texts().iter())], [r#"{"EUR": "DE"}"#; 2]);
    assert_eq!(shown(map().get_each(&[tinystr!(3, "JPY"); 2])), "GetEach { len: 2, .. }");
    assert_eq!(shown(sorted().binary_search_each(&[tinystr!(3, "JPY")])), "BinarySearchEach { len: 1, .. }");
}

#[test]
fn sorted_and_hashed_tables_have_the_calls_of_a_table() {
    assert_eq!((sorted().len(), sorted().is_empty(), sorted().iter().nth(1)), (3, false, Some(tinystr!(3, "GB"))));
    assert_eq!((sorted().first(), sorted().get(1), sorted().last()), (table().first(), table().get(1), table().last()));
    assert_eq!((SortedTable::<3>::default().first(), sorted().get(3)), (None, None));
    assert_eq!((hashed_table().iter().count(), hashed_table().get(0), hashed_table().get(1)), (1, Some(tinystr!(3, "EUR")), None));
}

#[test]
fn tables_and_maps_are_compared() {
    assert_eq!((table(), sorted(), map(), texts()), (table(), sorted(), map(), texts()));
    assert_eq!((hashed_table(), hashed_map(), hashed_texts()), (hashed_table(), hashed_map(), hashed_texts()));
    assert!(table() != table().slice(0..2) && sorted() != sorted().with_prefix(&tinystr!(3, "E")) && hashed_table() != HashedTable::default());
    assert!(map() != PackedMap::new(b"EURJPY", &[2, 1]).unwrap() && map() != PackedMap::new(b"CHFJPY", &[2, 0]).unwrap());
    assert!(texts() != TextMap::new(b"CHJP", b"CHFUSD").unwrap() && texts() != TextMap::new(b"CHUS", b"CHFJPY").unwrap());
    assert!(hashed_map() != HashedMap::new(ONE, &[3]).unwrap() && hashed_map() != HashedMap::new(OTHER, &[2]).unwrap());
    assert!(hashed_texts() != HashedTextMap::new(ONE, b"FR").unwrap() && hashed_texts() != HashedTextMap::new(OTHER, b"DE").unwrap());
}

#[test]
fn a_default_table_has_no_text() {
    assert_eq!((Table::<3>::default().len(), SortedTable::<3>::default().len(), HashedTable::<3>::default().len()), (0, 0, 0));
    assert!(PackedMap::<3, 1>::default().is_empty() && TextMap::<2, 3>::default().is_empty());
    assert!(HashedMap::<3, 1>::default().is_empty() && HashedTextMap::<2, 3>::default().is_empty());
    assert_eq!(HashedTable::<0>::default().position(&tinystr!(0, "")), None);
}

/// What runs through a value and through a reference to it gives the same.
fn runs_through<T: IntoIterator<Item: PartialEq + Debug>>(value: T, by_reference: impl Iterator<Item = T::Item>, items: &[T::Item]) {
    assert_eq!(value.into_iter().collect::<Vec<_>>(), items);
    assert_eq!(by_reference.collect::<Vec<_>>(), items);
}

#[test]
fn loops_run_through_tables_and_maps() {
    let [euro, pound, dollar] = ["EUR", "GB", "USD"].map(|code| code.parse().unwrap());
    runs_through(table(), (&table()).into_iter(), &[euro, pound, dollar]);
    runs_through(sorted(), (&sorted()).into_iter(), &[euro, pound, dollar]);
    runs_through(hashed_table(), (&hashed_table()).into_iter(), &[euro]);
    runs_through(map(), (&map()).into_iter(), &[(euro, &[2]), (tinystr!(3, "JPY"), &[0])]);
    runs_through(texts(), (&texts()).into_iter(), &[(tinystr!(2, "CH"), tinystr!(3, "CHF")), (tinystr!(2, "JP"), tinystr!(3, "JPY"))]);
    runs_through(hashed_map(), (&hashed_map()).into_iter(), &[(euro, &[2])]);
    runs_through(hashed_texts(), (&hashed_texts()).into_iter(), &[(euro, tinystr!(2, "DE"))]);
}

/// An iterator says how many it still gives, and gives none after the last.
fn counts_down(mut it: impl ExactSizeIterator + FusedIterator, len: usize) {
    for left in (1..=len).rev() {
        assert_eq!((it.len(), it.size_hint()), (left, (left, Some(left))));
        assert!(it.next().is_some());
    }
    assert_eq!((it.len(), it.next().is_none(), it.next().is_none(), it.len()), (0, true, true, 0));
}

#[test]
fn iterators_say_how_much_is_left() {
    counts_down(table().iter(), 3);
    counts_down(map().iter(), 2);
    counts_down(texts().iter(), 2);
    counts_down(hashed_map().iter(), 1);
    let keys = [tinystr!(3, "JPY"); 9];
    counts_down(sorted().binary_search_each(&keys), 9);
    counts_down(map().get_each(&keys), 9);
}

/// What an iterator gives from the back is what it gives, in reverse, also where it has begun.
fn reverses<I: DoubleEndedIterator<Item: PartialEq + Debug>>(make: impl Fn() -> I) {
    let mut items: Vec<_> = make().collect();
    items.reverse();
    assert_eq!(make().rev().collect::<Vec<_>>(), items);
    let (mut begun, first) = (make(), items.pop());
    assert_eq!((begun.next(), begun.rev().collect::<Vec<_>>()), (first, items));
}

#[test]
fn iterators_run_from_the_back() {
    reverses(|| table().iter());
    reverses(|| map().iter());
    reverses(|| texts().iter());
    reverses(|| hashed_map().iter());
}

/// They compile where the types have the traits.
fn can_be_shared<T: Clone + Debug + Send + Sync + Unpin>() {}
fn are_values<T: Copy + Eq + Debug + Send + Sync + Unpin>() {}

#[test]
fn public_types_have_the_common_traits() {
    can_be_shared::<(Texts<3>, Entries<3, 1>, hashed::Entries<3, 1>, TextEntries<3, 1>, Parts<3>)>();
    are_values::<(Table<3>, SortedTable<3>, HashedTable<3>)>();
    are_values::<(PackedMap<3, 1>, TextMap<3, 1>, HashedMap<3, 1>, HashedTextMap<3, 1>)>();
    are_values::<(TinyAsciiStr<3>, UnvalidatedTinyAsciiStr<3>, LangId, Language, Script, Region)>();
    are_values::<(LangIdError, ParseError, UleError, SortedError, FormWriteError)>();
}
