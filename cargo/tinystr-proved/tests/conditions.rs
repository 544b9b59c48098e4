//! A call panics where it doesn't meet a condition that is proved at each call in Rattle.
#![cfg(feature = "hashed")]

use std::panic::catch_unwind;
use tinystr::hashed::{self, HashedMap, HashedTable, HashedTextMap};
use tinystr::packed::{PackedMap, SortedTable, Table, TextEntries, TextMap, in_place};
use tinystr::{TinyAsciiStr, UnvalidatedTinyAsciiStr, tinystr};

/// Each is a call whose condition doesn't hold, by its name.
const PANICKING: &[(&str, fn())] = &[
    ("from_utf8_lossy by 0", || ignore(TinyAsciiStr::<2>::from_utf8_lossy(b"a", 0))),
    ("from_utf8_lossy by 128", || ignore(TinyAsciiStr::<2>::from_utf8_lossy(b"a", 128))),
    ("from_utf16_lossy by 0", || ignore(TinyAsciiStr::<2>::from_utf16_lossy(&[0x61], 0))),
    ("from_utf16_lossy by 255", || ignore(TinyAsciiStr::<2>::from_utf16_lossy(&[0x61], 255))),
    ("join by 0", || ignore(TinyAsciiStr::join::<4>(&[tinystr!(2, "a")], 0))),
    ("join of nothing by 128", || ignore(TinyAsciiStr::<2>::join::<4>(&[], 128))),
    ("slice that begins after its end", || ignore(tinystr!(4, "Latn").slice::<4>(backward(2, 1)))),
    ("slice that begins after its end, past the text", || ignore(tinystr!(16, "Latn").slice::<4>(backward(9, 8)))),
    ("write_bytes to fewer", || tinystr!(4, "GB").write_bytes(&mut [0; 3])),
    ("validate_bytes at 0", || ignore(TinyAsciiStr::<0>::validate_bytes(b""))),
    ("validate_bytes at 0 of a byte", || ignore(TinyAsciiStr::<0>::validate_bytes(b"a"))),
    ("unvalidated validate_bytes at 0", || ignore(UnvalidatedTinyAsciiStr::<0>::validate_bytes(b""))),
    ("Table::new at 0", || ignore(Table::<0>::new(b""))),
    ("Table::new_const at 0", || ignore(Table::<0>::new_const(b""))),
    ("SortedTable::from_bytes_const at 0", || ignore(SortedTable::<0>::from_bytes_const(b""))),
    ("SortedTable::from_bytes at 0", || ignore(SortedTable::<0>::from_bytes(b""))),
    ("text_at past the end", || ignore(table().text_at(2))),
    ("slice of a table past the end", || ignore(table().slice(1..3))),
    ("slice of a table that begins after its end", || ignore(table().slice(backward(2, 1)))),
    ("slice of a table wholly past the end", || ignore(table().slice(3..3))),
    ("PackedMap::new of keys at 0", || ignore(PackedMap::<0, 1>::new(b"", &[]))),
    ("PackedMap::new of values at 0", || ignore(PackedMap::<3, 0>::new(b"EUR", &[]))),
    ("PackedMap::new of no values at 0", || ignore(PackedMap::<3, 0>::new(b"", &[]))),
    ("PackedMap::new of both at 0", || ignore(PackedMap::<0, 0>::new(b"", &[]))),
    ("TextMap::new of keys at 0", || ignore(TextMap::<0, 1>::new(b"", b""))),
    ("TextMap::new of texts at 0", || ignore(TextMap::<3, 0>::new(b"EUR", b""))),
    ("TextMap::new of no texts at 0", || ignore(TextMap::<3, 0>::new(b"", b""))),
    ("TextEntries::new of fewer texts", || ignore(TextEntries::new(&table(), &Table::<1>::new(b"a").unwrap()))),
    ("TextEntries::new of more texts", || ignore(TextEntries::new(&table(), &Table::<1>::new(b"abc").unwrap()))),
    ("HashedTable::from_bytes at 0", || ignore(HashedTable::<0>::from_bytes(HEADER))),
    ("HashedTable::from_bytes at 0 of nothing", || ignore(HashedTable::<0>::from_bytes(b""))),
    #[cfg(feature = "alloc")]
    ("pack_hashed at 0", || ignore(hashed::pack_hashed::<0>(&[]))),
    #[cfg(feature = "alloc")]
    ("pack_hashed of texts at 0", || ignore(hashed::pack_hashed(&[tinystr!(0, "")]))),
    #[cfg(feature = "alloc")]
    ("pack_hashed_map at 0", || ignore(hashed::pack_hashed_map(&[(tinystr!(0, ""), [2])].into()))),
    #[cfg(feature = "alloc")]
    ("pack_hashed_text_map at 0", || ignore(hashed::pack_hashed_text_map::<0, 1>(&Default::default()))),
    ("HashedMap::new of keys at 0", || ignore(HashedMap::<0, 1>::new(HEADER, &[]))),
    ("HashedMap::new of no values at 0", || ignore(HashedMap::<3, 0>::new(HEADER, &[]))),
    ("HashedMap::new of both at 0", || ignore(HashedMap::<0, 0>::new(b"", &[]))),
    ("HashedTextMap::new of keys at 0", || ignore(HashedTextMap::<0, 1>::new(HEADER, b""))),
    ("HashedTextMap::new of texts at 0", || ignore(HashedTextMap::<3, 0>::new(HEADER, b""))),
    ("hashed::in_place::position at 0", || ignore(hashed::in_place::position::<0>(HEADER, &tinystr!(0, "")))),
    ("hashed::in_place::position at 0 of nothing", || ignore(hashed::in_place::position::<0>(b"", &tinystr!(0, "")))),
    ("in_place::search at 0", || ignore(in_place::search::<0>(b"", &tinystr!(0, "")))),
    ("in_place::search_eight at 0", || ignore(in_place::search_eight::<0>(b"", &[tinystr!(0, ""); 8], 0))),
    ("in_place::with_prefix at 0", || ignore(in_place::with_prefix::<0>(b"", &tinystr!(0, "")))),
];

/// A hashed table of no texts.
const HEADER: &[u8] = &[1, 0, 0, 0, 0, 0, 0, 0, 0, 0, 0, 0, 0, 0, 0, 0];

fn table() -> Table<'static, 3> {
    Table::new(b"EURGB\0").unwrap()
}

/// (A release build calls it of texts alone.)
fn unchecked<const N: usize>(raw: [u8; N]) -> TinyAsciiStr<N> {
    // SAFETY: they are a text and then NULs, or a debug build panics before it makes a text of them.
    unsafe { TinyAsciiStr::from_utf8_unchecked(raw) }
}

fn ignore<T>(_: T) {}

fn backward(start: usize, end: usize) -> std::ops::Range<usize> {
    start..end
}

#[test]
fn a_call_whose_condition_does_not_hold_panics() {
    std::panic::set_hook(Box::new(|_| {}));
    let taken: Vec<&str> = PANICKING.iter().filter(|(_, call)| catch_unwind(call).is_ok()).map(|(name, _)| *name).collect();
    let unfit = if cfg!(debug_assertions) { unfit_arrays() } else { Vec::new() };
    let made: Vec<_> = unfit.into_iter().filter(|raw| catch_unwind(|| unchecked(*raw)).is_ok()).collect();
    let _ = std::panic::take_hook();
    assert!(taken.is_empty() && made.is_empty(), "no panic: {taken:?}, from_utf8_unchecked of {made:?}");
}

/// A byte above 127 at each place, after characters and after NULs, and a character after a NUL.
fn unfit_arrays() -> Vec<[u8; 12]> {
    let with = |front: u8, place: usize, byte: u8| {
        let mut raw = [0; 12];
        raw[..place].fill(front);
        raw[place] = byte;
        raw
    };
    let high = (0..12).flat_map(|place| [with(b'a', place, 128), with(0, place, 255)]);
    high.chain((1..12).flat_map(|place| [with(0, place, 1), with(0, place, 127)])).collect()
}

/// In the original's words.
#[test]
#[should_panic(expected = "replacement must be a non-null ASCII byte")]
fn a_replacement_that_is_no_character_panics() {
    ignore(TinyAsciiStr::<8>::from_utf8_lossy(&[0xfe], 0x80));
}

#[test]
fn a_call_at_the_edge_of_its_condition_answers() {
    assert_eq!(TinyAsciiStr::<2>::from_utf8_lossy(b"\0a", 127).as_str(), "\x7fa");
    assert_eq!(TinyAsciiStr::<2>::from_utf16_lossy(&[0x61, 0x161], 1).as_str(), "a\x01");
    assert_eq!(TinyAsciiStr::join::<3>(&[tinystr!(2, "a"), tinystr!(2, "b")], 1).unwrap().as_str(), "a\x01b");
    assert_eq!(tinystr!(4, "Latn").slice::<4>(2..2), "");
    assert_eq!(tinystr!(4, "Latn").slice::<4>(9..9), "");
    let mut bytes = [1; 2];
    tinystr!(2, "a").write_bytes(&mut bytes);
    assert_eq!(bytes, *b"a\0");
    assert_eq!(table().text_at(1), "GB");
    assert_eq!(table().slice(2..2).len(), 0);
    assert_eq!(TextEntries::new(&table(), &table()).count(), 2);
    let texts = [[0; 3], *b"G\0\0", *b"GB\0", *b"EUR", [1, 127, 1]];
    assert!(texts.into_iter().all(|bytes| TinyAsciiStr::try_from_raw(bytes) == Ok(unchecked(bytes))));
}
