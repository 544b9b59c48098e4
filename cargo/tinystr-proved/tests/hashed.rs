//! Hashed tables are packed as by another program, c/consumers/hashed.py, and each of their texts is found.
#![cfg(all(feature = "alloc", feature = "hashed"))]

use std::collections::BTreeMap;
use tinystr::hashed::{HashedError, HashedTable, HashedTextMap, PackHashedError, in_place};
use tinystr::hashed::{most_bytes, pack_hashed, pack_hashed_into, pack_hashed_text_map, scratch_bytes};
use tinystr::packed::{Table, pack};
use tinystr::{TinyAsciiStr, tinystr};

/// FNV-1a.
fn digest_of(bytes: &[u8]) -> u64 {
    bytes.iter().fold(0xcbf2_9ce4_8422_2325, |digest, byte| (digest ^ u64::from(*byte)).wrapping_mul(0x100_0000_01b3))
}

/// The table that is made in memory of the caller, of just the size that it takes.
fn packed_into<const N: usize>(texts: &[TinyAsciiStr<N>]) -> Vec<u8> {
    let records = pack(texts);
    let mut out = vec![7; most_bytes(texts.len(), N)];
    let mut scratch = vec![7; scratch_bytes(texts.len(), N)];
    let len = pack_hashed_into(&Table::<N>::new(&records).unwrap(), &mut out, &mut scratch).unwrap();
    out.truncate(len);
    out
}

/// In any order the texts are packed as the table with the other program's digest and number of bytes.
fn packs_as<const N: usize>(texts: impl IntoIterator<Item = String>, digest: u64, len: usize) {
    let mut texts: Vec<TinyAsciiStr<N>> = texts.into_iter().map(|text| text.parse().unwrap()).collect();
    for _ in 0..2 {
        let bytes = pack_hashed(&texts).unwrap();
        assert_eq!((digest_of(&bytes), bytes.len()), (digest, len));
        assert!(packed_into(&texts) == bytes);
        let table = HashedTable::<N>::from_bytes(&bytes).unwrap();
        assert!(texts.iter().all(|text| table.contains(text)));
        texts.reverse();
    }
}

fn numbered(front: &str, count: usize) -> impl Iterator<Item = String> {
    (0..count).map(move |number| format!("{front}{number}"))
}

#[test]
fn the_bytes_are_those_of_another_program_in_any_order() {
    packs_as::<8>(numbered("key", 1), 0x3976_bd91_d169_2939, 24);
    packs_as::<8>(numbered("key", 2), 0x494d_c651_c00b_715b, 34);
    packs_as::<8>(numbered("key", 3), 0x981e_24d0_b130_9808, 43);
    packs_as::<8>(numbered("key", 170), 0xa65b_dc7b_853a_1e48, 1472);
    packs_as::<8>(numbered("key", 1000), 0xc267_57d5_5984_0534, 8576);
    packs_as::<8>(numbered("key", 5000), 0x3260_11c6_8c80_23a5, 42_560);
    packs_as::<8>(numbered("key", 100_000), 0x9c04_c532_735c_5f27, 850_752);
    packs_as::<5>(numbered("key", 100), 0xbae8_04be_72af_c2b5, 580);
    packs_as::<17>(numbered("key", 50), 0x7628_94ca_2981_8f01, 898);
    packs_as::<33>(numbered("key", 50), 0xfee7_ae68_466d_0f0c, 1698);
}

/// Some take the slots of others, and the last needs a second attempt.
#[test]
fn texts_that_wait_for_slots_are_packed() {
    packs_as::<8>(numbered("a", 88), 0x0ce1_0d10_faea_8482, 768);
    packs_as::<8>(numbered("mo", 29), 0x5a81_5206_6bd0_68c3, 262);
    packs_as::<8>(numbered("ht", 38), 0x09e7_e792_a021_73a0, 352);
    packs_as::<8>(numbered("sb", 47), 0x98d8_7f3d_23d7_c427, 424);
}

/// A search that spends its budget is given up. Of these the first and the third spend 1 and 15 less, the others 1 and 19 more.
#[test]
fn texts_whose_search_costs_too_much_are_packed_by_another() {
    packs_as::<8>(numbered("koaa", 18), 0xc30b_014e_c81f_a5d5, 169);
    packs_as::<8>(numbered("xbh", 18), 0x226e_df18_ffe0_fc7b, 169);
    packs_as::<8>(numbered("mji", 33), 0x5995_7984_a92b_430d, 296);
    packs_as::<8>(numbered("umo", 33), 0x159c_116b_d5d1_72b1, 296);
}

/// Texts of one byte, and texts that differ in one letter.
#[test]
fn texts_of_similar_bytes_are_packed() {
    let letters = |front: &'static str, back: &'static str| ('a'..='z').map(move |letter| format!("{front}{letter}{back}"));
    let bytes = (1..128u8).filter(|byte| ![29, 121].contains(byte)).map(|byte| char::from(byte).to_string());
    packs_as::<8>(bytes.chain([String::new()]), 0x2829_b2e9_2f46_a25d, 1088);
    packs_as::<16>(letters("h", "52911d0iv25y74"), 0x2b71_5ddc_620e_b315, 448);
    packs_as::<16>(letters("e", "5byhhggt9u3y7i"), 0x7314_bc99_d8f5_25ff, 448);
    packs_as::<16>(('A'..='Z').map(|letter| format!("2026-{letter}-05|J")), 0x21af_cadc_b3df_0e04, 448);
}

/// Texts that are chosen so that no attempt finds pilots: the records are in order.
#[test]
fn texts_without_pilots_are_packed_in_order() {
    let chosen: Vec<_> = include_str!("chosen.txt").split_whitespace().map(String::from).collect();
    packs_as::<8>(chosen.iter().cloned(), 0x6aea_f6ee_0bd5_105a, 16 + 8 * 396);
    let twice: Vec<TinyAsciiStr<8>> = chosen.iter().chain([&chosen[0]]).map(|text| text.parse().unwrap()).collect();
    assert_eq!(pack_hashed(&twice), Err(PackHashedError::Duplicate { text: twice[0] }));
}

/// The texts of a map are packed in the order of its packed keys. tinystr-table tests maps of numbers.
#[test]
fn texts_are_packed_in_the_order_of_their_keys() {
    let map: BTreeMap<TinyAsciiStr<8>, TinyAsciiStr<2>> =
        (0..100).map(|number| (format!("key{number}").parse().unwrap(), number.to_string().parse().unwrap())).collect();
    let (keys, values) = pack_hashed_text_map(&map).unwrap();
    assert_eq!(HashedTextMap::new(&keys, &values).unwrap().iter().collect::<BTreeMap<_, _>>(), map);
}

/// No slice has so many pilots and moves. With a 32-bit `usize` the error has its greatest number.
#[test]
fn a_header_of_four_gigabytes_or_more_is_refused() {
    for (pilots, moves) in [(0, 1 << 30), (1, 1 << 30), (4, (1 << 30) + 1), (u32::MAX, 1), (u32::MAX, u32::MAX)] {
        let header = [1, pilots, moves, 0].map(u32::to_le_bytes);
        let bytes = [header.as_flattened(), b"EURGBP"].concat();
        let size = usize::try_from(u64::from(pilots) + 4 * u64::from(moves)).unwrap_or(usize::MAX);
        let fault = Some(HashedError::Index { size, len: 6 });
        assert_eq!(HashedTable::<3>::from_bytes(&bytes).err(), fault);
        assert_eq!(HashedTable::<3>::from_bytes_const(&bytes).err(), fault);
        assert_eq!(in_place::position(&bytes, &tinystr!(3, "EUR")), None);
    }
}
