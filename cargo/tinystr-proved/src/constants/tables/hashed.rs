//! The order of hashed tables.

use super::first_not_above;
use crate::hashed::hashing::{Places, hash_of, scaled, short_number, slot_of};
use crate::packed::Table;

/// What `hashed::table::first_out_of_order` returns.
pub(crate) const fn first_out_of_order<const N: usize>(table: &Table<'_, N>, places: &Places<'_>) -> Option<usize> {
    if places.pilots.is_empty() {
        return first_not_above(table.records);
    }
    let mut index = 0;
    while index < table.len() {
        if place(places, &table.records[index], table.len()) != index {
            return Some(index);
        }
        index += 1;
    }
    None
}

/// What `Places::place` returns if there are pilots.
const fn place<const N: usize>(places: &Places<'_>, raw: &[u8; N], count: usize) -> usize {
    let hash = hash_of(places.start, raw);
    let pilot = places.pilots[scaled(hash, places.pilots.len())];
    let slot = slot_of(hash, pilot, count + places.moves.len());
    if slot < count { slot } else { short_number(&places.moves[slot - count]) as usize }
}
