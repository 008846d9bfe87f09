// Checks 1 to 4 of a table, and its neighbour list, which comes with check 4.
// Check 3 asks a column of ids, without early exit, where an earlier id has the same last 13 bits.

use crate::answers::{refuse, Record, Refusal, ORDER, RECORD, SLOTS_MOST, TWICE};
use crate::neighbour_lists::{fill_near, Near, NONE};
use crate::records::{id_of, is_fit};

/// Checks 1 and 2.
pub fn check_slots<const W: usize>(table: &[u64]) -> Result<&[Record<W>], Refusal> {
    let records = Record::all(table)?;
    for (slot, record) in records.iter().enumerate() {
        if !is_fit(record) {
            return refuse(RECORD, slot);
        }
    }
    Ok(records)
}

/// Check 3, of records that are empty or sound: an id of 0 is an empty slot's.
fn check_twice<const W: usize>(records: &[Record<W>]) -> Result<(), Refusal> {
    let mut ids = [0u32; SLOTS_MOST];
    let mut seen = [0u64; 128];
    for (slot, record) in records.iter().enumerate() {
        let id = id_of(record);
        ids[slot] = id;
        let place = id as usize % 8192;
        if seen[place / 64] >> (place % 64) & 1 == 1 && id != 0 && stands_in(&ids[..slot], id) {
            return refuse(TWICE, slot);
        }
        seen[place / 64] |= 1 << (place % 64);
    }
    Ok(())
}

fn stands_in(ids: &[u32], id: u32) -> bool {
    let mut found = false;
    for &earlier in ids {
        found |= earlier == id;
    }
    found
}

/// Check 4; where it passes, the table's neighbour list is in the front of the lent one.
fn check_order<const W: usize>(records: &[Record<W>], uncounted: bool, near: &mut [Near]) -> Result<(), Refusal> {
    let first = fill_near(records, uncounted, near);
    if first < records.len() {
        return refuse(ORDER, first);
    }
    Ok(())
}

pub fn new_list() -> [Near; SLOTS_MOST] {
    [Near { next: NONE, before: NONE }; SLOTS_MOST]
}

/// Checks 3 and 4, with the list.
pub fn check_pairs<const W: usize>(records: &[Record<W>], uncounted: bool, near: &mut [Near]) -> Result<(), Refusal> {
    check_twice(records)?;
    check_order(records, uncounted, near)
}

/// Checks 1 to 4, with the list.
pub fn check_listed<'a, const W: usize>(
    table: &'a [u64],
    uncounted: bool,
    near: &mut [Near],
) -> Result<&'a [Record<W>], Refusal> {
    let records = check_slots(table)?;
    check_pairs(records, uncounted, near)?;
    Ok(records)
}

/// Checks 1 to 4.
pub fn check_table<const W: usize>(table: &[u64], uncounted: bool) -> Result<&[Record<W>], Refusal> {
    check_listed(table, uncounted, &mut new_list())
}
