// Checks 1 to 4 of a table, and its neighbour list, which comes with check 4.
// Check 3 asks a column of ids, without early exit, where an earlier id has the same last 13 bits.

use crate::answers::{refuse, Record, Refusal, ORDER, RECORD, SLOTS_MOST, TWICE};
use crate::neighbour_lists::{fill_near, Near};
use crate::records::{at, id_of, is_fit, put};

/// Checks 1 and 2.
pub fn check_slots<const W: usize>(table: &[u64]) -> Result<&[Record<W>], Refusal> {
    let records = Record::all(table)?;
    let mut slot = 0;
    while slot < records.len() {
        let record = unsafe { records.get_unchecked(slot) };
        if !is_fit(record) {
            return refuse(RECORD, slot);
        }
        slot += 1;
    }
    Ok(records)
}

/// Check 3, of records that are empty or sound: an id of 0 is an empty slot's.
fn check_twice<const W: usize>(records: &[Record<W>]) -> Result<(), Refusal> {
    let mut ids = [0u32; SLOTS_MOST];
    let mut seen = [0u64; 128];
    let mut slot = 0;
    while slot < records.len() {
        let id = id_of(unsafe { records.get_unchecked(slot) });
        unsafe { put(&mut ids, slot, id) };
        let place = id as usize % 8192;
        let word = unsafe { at(&seen, place / 64) };
        if word >> (place % 64) & 1 == 1 && id != 0 && unsafe { stands_before(&ids, slot, id) } {
            return refuse(TWICE, slot);
        }
        unsafe { put(&mut seen, place / 64, word | 1 << (place % 64)) };
        slot += 1;
    }
    Ok(())
}

unsafe fn stands_before(ids: &[u32; SLOTS_MOST], slot: usize, id: u32) -> bool {
    let mut found = false;
    let mut earlier = 0;
    while earlier < slot {
        found |= at(ids, earlier) == id;
        earlier += 1;
    }
    found
}

/// Check 4; where it passes, the table's neighbour list is in the front of the lent one.
fn check_order<const W: usize>(records: &[Record<W>], uncounted: bool, near: &mut Near) -> Result<(), Refusal> {
    let first = unsafe { fill_near(records, uncounted, near) };
    if first < records.len() {
        return refuse(ORDER, first);
    }
    Ok(())
}

/// Checks 3 and 4, with the list.
pub fn check_pairs<const W: usize>(records: &[Record<W>], uncounted: bool, near: &mut Near) -> Result<(), Refusal> {
    check_twice(records)?;
    check_order(records, uncounted, near)
}

/// Checks 1 to 4, with the list.
pub fn check_listed<'a, const W: usize>(table: &'a [u64], uncounted: bool, near: &mut Near) -> Result<&'a [Record<W>], Refusal> {
    let records = check_slots(table)?;
    check_pairs(records, uncounted, near)?;
    Ok(records)
}

/// Checks 1 to 4.
pub fn check_table<const W: usize>(table: &[u64], uncounted: bool) -> Result<&[Record<W>], Refusal> {
    check_listed(table, uncounted, &mut [0; 2 * SLOTS_MOST])
}
