// Lookup and the part of the table that is a slot's record: checks 1 and 2, then one pass or one slot.
// The pass asks four records a step, and ends at the first of the four that match.

use crate::answers::{key_of, Hit, Record, Refusal};
use crate::checks::check_slots;
use crate::records::{id_of, is_empty, matches};

pub fn lookup<const W: usize>(table: &[u64], key: &[u64]) -> Result<Option<Hit>, Refusal> {
    let key = key_of::<W>(key)?;
    let records = check_slots::<W>(table)?;
    for (slot, record) in records.iter().enumerate().skip(unmatched(records, key)) {
        if matches(record, key) {
            return Ok(Some(Hit { slot: slot as u32, id: id_of(record), action: record.owner as u32 }));
        }
    }
    Ok(None)
}

/// How many records from the first on are passed over, four at a time.
fn unmatched<const W: usize>(records: &[Record<W>], key: &[u64; W]) -> usize {
    let (fours, _) = records.as_chunks::<4>();
    let one_matches = |[first, second, third, fourth]: &[Record<W>; 4]| {
        matches(first, key) || matches(second, key) || matches(third, key) || matches(fourth, key)
    };
    4 * fours.iter().position(one_matches).unwrap_or(fours.len())
}

pub fn holds_rule<const W: usize>(table: &[u64], slot: usize) -> Result<bool, Refusal> {
    let records = check_slots::<W>(table)?;
    Ok(slot < records.len() && !is_empty(&records[slot]))
}
