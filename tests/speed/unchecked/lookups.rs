// Lookup and the part of the table that is a slot's record: checks 1 and 2, then one pass or one slot.
// The pass asks four records a step, and ends at the first of the four that match.

use crate::answers::{key_of, Hit, Record, Refusal};
use crate::checks::check_slots;
use crate::records::{id_of, is_empty, matches};

pub fn lookup<const W: usize>(table: &[u64], key: &[u64]) -> Result<Option<Hit>, Refusal> {
    let key = key_of::<W>(key)?;
    let records = check_slots::<W>(table)?;
    let mut slot = unsafe { unmatched(records, key) };
    while slot < records.len() {
        let record = unsafe { records.get_unchecked(slot) };
        if matches(record, key) {
            return Ok(Some(Hit { slot: slot as u32, id: id_of(record), action: record.owner as u32 }));
        }
        slot += 1;
    }
    Ok(None)
}

/// How many records from the first on are passed over, four at a time.
unsafe fn unmatched<const W: usize>(records: &[Record<W>], key: &[u64; W]) -> usize {
    let mut record = records.as_ptr();
    let fours = record.add(records.len() & !3);
    while record != fours
        && !matches(&*record, key)
        && !matches(&*record.add(1), key)
        && !matches(&*record.add(2), key)
        && !matches(&*record.add(3), key)
    {
        record = record.add(4);
    }
    record.offset_from_unsigned(records.as_ptr())
}

pub fn holds_rule<const W: usize>(table: &[u64], slot: usize) -> Result<bool, Refusal> {
    let records = check_slots::<W>(table)?;
    Ok(slot < records.len() && !is_empty(unsafe { records.get_unchecked(slot) }))
}
