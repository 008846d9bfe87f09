// One write of a plan: checks 1 and 2, the progress, whether the write fits, and the write.
// A step that declines or is finished changes nothing.

use crate::answers::{refuse, Progress, Record, Refusal, EMPTYING, PUT_IN, WRITE};
use crate::checks::check_slots;
use crate::records::{at, id_of, is_empty, is_equal, ranked};

/// Whether a write was made; if not, the plan is finished.
pub fn carry_out<const W: usize>(
    table: &mut [u64],
    rule: &[u64],
    edition: u32,
    plan: &[u32],
    progress: &mut Progress,
) -> Result<bool, Refusal> {
    let given = Record::<W>::one(rule)?;
    let records = check_slots::<W>(table)?;
    let done = progress.done as usize;
    if progress.done > progress.total || progress.total as usize > plan.len() {
        return refuse(WRITE, done);
    }
    if progress.done == progress.total {
        return Ok(false);
    }
    let word = unsafe { at(plan, done) };
    let from = word >> 16;
    let to = (word & 0xffff) as usize;
    let new = if from == PUT_IN { ranked(given, edition)? } else { Record::EMPTY };
    if !fits(records, from, to, &new) {
        return refuse(WRITE, done);
    }
    let record = match from {
        PUT_IN | EMPTYING => new,
        _ => unsafe { at(records, from as usize) },
    };
    unsafe { table.as_mut_ptr().cast::<Record<W>>().add(to).write(record) };
    progress.done += 1;
    Ok(true)
}

fn fits<const W: usize>(records: &[Record<W>], from: u32, to: usize, new: &Record<W>) -> bool {
    match from {
        PUT_IN => is_replaced(records, to, new) || is_free(records, to),
        EMPTYING => is_occupied(records, to),
        _ => from as usize != to && is_occupied(records, from as usize) && is_free(records, to),
    }
}

fn is_occupied<const W: usize>(records: &[Record<W>], slot: usize) -> bool {
    slot < records.len() && !is_empty(unsafe { records.get_unchecked(slot) })
}

/// The slot exists, and holds a rule of the new one's rank, value and mask.
fn is_replaced<const W: usize>(records: &[Record<W>], slot: usize, new: &Record<W>) -> bool {
    slot < records.len() && is_equal(unsafe { records.get_unchecked(slot) }, new)
}

/// The slot exists, and is empty or its id stands in another slot too.
fn is_free<const W: usize>(records: &[Record<W>], slot: usize) -> bool {
    if slot >= records.len() {
        return false;
    }
    let record = unsafe { records.get_unchecked(slot) };
    is_empty(record) || stands_elsewhere(records, slot, id_of(record))
}

fn stands_elsewhere<const W: usize>(records: &[Record<W>], slot: usize, id: u32) -> bool {
    let mut other = 0;
    while other < records.len() {
        if id_of(unsafe { records.get_unchecked(other) }) == id && other != slot {
            return true;
        }
        other += 1;
    }
    false
}
