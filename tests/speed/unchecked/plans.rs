// Planning an insert or a delete: the checks of each in their order, then the words.
// A and B are found once.

use crate::answers::{
    refuse, Planned, Record, Refusal, CROSSED, EMPTYING, FULL, KNOWN, NO_SLOT, PUT_IN, RULE, SHORT, SLOTS_MOST, TIE, UNKNOWN,
};
use crate::checks::{check_listed, check_table};
use crate::neighbour_lists::Near;
use crate::planner::{choose, fill_costs, write_plan};
use crate::records::{id_of, is_equal, is_equal_in_action, obscures, precedes, put, ranked, tied};

pub fn plan_insert<const W: usize>(
    table: &[u64],
    uncounted: bool,
    rule: &[u64],
    edition: u32,
    plan: &mut [u32],
) -> Result<Planned, Refusal> {
    let given = Record::<W>::one(rule)?;
    let mut near = [0; 2 * SLOTS_MOST];
    let records = check_listed(table, uncounted, &mut near)?;
    let new = ranked(given, edition)?;
    let count = plan_ranked(records, uncounted, &near, &new, plan)?;
    Ok(Planned { count, covered: covering_slot(records, &new) })
}

/// Checks 6 to 11 of a rule with its rank, and the words.
fn plan_ranked<const W: usize>(
    records: &[Record<W>],
    uncounted: bool,
    near: &Near,
    new: &Record<W>,
    plan: &mut [u32],
) -> Result<u32, Refusal> {
    let slots = records.len();
    let known = slot_of_id(records, id_of(new));
    if known < slots {
        return refuse(KNOWN, known);
    }
    let replaced = check_tie(records, uncounted, new)?;
    if replaced < slots {
        return plan_one(PUT_IN, replaced, plan);
    }
    let (after, dependant) = check_new(records, uncounted, new)?;
    let mut ends = [0; SLOTS_MOST];
    let mut down = [0; SLOTS_MOST];
    let mut up = [0; SLOTS_MOST];
    unsafe {
        fill_costs(records, near, false, &mut ends, &mut down);
        fill_costs(records, near, true, &mut ends, &mut up);
        let choice = choose(&down, &up, slots, after, dependant);
        let count = choice.cost + 1;
        if plan.len() < count {
            return refuse(SHORT, count);
        }
        write_plan(if choice.up { &up } else { &down }, slots, &choice, plan);
        Ok(count as u32)
    }
}

/// The lowest slot whose record passes a test, or the number of slots.
#[inline(always)]
fn first_slot<const W: usize>(records: &[Record<W>], test: impl Fn(&Record<W>) -> bool) -> usize {
    let mut slot = 0;
    while slot < records.len() && !test(unsafe { records.get_unchecked(slot) }) {
        slot += 1;
    }
    slot
}

/// The slot of the rule that the new one replaces, or the number of slots; or check 8. In a counted table an equal rule is the only tie
/// of the new one, in an uncounted one it ties with none.
fn check_tie<const W: usize>(records: &[Record<W>], uncounted: bool, new: &Record<W>) -> Result<usize, Refusal> {
    let tie = first_slot(records, |record| tied(record, new, uncounted));
    if tie == records.len() && uncounted {
        return Ok(first_slot(records, |record| is_equal_in_action(record, new)));
    }
    if tie == records.len() || !uncounted && is_equal(unsafe { records.get_unchecked(tie) }, new) {
        return Ok(tie);
    }
    refuse(TIE, tie)
}

/// Checks 9 and 10; A + 1, and B.
fn check_new<const W: usize>(records: &[Record<W>], uncounted: bool, new: &Record<W>) -> Result<(usize, usize), Refusal> {
    let slots = records.len();
    if first_slot(records, |record| id_of(record) == 0) == slots {
        return refuse(FULL, 0);
    }
    let mut after = slots;
    while after > 0 && !precedes(unsafe { records.get_unchecked(after - 1) }, new, uncounted) {
        after -= 1;
    }
    let dependant = first_slot(records, |record| precedes(new, record, uncounted));
    if after > dependant + 1 {
        return refuse(CROSSED, after - 1);
    }
    Ok((after, dependant))
}

/// The lowest slot with a rule of a higher rank that alone covers the new one, or none.
fn covering_slot<const W: usize>(records: &[Record<W>], new: &Record<W>) -> u32 {
    let slot = first_slot(records, |record| obscures(record, new));
    if slot < records.len() {
        slot as u32
    } else {
        NO_SLOT
    }
}

/// The slot of an id that is not 0, in a table whose records are empty or sound.
fn slot_of_id<const W: usize>(records: &[Record<W>], id: u32) -> usize {
    first_slot(records, |record| id_of(record) == id)
}

pub fn plan_delete<const W: usize>(table: &[u64], uncounted: bool, id: u32, plan: &mut [u32]) -> Result<u32, Refusal> {
    let records = check_table::<W>(table, uncounted)?;
    if id == 0 {
        return refuse(RULE, 0);
    }
    let slot = slot_of_id(records, id);
    if slot == records.len() {
        return refuse(UNKNOWN, 0);
    }
    plan_one(EMPTYING, slot, plan)
}

/// Check 11, and a plan of one write.
fn plan_one(from: u32, slot: usize, plan: &mut [u32]) -> Result<u32, Refusal> {
    if plan.is_empty() {
        return refuse(SHORT, 1);
    }
    unsafe { put(plan, 0, from << 16 | slot as u32) };
    Ok(1)
}
