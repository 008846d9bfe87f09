// Planning an insert or a delete: the checks of each in their order, then the words.
// A and B are found once.

use crate::answers::{
    refuse, Planned, Record, Refusal, CROSSED, EMPTYING, FULL, KNOWN, NO_SLOT, PUT_IN, RULE, SHORT, TIE, UNKNOWN,
};
use crate::checks::{check_listed, check_table, new_list};
use crate::neighbour_lists::Near;
use crate::planner::{choose, costs_along, write_plan};
use crate::records::{id_of, is_equal, is_equal_in_action, obscures, precedes, ranked, tied};

pub fn plan_insert<const W: usize>(
    table: &[u64],
    uncounted: bool,
    rule: &[u64],
    edition: u32,
    plan: &mut [u32],
) -> Result<Planned, Refusal> {
    let given = Record::<W>::one(rule)?;
    let mut near = new_list();
    let records = check_listed(table, uncounted, &mut near)?;
    let new = ranked(given, edition)?;
    let count = plan_ranked(records, uncounted, &near, &new, plan)?;
    Ok(Planned { count, covered: covering_slot(records, &new) })
}

/// Checks 6 to 11 of a rule with its rank, and the words.
fn plan_ranked<const W: usize>(
    records: &[Record<W>],
    uncounted: bool,
    near: &[Near],
    new: &Record<W>,
    plan: &mut [u32],
) -> Result<u32, Refusal> {
    let slots = records.len();
    if let Some(slot) = slot_of_id(records, id_of(new)) {
        return refuse(KNOWN, slot);
    }
    if let Some(slot) = check_tie(records, uncounted, new)? {
        return plan_one(PUT_IN, slot, plan);
    }
    let (after, dependant) = check_new(records, uncounted, new)?;
    let down = costs_along(records, near, false);
    let up = costs_along(records, near, true);
    let choice = choose(&down, &up, slots, after, dependant);
    let count = choice.cost + 1;
    if plan.len() < count {
        return refuse(SHORT, count);
    }
    write_plan(if choice.up { &up } else { &down }, slots, &choice, plan);
    Ok(count as u32)
}

/// The slot of the rule that the new one replaces, or check 8. In a counted table an equal rule is the only tie of the new one, in an
/// uncounted one it ties with none.
fn check_tie<const W: usize>(records: &[Record<W>], uncounted: bool, new: &Record<W>) -> Result<Option<usize>, Refusal> {
    match records.iter().position(|record| tied(record, new, uncounted)) {
        None if uncounted => Ok(records.iter().position(|record| is_equal_in_action(record, new))),
        None => Ok(None),
        Some(slot) if !uncounted && is_equal(&records[slot], new) => Ok(Some(slot)),
        Some(slot) => refuse(TIE, slot),
    }
}

/// Checks 9 and 10; A + 1, and B.
fn check_new<const W: usize>(records: &[Record<W>], uncounted: bool, new: &Record<W>) -> Result<(usize, usize), Refusal> {
    if !records.iter().any(|record| id_of(record) == 0) {
        return refuse(FULL, 0);
    }
    let after = records.iter().rposition(|record| precedes(record, new, uncounted)).map_or(0, |slot| slot + 1);
    let dependant = records.iter().position(|record| precedes(new, record, uncounted)).unwrap_or(records.len());
    if after > dependant + 1 {
        return refuse(CROSSED, after - 1);
    }
    Ok((after, dependant))
}

/// The lowest slot with a rule of a higher rank that alone covers the new one, or none.
fn covering_slot<const W: usize>(records: &[Record<W>], new: &Record<W>) -> u32 {
    records.iter().position(|record| obscures(record, new)).map_or(NO_SLOT, |slot| slot as u32)
}

/// The slot of an id that is not 0, in a table whose records are empty or sound.
fn slot_of_id<const W: usize>(records: &[Record<W>], id: u32) -> Option<usize> {
    records.iter().position(|record| id_of(record) == id)
}

pub fn plan_delete<const W: usize>(table: &[u64], uncounted: bool, id: u32, plan: &mut [u32]) -> Result<u32, Refusal> {
    let records = check_table::<W>(table, uncounted)?;
    if id == 0 {
        return refuse(RULE, 0);
    }
    let Some(slot) = slot_of_id(records, id) else {
        return refuse(UNKNOWN, 0);
    };
    plan_one(EMPTYING, slot, plan)
}

/// Check 11, and a plan of one write.
fn plan_one(from: u32, slot: usize, plan: &mut [u32]) -> Result<u32, Refusal> {
    if plan.is_empty() {
        return refuse(SHORT, 1);
    }
    plan[0] = from << 16 | slot as u32;
    Ok(1)
}
