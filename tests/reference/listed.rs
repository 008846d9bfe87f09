// Neighbour lists, and the two calls that a list is lent to, by the definition: each number is looked for over all slots of the table.
// Nothing here brings a list up to date: the list after a write is that of the table after it, from nothing.

use crate::carry::{carry_out, Carried, Progress};
use crate::plan::{plan_insert, Planned};
use crate::table::{check_shape, check_words, read_slots, record_words, refuse, Refusal, Slot, SHAPE};

/// "Or 65,535."
pub const NO_NEIGHBOUR: u16 = 65_535;

/// "Two 16-bit numbers per slot."
pub fn list_numbers(slots: usize) -> usize {
    2 * slots
}

/// Whether the rule of one slot precedes that of another: both hold one, and "where a rule stands twice its own copies are skipped".
fn precedes(slots: &[Slot], one: usize, other: usize, uncounted: bool) -> bool {
    match (&slots[one], &slots[other]) {
        (Some(one), Some(other)) => one.id != other.id && one.precedes(other, uncounted),
        _ => false,
    }
}

/// "Its nearest dependant's slot after it."
fn nearest_dependant(slots: &[Slot], slot: usize, uncounted: bool) -> Option<usize> {
    (slot + 1..slots.len()).find(|&other| precedes(slots, slot, other, uncounted))
}

/// "Its nearest preceding rule's before it."
fn nearest_preceding(slots: &[Slot], slot: usize, uncounted: bool) -> Option<usize> {
    (0..slot).rev().find(|&other| precedes(slots, other, slot, uncounted))
}

/// The list "worked out from the whole table", of slots that are empty or hold a sound rule, in order or not.
pub fn neighbour_list(slots: &[Slot], uncounted: bool) -> Vec<u16> {
    let number = |neighbour: Option<usize>| neighbour.map_or(NO_NEIGHBOUR, |slot| slot as u16);
    let numbers =
        |slot: usize| [number(nearest_dependant(slots, slot, uncounted)), number(nearest_preceding(slots, slot, uncounted))];
    (0..slots.len()).flat_map(numbers).collect()
}

/// The list of a table's words, which pass checks 1 and 2.
pub fn list_of(words: &[u64], width: usize, uncounted: bool) -> Result<Vec<u16>, Refusal> {
    Ok(neighbour_list(&read_slots(words, width)?, uncounted))
}

/// Check 1 of a call with a list: "one of another length is SHAPE", beside the table's words and the rule's.
fn check_lent(words: &[u64], width: usize, rule: &[u64], list: &[u16]) -> Result<(), Refusal> {
    let slots = check_shape(words.len(), width)?;
    check_words(rule, record_words(width))?;
    if list.len() == list_numbers(slots) {
        Ok(())
    } else {
        refuse(SHAPE, 0)
    }
}

/// What an insert tells that is planned with a list: "plans from the list equal plans without it", and "a list that doesn't agree with
/// the table at the call's start is worked out afresh and the reply says so".
#[derive(Clone, Debug, PartialEq, Eq)]
pub struct ListedPlan {
    pub planned: Planned,
    pub refreshed: bool,
}

pub fn plan_insert_listed(
    words: &[u64],
    width: usize,
    uncounted: bool,
    rule: &[u64],
    edition: u32,
    list: &mut [u16],
    room: usize,
) -> Result<ListedPlan, Refusal> {
    check_lent(words, width, rule, list)?;
    let planned = plan_insert(words, width, uncounted, rule, edition, room)?;
    let fresh = list_of(words, width, uncounted)?;
    let refreshed = list != fresh;
    list.copy_from_slice(&fresh);
    Ok(ListedPlan { planned, refreshed })
}

/// What a carrying out with a list answers.
#[derive(Clone, Copy, Debug, PartialEq, Eq)]
pub enum ListedCarried {
    Wrote { refreshed: bool },
    Finished,
}

/// "After each write the list is brought up to date and equals one worked out from the whole table", and "a declined call, or the
/// answer finished, leaves the list alone".
pub fn carry_out_listed(
    words: &mut [u64],
    width: usize,
    uncounted: bool,
    rule: &[u64],
    edition: u32,
    list: &mut [u16],
    plan: &[u32],
    progress: &mut Progress,
) -> Result<ListedCarried, Refusal> {
    check_lent(words, width, rule, list)?;
    let before = words.to_vec();
    if carry_out(words, width, rule, edition, plan, progress)? == Carried::Finished {
        return Ok(ListedCarried::Finished);
    }
    let refreshed = list != list_of(&before, width, uncounted)?;
    list.copy_from_slice(&list_of(words, width, uncounted)?);
    Ok(ListedCarried::Wrote { refreshed })
}
