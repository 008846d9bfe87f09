// Carrying out one write of a plan, with the progress record.
// A call that declines, and one that answers "finished", changes nothing.

use crate::given::Given;
use crate::plan::{EMPTYING, PUT_IN};
use crate::table::{check_shape, check_words, read_slots, record_words, refuse, words_of, Refusal, Rule, Slot, WRITE};

#[derive(Clone, Copy, Debug, PartialEq, Eq)]
pub struct Progress {
    pub done: u32,
    pub total: u32,
}

#[derive(Clone, Copy, Debug, PartialEq, Eq)]
pub enum Carried {
    Wrote,
    Finished,
}

/// The rule is a record, which has its words in a delete and a finished plan too. What they say, and the edition, counts "only where
/// a rule is put in".
pub fn carry_out(
    words: &mut [u64],
    width: usize,
    rule: &[u64],
    edition: u32,
    plan: &[u32],
    progress: &mut Progress,
) -> Result<Carried, Refusal> {
    check_shape(words.len(), width)?;
    check_words(rule, record_words(width))?;
    let mut slots = read_slots(words, width)?;
    if progress.done > progress.total || u64::from(progress.total) > plan.len() as u64 {
        return refuse(WRITE, progress.done as usize);
    }
    if progress.done == progress.total {
        return Ok(Carried::Finished);
    }
    let write = plan[progress.done as usize];
    let put_in = match write / 65_536 {
        PUT_IN => Some(Given::of_record(rule, width).ranked(width, edition)?),
        _ => None,
    };
    if !fits(&slots, write, put_in.as_ref()) {
        return refuse(WRITE, progress.done as usize);
    }
    slots[write as usize % 65_536] = match write / 65_536 {
        PUT_IN => put_in,
        EMPTYING => None,
        from => slots[from as usize],
    };
    words.copy_from_slice(&words_of(&slots, width));
    progress.done += 1;
    Ok(Carried::Wrote)
}

/// Whether a write fits; `new` is the rule that it puts in, if it puts one in.
pub fn fits(slots: &[Slot], write: u32, new: Option<&Rule>) -> bool {
    let (from, to) = (write / 65_536, write as usize % 65_536);
    match from {
        PUT_IN => may_be_overwritten(slots, to) || new.is_some_and(|new| is_replaced(slots, to, new)),
        EMPTYING => is_occupied(slots, to),
        _ => from as usize != to && is_occupied(slots, from as usize) && may_be_overwritten(slots, to),
    }
}

fn is_occupied(slots: &[Slot], slot: usize) -> bool {
    slot < slots.len() && slots[slot].is_some()
}

/// "The carry-out lets a put-in overwrite a rule with the same value, mask and priority", whatever its id.
fn is_replaced(slots: &[Slot], slot: usize, new: &Rule) -> bool {
    slot < slots.len() && slots[slot].is_some_and(|rule| rule.equals(new))
}

/// The slot exists, and is empty or its id stands in another slot too.
fn may_be_overwritten(slots: &[Slot], slot: usize) -> bool {
    if slot >= slots.len() {
        return false;
    }
    match &slots[slot] {
        None => true,
        Some(rule) => (0..slots.len()).any(|other| other != slot && slots[other].is_some_and(|copy| copy.id == rule.id)),
    }
}
