// Lookup of a key, and the record of a slot as a part of the lent table.
// Both make checks 1 and 2 only.

use crate::bits::Bits;
use crate::table::{check_shape, check_words, read_slots, record_words, Refusal, Rule};
use std::ops::Range;

#[derive(Clone, Copy, Debug, PartialEq, Eq)]
pub enum Found {
    Hit { slot: usize, id: u32, action: u32 },
    Miss,
}

impl Found {
    /// "A key's reply is id and action or a miss; the slot may change as rules move."
    pub fn reply(&self) -> Option<(u32, u32)> {
        match *self {
            Found::Hit { id, action, .. } => Some((id, action)),
            Found::Miss => None,
        }
    }
}

/// Whether a reply is what a key is promised by rules, whatever their layout. In a counted table that is the highest-ranked match; in
/// an uncounted one "the action of the highest-ranked match, while the id may be any rule's with that action", one that matches. Of
/// several highest-ranked matches all have that action. A miss is promised exactly where no rule matches.
pub fn is_promised(reply: Option<(u32, u32)>, rules: &[Rule], key: Bits, uncounted: bool) -> bool {
    let matching = || rules.iter().filter(|rule| rule.matches(key));
    let Some(highest) = matching().map(|rule| rule.rank).max() else { return reply.is_none() };
    let Some((id, action)) = reply else { return false };
    let mut best = matching().filter(|rule| rule.rank == highest);
    if uncounted {
        best.all(|rule| rule.action == action) && matching().any(|rule| (rule.id, rule.action) == (id, action))
    } else {
        best.all(|rule| (rule.id, rule.action) == (id, action))
    }
}

pub fn lookup(words: &[u64], width: usize, key: &[u64]) -> Result<Found, Refusal> {
    check_shape(words.len(), width)?;
    check_words(key, width)?;
    for (slot, entry) in read_slots(words, width)?.iter().enumerate() {
        if let Some(rule) = entry {
            if rule.matches(Bits::of_words(key)) {
                return Ok(Found::Hit { slot, id: rule.id, action: rule.action });
            }
        }
    }
    Ok(Found::Miss)
}

/// The words of the table that are the slot's record; the empty part at the table's start if checks 1 or 2 fail
/// or the slot is absent or empty.
pub fn slot_record(words: &[u64], width: usize, slot: u64) -> Range<usize> {
    match read_slots(words, width) {
        Ok(slots) if slot < slots.len() as u64 && slots[slot as usize].is_some() => {
            let start = slot as usize * record_words(width);
            start..start + record_words(width)
        }
        _ => 0..0,
    }
}
