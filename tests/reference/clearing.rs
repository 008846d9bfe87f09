// Document 02's 2026-01: which rules are in a crossed rule's way, and the plan that clears the highest of them away.
// What depends on the new rule is found by passes over the table until one finds nothing more, whatever the order of the slots.

use crate::listed::{check_lent, refresh};
use crate::plan::{chain_of, check_new_rule, check_room, copies_of_chain, neighbours, write_word, Passed, EMPTYING};
use crate::table::{refuse, Refusal, Rule, Slot, UNCROSSED};

/// Whether the rule of each slot "depends on the new rule, directly or through others".
fn dependants(slots: &[Slot], new: &Rule, uncounted: bool) -> Vec<bool> {
    let mut found = vec![false; slots.len()];
    loop {
        let before = found.clone();
        for (slot, rule) in rules_of(slots) {
            let is_through_another = rules_of(slots).any(|(other, on)| found[other] && rule.depends_on(on, uncounted));
            found[slot] = rule.depends_on(new, uncounted) || is_through_another;
        }
        if found == before {
            return found;
        }
    }
}

/// The rules of a table, each with its slot.
fn rules_of(slots: &[Slot]) -> impl Iterator<Item = (usize, &Rule)> {
    slots.iter().enumerate().filter_map(|(slot, entry)| entry.as_ref().map(|rule| (slot, rule)))
}

/// The slots of the blockers, rising: "a blocker is a rule in a slot before A that depends on the new rule, directly or through others".
pub fn blockers(slots: &[Slot], new: &Rule, uncounted: bool) -> Vec<usize> {
    let (a, _) = neighbours(slots, new, uncounted);
    let dependants = dependants(slots, new, uncounted);
    (0..slots.len()).filter(|&slot| (slot as i64) < a && dependants[slot]).collect()
}

/// The writes of a clearing, for a rule that is crossed in a table with an empty slot. "The call takes the blocker in the highest slot. It
/// plans its copy as an insert with that A and its own nearest dependant as B, but an upward chain may start only at slot A. It then
/// empties the older copy. If the chain has moved the blocker itself, copying and emptying use the slot it then holds."
pub fn clearing_writes(slots: &[Slot], new: &Rule, uncounted: bool) -> Vec<u32> {
    let (a, _) = neighbours(slots, new, uncounted);
    let highest = *blockers(slots, new, uncounted).last().expect("a crossed rule has a blocker");
    let blocker = slots[highest].expect("a blocker is a rule");
    let (_, b) = neighbours(slots, &blocker, uncounted);
    let chain = chain_of(slots, uncounted, a + 1..=b, a..=a);
    let mut writes = copies_of_chain(&chain);
    let mut moved = slots.to_vec();
    for &copy in &writes {
        moved[copy as usize % 65_536] = moved[copy as usize / 65_536];
    }
    let older = moved.iter().position(|entry| *entry == Some(blocker)).expect("no copy goes over the only copy of a rule");
    writes.push(write_word(older as u32, chain[0]));
    writes.push(write_word(EMPTYING, older));
    writes
}

/// Checks 1 to 9, 18 after 5, then 15 and 11, and the plan of a clearing: "a rule that isn't crossed gets 15, tested after 9". One that
/// replaces another is put in where that stands, and so it isn't crossed.
pub fn plan_clearing(
    words: &[u64],
    width: usize,
    uncounted: bool,
    rule: &[u64],
    edition: u32,
    room: usize,
) -> Result<Vec<u32>, Refusal> {
    let Passed { slots, new, replaced } = check_new_rule(words, width, uncounted, rule, edition)?;
    let (a, b) = neighbours(&slots, &new, uncounted);
    let is_crossed = replaced.is_none() && a > b;
    if !is_crossed {
        return refuse(UNCROSSED, 0);
    }
    let writes = clearing_writes(&slots, &new, uncounted);
    check_room(&writes, room)?;
    Ok(writes)
}

/// What a clearing tells that is planned with a list; the list is treated as in the planning of an insert.
#[derive(Clone, Debug, PartialEq, Eq)]
pub struct ListedClearing {
    pub writes: Vec<u32>,
    pub refreshed: bool,
}

pub fn plan_clearing_listed(
    words: &[u64],
    width: usize,
    uncounted: bool,
    rule: &[u64],
    edition: u32,
    list: &mut [u16],
    room: usize,
) -> Result<ListedClearing, Refusal> {
    check_lent(words, width, rule, list)?;
    let writes = plan_clearing(words, width, uncounted, rule, edition, room)?;
    Ok(ListedClearing { writes, refreshed: refresh(list, words, width, uncounted)? })
}
