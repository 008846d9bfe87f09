// RuleTris's update scheduler: document 000, section V-A, algorithm 1 (shortest moving chain search).
// The paper's addresses run the other way: its r_succ is the rule at slot A of document 01, its r_pre the one at B.

use crate::memory::{Chain, Memory, NoPlan};
use reference::table::Rule;

/// "move" and "prev" of the algorithm, for each slot: writes up to and with the one into the slot, and the slot whose rule
/// goes there (none: the new rule).
#[derive(Clone, Copy)]
struct Best {
    moves: usize,
    prev: Option<usize>,
}

const NEVER: usize = usize::MAX;

/// An empty slot within the new rule's range is taken first, the lowest (the paper names none). Else the dynamic programme
/// runs both ways to the closest empty slots beyond A and B. Where both ends take as many moves the one at r_pre's side is
/// returned, as in line 29; the text of the section says "on a random basis".
pub fn shortest_moving_chain(memory: &Memory, new: &Rule) -> Result<Chain, NoPlan> {
    let slots = memory.slots.len();
    let (a, b) = (memory.highest_preceding(new), memory.lowest_dependant(new));
    let first = a.map_or(0, |a| a + 1);
    let end = b.unwrap_or(slots);
    if first > end {
        return Err(NoPlan::Crossed);
    }
    if let Some(slot) = (first..end).find(|&slot| memory.slots[slot].is_none()) {
        return Ok(vec![slot]);
    }
    let is_empty = |slot: &usize| memory.slots[*slot].is_none();
    let up_end = a.and_then(|a| (0..a).rev().find(is_empty));
    let down_end = b.and_then(|b| (b + 1..slots).find(is_empty));
    let mut best = vec![Best { moves: NEVER, prev: None }; slots];
    for slot in a.unwrap_or(0)..=b.unwrap_or(slots - 1) {
        best[slot].moves = 1;
    }
    if let Some(up_end) = up_end {
        for from in (up_end + 1..end).rev() {
            let limit = memory.nearest_preceding(from).unwrap_or(0).max(up_end);
            offer(&mut best, from, limit..from);
        }
    }
    if let Some(down_end) = down_end {
        for from in first..down_end {
            let limit = memory.nearest_dependant(from).unwrap_or(slots).min(down_end);
            offer(&mut best, from, from + 1..limit + 1);
        }
    }
    let moves_to = |slot: Option<usize>| slot.map_or(NEVER, |slot| best[slot].moves);
    let goal = if moves_to(up_end) < moves_to(down_end) { up_end } else { down_end };
    backtrack(&best, goal.expect("one slot is empty"))
}

/// The rule in slot `from` may go to each slot of `range`.
fn offer(best: &mut [Best], from: usize, range: std::ops::Range<usize>) {
    if best[from].moves == NEVER {
        return;
    }
    for to in range {
        if best[to].moves > best[from].moves + 1 {
            best[to] = Best { moves: best[from].moves + 1, prev: Some(from) };
        }
    }
}

fn backtrack(best: &[Best], goal: usize) -> Result<Chain, NoPlan> {
    let mut chain = vec![goal];
    let mut slot = goal;
    while let Some(prev) = best[slot].prev {
        chain.push(prev);
        slot = prev;
    }
    chain.reverse();
    assert_eq!(chain.len(), best[goal].moves);
    Ok(chain)
}
