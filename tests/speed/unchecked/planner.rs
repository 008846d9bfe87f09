// Windows by the neighbour list, costs, the choice between the directions, and the chain's words.
// Position p is slot p going down, and the slot as far from the last one going up.

use crate::answers::{Record, PUT_IN, SLOTS_MOST};
use crate::neighbour_lists::Near;
use crate::records::{at, id_of, put};

pub type Column = [u16; SLOTS_MOST];

pub struct Choice {
    pub up: bool,
    pub cost: usize,
    pub position: usize,
}

/// One past the last position of a rule's window.
unsafe fn window_end(near: &Near, slots: usize, up: bool, slot: usize) -> usize {
    match usize::from(at(near, 2 * slot + usize::from(up))) {
        found if found >= slots => slots,
        found if up => slots - found,
        found => found + 1,
    }
}

/// For each position one past its window's last position, or 0 where the slot is empty.
unsafe fn fill_ends<const W: usize>(records: &[Record<W>], near: &Near, up: bool, ends: &mut Column) {
    let slots = records.len();
    let mut slot = 0;
    while slot < slots {
        let position = if up { slots - 1 - slot } else { slot };
        let end = if id_of(records.get_unchecked(slot)) == 0 { 0 } else { window_end(near, slots, up, slot) };
        put(ends, position, end as u16);
        slot += 1;
    }
}

unsafe fn least_between(costs: &Column, from: usize, to: usize, top: usize) -> u16 {
    let mut least = top as u16;
    let mut place = from;
    while place < to {
        least = least.min(at(costs, place));
        place += 1;
    }
    least
}

/// The least of a window's costs; its first, which may just have been stored, is read by itself.
unsafe fn least_in_window(costs: &Column, from: usize, to: usize, top: usize) -> u16 {
    if from >= to {
        return top as u16;
    }
    at(costs, from).min(least_between(costs, from + 1, to, top))
}

/// The costs of all positions along one direction, the last position first.
/// The least of all is kept, so that no window that runs to the last position is searched.
///
/// # Safety
/// There are 1 to 1,024 records.
pub unsafe fn fill_costs<const W: usize>(records: &[Record<W>], near: &Near, up: bool, ends: &mut Column, costs: &mut Column) {
    let slots = records.len();
    fill_ends(records, near, up, ends);
    let mut position = slots;
    let mut least = slots as u16;
    while position > 0 {
        position -= 1;
        let end = usize::from(at(ends, position));
        let cost = match end {
            0 => 0,
            _ if end == slots => least + 1,
            _ => least_in_window(costs, position + 1, end, slots) + 1,
        };
        put(costs, position, cost);
        least = least.min(cost);
    }
}

unsafe fn first_of_cost(costs: &Column, from: usize, to: usize, cost: usize) -> usize {
    let mut place = from;
    while place < to && usize::from(at(costs, place)) != cost {
        place += 1;
    }
    place
}

/// The least cost in a range of positions, and the first position that has it.
unsafe fn best_between(costs: &Column, slots: usize, from: usize, to: usize) -> (usize, usize) {
    let cost = usize::from(least_between(costs, from, to, slots));
    (cost, first_of_cost(costs, from, to, cost))
}

/// The direction and position of least cost; `after` is A + 1, `dependant` is B.
///
/// # Safety
/// Both are at most `slots`, which is at most 1,024.
pub unsafe fn choose(down: &Column, up: &Column, slots: usize, after: usize, dependant: usize) -> Choice {
    let (down_cost, down_position) = best_between(down, slots, after, slots.min(dependant + 1));
    let (up_cost, up_position) = best_between(up, slots, slots - dependant, slots - after.saturating_sub(1));
    if down_cost <= up_cost {
        return Choice { up: false, cost: down_cost, position: down_position };
    }
    Choice { up: true, cost: up_cost, position: up_position }
}

/// The chain's words, stored from the far end of the plan's front, and last the word that puts the new rule in.
///
/// # Safety
/// The plan has more words than the choice's cost.
pub unsafe fn write_plan(costs: &Column, slots: usize, choice: &Choice, plan: &mut [u32]) {
    let slot_at = |position: usize| if choice.up { slots - 1 - position } else { position } as u32;
    let mut position = choice.position;
    let mut left = choice.cost;
    while left > 0 {
        left -= 1;
        let next = first_of_cost(costs, position + 1, slots, left);
        put(plan, left, slot_at(position) << 16 | slot_at(next));
        position = next;
    }
    put(plan, choice.cost, PUT_IN << 16 | slot_at(choice.position));
}
