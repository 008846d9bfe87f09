// Windows by the neighbour list, costs, the choice between the directions, and the chain's words.
// Position p is slot p going down, and the slot as far from the last one going up.

use crate::answers::{Record, PUT_IN, SLOTS_MOST};
use crate::neighbour_lists::Near;
use crate::records::id_of;

pub type Column = [u16; SLOTS_MOST];

pub struct Choice {
    pub up: bool,
    pub cost: usize,
    pub position: usize,
}

/// One past the last position of a rule's window.
fn window_end(near: &[Near], slots: usize, up: bool, slot: usize) -> usize {
    match usize::from(if up { near[slot].before } else { near[slot].next }) {
        found if found >= slots => slots,
        found if up => slots - found,
        found => found + 1,
    }
}

/// For each position one past its window's last position, or 0 where the slot is empty.
fn fill_ends<const W: usize>(records: &[Record<W>], near: &[Near], up: bool, ends: &mut Column) {
    let slots = records.len();
    for (slot, record) in records.iter().enumerate() {
        let position = if up { slots - 1 - slot } else { slot };
        ends[position] = if id_of(record) == 0 { 0 } else { window_end(near, slots, up, slot) as u16 };
    }
}

fn least_of(costs: &[u16], top: usize) -> u16 {
    costs.iter().fold(top as u16, |least, &cost| least.min(cost))
}

/// The least of a window's costs; its first, which may just have been stored, is read by itself.
fn least_in_window(window: &[u16], top: usize) -> u16 {
    match window.split_first() {
        None => top as u16,
        Some((&first, rest)) => first.min(least_of(rest, top)),
    }
}

/// The costs of all positions along one direction, the last position first.
/// The least of all is kept, so that no window that runs to the last position is searched.
pub fn costs_along<const W: usize>(records: &[Record<W>], near: &[Near], up: bool) -> Column {
    let slots = records.len();
    let mut ends = [0; SLOTS_MOST];
    fill_ends(records, near, up, &mut ends);
    let mut costs = [0; SLOTS_MOST];
    let mut least = slots as u16;
    for position in (0..slots).rev() {
        let end = usize::from(ends[position]);
        let cost = match end {
            0 => 0,
            _ if end == slots => least + 1,
            _ => least_in_window(&costs[position + 1..end], slots) + 1,
        };
        costs[position] = cost;
        least = least.min(cost);
    }
    costs
}

fn first_of_cost(costs: &[u16], from: usize, to: usize, cost: usize) -> usize {
    costs[from..to].iter().position(|&one| usize::from(one) == cost).map_or(to, |place| from + place)
}

/// The least cost in a range of positions, and the first position that has it.
fn best_between(costs: &[u16], slots: usize, from: usize, to: usize) -> (usize, usize) {
    let cost = usize::from(least_of(&costs[from..to], slots));
    (cost, first_of_cost(costs, from, to, cost))
}

/// The direction and position of least cost; `after` is A + 1, `dependant` is B.
pub fn choose(down: &Column, up: &Column, slots: usize, after: usize, dependant: usize) -> Choice {
    let (down_cost, down_position) = best_between(down, slots, after, slots.min(dependant + 1));
    let (up_cost, up_position) = best_between(up, slots, slots - dependant, slots - after.saturating_sub(1));
    if down_cost <= up_cost {
        return Choice { up: false, cost: down_cost, position: down_position };
    }
    Choice { up: true, cost: up_cost, position: up_position }
}

/// The chain's words, stored from the far end of the plan's front, and last the word that puts the new rule in.
pub fn write_plan(costs: &Column, slots: usize, choice: &Choice, plan: &mut [u32]) {
    let slot_at = |position: usize| if choice.up { slots - 1 - position } else { position } as u32;
    let mut position = choice.position;
    for left in (0..choice.cost).rev() {
        let next = first_of_cost(costs, position + 1, slots, left);
        plan[left] = slot_at(position) << 16 | slot_at(next);
        position = next;
    }
    plan[choice.cost] = PUT_IN << 16 | slot_at(choice.position);
}
