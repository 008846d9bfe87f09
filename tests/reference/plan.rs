// How a plan is found: A, B, down and up costs, the choice, the chain, and the plan's words.
// The costs are written as the paper defines them, for one slot from those of the slots on its far side.

use crate::cover::covering_slot;
use crate::given::Given;
use crate::table::{
    check_shape, check_words, read_sound_table, record_words, refuse, Refusal, Rule, Slot, CROSSED, FULL, KNOWN, RULE, SHORT,
    TIE, UNKNOWN,
};

pub const PUT_IN: u32 = 65_535;
pub const EMPTYING: u32 = 65_534;

pub fn write_word(from: u32, to: usize) -> u32 {
    from * 65_536 + to as u32
}

/// `None` is the infinite cost.
pub type Cost = Option<usize>;

/// Down cost of each slot: "0 if empty, else 1 + the least down cost of the slots after it, up to and including the
/// nearest dependant of its rule, or up to N - 1 if there is none. Without such slots it is infinite."
pub fn down_costs(slots: &[Slot], uncounted: bool) -> Vec<Cost> {
    let mut costs = vec![None; slots.len()];
    for slot in (0..slots.len()).rev() {
        costs[slot] = match &slots[slot] {
            None => Some(0),
            Some(rule) => one_more(least_of(&costs, down_window(slots, slot, rule, uncounted))),
        };
    }
    costs
}

/// "Up cost is the mirror: slots before it, back to and including the nearest rule that precedes it, or to 0."
pub fn up_costs(slots: &[Slot], uncounted: bool) -> Vec<Cost> {
    let mut costs = vec![None; slots.len()];
    for slot in 0..slots.len() {
        costs[slot] = match &slots[slot] {
            None => Some(0),
            Some(rule) => one_more(least_of(&costs, up_window(slots, slot, rule, uncounted))),
        };
    }
    costs
}

/// The slots to which the rule of `slot` may go in a down plan, nearest first.
fn down_window(slots: &[Slot], slot: usize, rule: &Rule, uncounted: bool) -> Vec<usize> {
    let mut window = Vec::new();
    for after in slot + 1..slots.len() {
        window.push(after);
        if slots[after].is_some_and(|other| other.depends_on(rule, uncounted)) {
            break;
        }
    }
    window
}

/// The slots to which the rule of `slot` may go in an up plan, nearest first.
fn up_window(slots: &[Slot], slot: usize, rule: &Rule, uncounted: bool) -> Vec<usize> {
    let mut window = Vec::new();
    for before in (0..slot).rev() {
        window.push(before);
        if slots[before].is_some_and(|other| other.precedes(rule, uncounted)) {
            break;
        }
    }
    window
}

/// The slot of least finite cost in a window, with its cost; of equal costs the first in the window. Windows are listed
/// nearest first, rising for down and falling for up, so ties go to the lowest slot in a down plan and to the
/// highest in an up plan.
fn least_slot(costs: &[Cost], window: &[usize]) -> Option<(usize, usize)> {
    let mut least: Option<(usize, usize)> = None;
    for &slot in window {
        if let Some(cost) = costs[slot] {
            if least.map_or(true, |(_, least_cost)| cost < least_cost) {
                least = Some((slot, cost));
            }
        }
    }
    least
}

fn least_of(costs: &[Cost], window: Vec<usize>) -> Cost {
    least_slot(costs, &window).map(|(_, cost)| cost)
}

fn one_more(cost: Cost) -> Cost {
    cost.map(|cost| cost + 1)
}

/// The slots where the new rule goes, where the displaced rule goes, and so on to an empty slot.
fn chain_from(slots: &[Slot], start: usize, costs: &[Cost], window_of: impl Fn(usize, &Rule) -> Vec<usize>) -> Vec<usize> {
    let mut chain = vec![start];
    let mut slot = start;
    while let Some(rule) = &slots[slot] {
        let (next, _) = least_slot(costs, &window_of(slot, rule)).expect("a slot of finite cost has a next one");
        chain.push(next);
        slot = next;
    }
    chain
}

/// A, as -1 if none, and B, as N if none.
pub fn neighbours(slots: &[Slot], new: &Rule, uncounted: bool) -> (i64, i64) {
    let mut highest_preceding = -1;
    let mut lowest_dependant = slots.len() as i64;
    for (slot, entry) in slots.iter().enumerate() {
        if let Some(rule) = entry {
            if rule.precedes(new, uncounted) {
                highest_preceding = slot as i64;
            }
            if rule.depends_on(new, uncounted) && (slot as i64) < lowest_dependant {
                lowest_dependant = slot as i64;
            }
        }
    }
    (highest_preceding, lowest_dependant)
}

/// Where the new rule goes and the chain of slots behind it, for a rule that passes checks 1 to 10.
fn insert_chain(slots: &[Slot], uncounted: bool, a: i64, b: i64) -> Vec<usize> {
    let within = |slot: &i64| (0..slots.len() as i64).contains(slot);
    let down_range: Vec<usize> = (a + 1..=b).filter(within).map(|slot| slot as usize).collect();
    let up_range: Vec<usize> = (a..=b - 1).rev().filter(within).map(|slot| slot as usize).collect();
    let down = down_costs(slots, uncounted);
    let up = up_costs(slots, uncounted);
    let chain_down = |start| chain_from(slots, start, &down, |slot, rule| down_window(slots, slot, rule, uncounted));
    let chain_up = |start| chain_from(slots, start, &up, |slot, rule| up_window(slots, slot, rule, uncounted));
    match (least_slot(&down, &down_range), least_slot(&up, &up_range)) {
        (Some((start, down_cost)), Some((_, up_cost))) if down_cost <= up_cost => chain_down(start),
        (_, Some((start, _))) => chain_up(start),
        (Some((start, _)), None) => chain_down(start),
        (None, None) => panic!("an uncrossed rule has a slot of finite cost when one slot is empty"),
    }
}

/// The writes of an insert: "a plan lists the far end of its chain first, the new rule last".
fn writes_of_chain(chain: &[usize]) -> Vec<u32> {
    let mut writes = Vec::new();
    for link in (1..chain.len()).rev() {
        writes.push(write_word(chain[link - 1] as u32, chain[link]));
    }
    writes.push(write_word(PUT_IN, chain[0]));
    writes
}

/// What an accepted insert tells: its plan, and "the lowest slot of a higher-priority rule that alone covers the new one in the table
/// before the plan", or that there is none.
#[derive(Clone, Debug, PartialEq, Eq)]
pub struct Planned {
    pub writes: Vec<u32>,
    pub covered: Option<usize>,
}

/// Checks 1 to 11, 18 after 5, and what an insert that passes them tells; the new rule is a record, `room` is the length of the lent plan buffer, in words.
pub fn plan_insert(
    words: &[u64],
    width: usize,
    uncounted: bool,
    rule: &[u64],
    edition: u32,
    room: usize,
) -> Result<Planned, Refusal> {
    check_shape(words.len(), width)?;
    check_words(rule, record_words(width))?;
    let slots = read_sound_table(words, width, uncounted)?;
    let new = Given::of_record(rule, width).ranked(width, edition)?;
    let writes = insert_writes(&slots, &new, uncounted)?;
    if writes.len() > room {
        return refuse(SHORT, writes.len());
    }
    Ok(Planned { writes, covered: covering_slot(&slots, &new) })
}

/// The slot of the rule that a new one replaces: the lowest that holds an equal one, in an uncounted table one of the same action. A
/// sound counted table has no two.
pub fn replaced_slot(slots: &[Slot], new: &Rule, uncounted: bool) -> Option<usize> {
    slots.iter().position(|entry| entry.is_some_and(|rule| rule.is_replaced_by(new, uncounted)))
}

/// Checks 6 to 10 and the plan's words, for a sound table and a sound rule. "When an unknown id has a present rule's value, mask and
/// priority, the plan is one put-in at that slot", and 8 to 10 aren't asked; in an uncounted table one of another action "gives 8".
fn insert_writes(slots: &[Slot], new: &Rule, uncounted: bool) -> Result<Vec<u32>, Refusal> {
    let slot_where = |test: &dyn Fn(&Rule) -> bool| slots.iter().position(|entry| entry.as_ref().is_some_and(test));
    if let Some(slot) = slot_where(&|rule| rule.id == new.id) {
        return refuse(KNOWN, slot);
    }
    if let Some(slot) = replaced_slot(slots, new, uncounted) {
        return Ok(vec![write_word(PUT_IN, slot)]);
    }
    if let Some(slot) = slot_where(&|rule| rule.ties_with(new, uncounted)) {
        return refuse(TIE, slot);
    }
    if slots.iter().all(|entry| entry.is_some()) {
        return refuse(FULL, 0);
    }
    let (a, b) = neighbours(slots, new, uncounted);
    if a > b {
        return refuse(CROSSED, a as usize);
    }
    Ok(writes_of_chain(&insert_chain(slots, uncounted, a, b)))
}

/// Checks 1 to 4, 5, 7 and 11: "a delete is one emptying write".
pub fn plan_delete(words: &[u64], width: usize, uncounted: bool, id: u32, room: usize) -> Result<Vec<u32>, Refusal> {
    let slots = read_sound_table(words, width, uncounted)?;
    if id == 0 {
        return refuse(RULE, 0);
    }
    match slots.iter().position(|entry| entry.is_some_and(|rule| rule.id == id)) {
        None => refuse(UNKNOWN, 0),
        Some(_) if room < 1 => refuse(SHORT, 1),
        Some(slot) => Ok(vec![write_word(EMPTYING, slot)]),
    }
}
