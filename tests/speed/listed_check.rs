// The cross-check of the calls with a neighbour list: their results, buffers and cells are those of our calls without one. The list
// that a call leaves, and the cell that tells of the one that it was lent, are held to a list worked out slot by slot.

use crate::inputs::{perform, Input, Lent};
use crate::listed::REFRESHED;
use crate::versions::{Call, Version};
use reference::bits::WIDTHS;
use reference::table::{read_slots, record_words, Slot};
use std::collections::BTreeSet;

/// What a list has where there is no neighbour.
const NO_NUMBER: u16 = 65_535;
/// The calls that take a list.
pub const LISTED_CALLS: [Call; 2] = [Call::PlanInsert, Call::CarryOut];

/// What became of a list that was lent.
#[derive(Clone, Copy, Debug, PartialEq, Eq, PartialOrd, Ord)]
enum Told {
    Right,
    Refreshed,
    /// Left as it was by a refusal, by "finished", and by a refusal for its length.
    Declined,
    Finished,
    Misshaped,
}

#[derive(Default)]
pub struct Tally {
    compared: usize,
    different: usize,
    /// By width, call, and whether the table is uncounted.
    reached: BTreeSet<(usize, Call, bool, Told)>,
}

/// The list of a table that passes check 2, from the words of document 02: the nearest dependant's slot after each, then the nearest
/// preceding rule's before it; a rule's own copies are skipped.
fn list_of(table: &[u64], width: usize, uncounted: bool) -> Option<Vec<u16>> {
    let slots = read_slots(table, width).ok()?;
    let precedes = |one: &Slot, other: &Slot| match (one, other) {
        (Some(one), Some(other)) => one.id != other.id && one.precedes(other, uncounted),
        _ => false,
    };
    let number = |slot: Option<usize>| slot.map_or(NO_NUMBER, |slot| slot as u16);
    let mut list = Vec::with_capacity(2 * slots.len());
    for (slot, entry) in slots.iter().enumerate() {
        let dependant = (slot + 1..slots.len()).find(|&other| precedes(entry, &slots[other]));
        let preceding = (0..slot).rev().find(|&other| precedes(&slots[other], entry));
        list.extend([number(dependant), number(preceding)]);
    }
    Some(list)
}

fn list_lent(table: &[u64], input: &Input) -> Option<Vec<u16>> {
    list_of(table, input.given as usize, input.uncounted != 0)
}

/// How many numbers a list of the input's table has, at the width given.
fn numbers(input: &Input) -> usize {
    let width = WIDTHS.into_iter().find(|&width| width == input.given as usize).unwrap_or(input.width);
    2 * (input.table.len() / record_words(width))
}

/// Compares the calls with a list on an input without one.
pub fn compare(ours: &Version, input: &Input, tally: &mut Tally) {
    let mut lent = Lent::new(input);
    let result = perform(ours, input, &mut lent);
    let before = list_lent(&input.table, input);
    let after = if result == 0 { list_lent(&lent.table, input) } else { None };
    // a table that does not pass check 2 has no list: any of that length will do
    let right = before.clone().unwrap_or_else(|| vec![0; numbers(input)]);
    for list in lists_to_lend(&right) {
        let mut wanted = Lent { list: list.clone(), ..lent.clone() };
        if let (Some(before), Some(after)) = (&before, &after) {
            wanted.cells[REFRESHED] = u32::from(list != *before);
            wanted.list = after.clone();
        }
        check(input, list, (result, &wanted), tally);
    }
    for list in lists_misshaped(&right) {
        let mut wanted = Lent { list: list.clone(), ..Lent::new(input) };
        if input.call == Call::PlanInsert {
            wanted.cells[2] = 0;
        }
        check(input, list, (1, &wanted), tally);
    }
}

/// The table's list, and the same with one number another: the first, one in the middle, the last.
fn lists_to_lend(right: &[u16]) -> Vec<Vec<u16>> {
    let mut lists = vec![right.to_vec()];
    for place in BTreeSet::from([0, right.len() / 2, right.len().saturating_sub(1)]) {
        let mut list = right.to_vec();
        if let Some(number) = list.get_mut(place) {
            *number ^= 1;
            lists.push(list);
        }
    }
    lists
}

/// One number more, one less, one number for each slot, none.
fn lists_misshaped(right: &[u16]) -> Vec<Vec<u16>> {
    let lengths = [right.len() + 1, right.len().saturating_sub(1), right.len() / 2, 0];
    let resized = |length: usize| right.iter().copied().chain([NO_NUMBER]).take(length).collect();
    lengths.into_iter().filter(|&length| length != right.len()).map(resized).collect()
}

fn check(input: &Input, list: Vec<u16>, (result, wanted): (u64, &Lent), tally: &mut Tally) {
    let listed = Input { list: Some(list), ..input.clone() };
    let mut lent = Lent::new(&listed);
    let found = crate::listed::perform(&listed, &mut lent);
    tally.compared += 1;
    if found != result || lent != *wanted {
        tally.different += 1;
        if tally.different <= 5 {
            report(&listed, (result, wanted), (found, &lent));
        }
    }
    let told = match found {
        0 if lent.cells[REFRESHED] == 0 => Told::Right,
        0 => Told::Refreshed,
        0xffff_ffff => Told::Finished,
        _ if listed.list.is_some_and(|list| list.len() != numbers(input)) => Told::Misshaped,
        _ => Told::Declined,
    };
    tally.reached.insert((input.width, input.call, input.uncounted != 0, told));
}

fn report(input: &Input, wanted: (u64, &Lent), found: (u64, &Lent)) {
    println!("speed: {} with a list differs, {} words, made at width {}:", input.call.name(), input.table.len(), input.width);
    println!("  width {}, flag {} and edition {} given", input.given, input.uncounted, input.edition);
    println!("  wanted {:#x}, cells {:x?}, done {}", wanted.0, wanted.1.cells, wanted.1.done);
    println!("  found {:#x}, cells {:x?}, done {}", found.0, found.1.cells, found.1.done);
    let place = wanted.1.list.iter().zip(&found.1.list).position(|(wanted, found)| wanted != found);
    println!(
        "  list: first difference at {place:?}; table: {}; plan: {}",
        wanted.1.table != found.1.table,
        wanted.1.plan != found.1.plan
    );
}

impl Tally {
    pub fn told(&self) -> bool {
        let mut missing = 0;
        for (width, call) in WIDTHS.into_iter().flat_map(|width| LISTED_CALLS.map(|call| (width, call))) {
            let mut all = vec![Told::Right, Told::Refreshed, Told::Declined, Told::Misshaped];
            all.extend((call == Call::CarryOut).then_some(Told::Finished));
            for (uncounted, told) in [false, true].into_iter().flat_map(|flag| all.iter().map(move |&told| (flag, told))) {
                if !self.reached.contains(&(width, call, uncounted, told)) {
                    println!("speed: {} at width {width}, uncounted: {uncounted}, with a list: never {told:?}", call.name());
                    missing += 1;
                }
            }
        }
        println!("speed: self-check: lists: {} comparisons, {} differences", self.compared, self.different);
        self.different == 0 && missing == 0
    }
}
