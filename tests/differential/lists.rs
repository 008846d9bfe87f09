// How neighbour lists are made that are lent to a call: right, of the table some writes ago, with a number changed, of the other kind of
// table, of anything, or of another length. Beside them tables that only carrying out takes: out of order, with ties, ids in several slots.

use crate::input::{Call, Input};
use reference::carry::fits;
use reference::given::Given;
use reference::listed::{list_numbers, list_of, neighbour_list, NO_NEIGHBOUR};
use reference::plan::{plan_insert, write_word, EMPTYING, PUT_IN};
use reference::table::{read_slots, record_words, words_of, Slot, SLOTS_MOST};
use support::random::Random;

/// Whether there is a call with a list to be made beside the input's.
pub fn takes_list(call: Call) -> bool {
    matches!(call, Call::PlanInsert | Call::CarryOut | Call::InsertInFull | Call::DeleteInFull)
}

/// The most numbers of a lent list: twice those of a table of one slot too many.
pub const NUMBERS_MOST: usize = 4 * (SLOTS_MOST + 1);

/// Makes a table one that planning declines, in some ways of these: its slots in any order, ranks that tie, and one id in two or three
/// slots, of rules that differ.
pub fn disorder(random: &mut Random, table: &mut [Slot]) {
    for _ in 0..random.between(1, 3) {
        let few = random.between(1, 4);
        match random.below(4) {
            0 => random.shuffle(table),
            1 => table.reverse(),
            2 => table.iter_mut().flatten().for_each(|rule| rule.rank = random.below(few) as u64),
            _ => share_id(random, table),
        }
    }
}

fn share_id(random: &mut Random, table: &mut [Slot]) {
    let Some(rule) = table[random.below(table.len())] else { return };
    for _ in 0..random.between(1, 2) {
        if let Some(other) = &mut table[random.below(table.len())] {
            other.id = rule.id;
        }
    }
}

/// Another plan for half of the writes that are to be made: the rest of one that is half-way, with its list, or one write that fits.
pub fn make_fit(random: &mut Random, input: &mut Input) {
    if input.call != Call::CarryOut || random.one_in(3) && in_the_middle(random, input) {
        return;
    }
    if random.one_in(2) {
        fitting_write(random, input);
    }
}

/// Lends the input a list, if it has none yet, and tells how often a write in full is made without it.
pub fn lend_list(random: &mut Random, input: &mut Input) {
    input.list_left_out = random.pick(&[0, 0, 2, 3]);
    if input.list.is_some() {
        return;
    }
    let slots = input.table.len() / record_words(input.width);
    let mut list = match read_slots(&input.table, input.width) {
        Ok(slots) => made_list(random, &slots, input.is_uncounted()),
        Err(_) => any_numbers(random, slots.min(SLOTS_MOST + 1)),
    };
    if random.one_in(16) {
        let numbers = list.len();
        let other =
            [0, 1, numbers / 2, numbers.saturating_sub(1), numbers.saturating_sub(2), numbers + 1, numbers + 2, 2 * numbers];
        list.resize(random.pick(&other), NO_NEIGHBOUR);
    }
    input.list = Some(list);
}

/// The plan of the input's rule, made in part, with the list of the table as it was a few writes ago, or is now.
fn in_the_middle(random: &mut Random, input: &mut Input) -> bool {
    let uncounted = input.is_uncounted();
    let planned = plan_insert(&input.table, input.width, uncounted, &input.rule, input.edition, SLOTS_MOST);
    let Ok(planned) = planned else { return false };
    let mut slots = read_slots(&input.table, input.width).expect("a planned table is sound");
    let done = random.below(planned.writes.len());
    let list_at = done - random.below(done.min(3) + 1);
    for (made, write) in planned.writes[..done].iter().enumerate() {
        if made == list_at {
            input.list = Some(neighbour_list(&slots, uncounted));
        }
        slots[*write as usize % 65_536] = slots[*write as usize / 65_536];
    }
    if list_at == done {
        input.list = Some(neighbour_list(&slots, uncounted));
    }
    input.table = words_of(&slots, input.width);
    (input.done, input.total) = (done as u32, planned.writes.len() as u32);
    input.plan = planned.writes;
    true
}

/// A plan of one write that fits, if a few tries find one; most that are made for any table don't.
fn fitting_write(random: &mut Random, input: &mut Input) {
    let Ok(slots) = read_slots(&input.table, input.width) else { return };
    if input.rule.len() != record_words(input.width) {
        return;
    }
    let new = Given::of_record(&input.rule, input.width).ranked(input.width, input.edition).ok();
    for _ in 0..8 {
        let any = random.below(slots.len()) as u32;
        let write = write_word(random.pick(&[PUT_IN, EMPTYING, any, any]), random.below(slots.len()));
        if fits(&slots, write, new.as_ref()) {
            input.plan = vec![write];
            (input.done, input.total) = (0, 1);
            return;
        }
    }
}

/// A list of the table's length.
fn made_list(random: &mut Random, slots: &[Slot], uncounted: bool) -> Vec<u16> {
    let mut list = neighbour_list(slots, uncounted);
    match random.below(12) {
        0..=4 => {}
        5 | 6 => list = neighbour_list(&written(random, slots), uncounted),
        7 | 8 => change_number(random, &mut list),
        9 => exchange_numbers(random, &mut list),
        10 => list = neighbour_list(slots, !uncounted),
        _ => list = any_numbers(random, slots.len()),
    }
    list
}

/// The slots before or after a few writes: some are emptied, or hold what another does.
fn written(random: &mut Random, slots: &[Slot]) -> Vec<Slot> {
    let mut others = slots.to_vec();
    for _ in 0..random.between(1, 3) {
        let (from, to) = (random.below(slots.len()), random.below(slots.len()));
        others[to] = if random.one_in(3) { None } else { others[from] };
    }
    others
}

fn change_number(random: &mut Random, list: &mut [u16]) {
    let any = random.below(list.len());
    let place = random.pick(&[0, list.len() - 1, any, any, any]);
    list[place] = match random.below(6) {
        0 => NO_NEIGHBOUR,
        1 => list[place] ^ 1 << random.below(16),
        2 => list[place].wrapping_add(1),
        3 => list[place].wrapping_sub(1),
        4 => (place / 2) as u16,
        _ => random.below(list.len() / 2) as u16,
    };
}

/// The two numbers of one slot, or of all.
fn exchange_numbers(random: &mut Random, list: &mut [u16]) {
    let slot = random.below(list.len() / 2);
    let is_one = random.one_in(2);
    for (_, numbers) in list.chunks_exact_mut(2).enumerate().filter(|(other, _)| !is_one || *other == slot) {
        numbers.swap(0, 1);
    }
}

fn any_numbers(random: &mut Random, slots: usize) -> Vec<u16> {
    let bound = if random.one_in(2) { 65_536 } else { slots + 1 };
    let one = random.below(bound) as u16;
    let is_one = random.one_in(4);
    (0..list_numbers(slots)).map(|_| if is_one { one } else { random.below(bound) as u16 }).collect()
}

/// The right list of the input's table, where it has one; for a smaller input.
pub fn right_list(input: &Input) -> Option<Vec<u16>> {
    list_of(&input.table, input.width, input.is_uncounted()).ok()
}
