// Inputs at the edges of the largest table: its last slot decides the answer, or a plan goes over all its slots.
// Few other tables have 1,024 slots, and what is asked of them is seldom decided there.
// Where an edge does not say what the table is told as, it is counted or not: no two rules have one action then.

use crate::actions::flag;
use crate::input::{Call, Input};
use crate::make::{group_number, group_place, EVERY_GROUP};
use reference::bits::Bits;
use reference::given::{EDITION_10, EDITION_13};
use reference::image::{image_bytes, image_of};
use reference::plan::{plan_insert, write_word, EMPTYING, PUT_IN};
use reference::table::{words_of, Rule, Slot, EXACT_RANK, PRIORITY_MOST, SLOTS_MOST};
use support::random::Random;

pub const LAST: usize = SLOTS_MOST - 1;

/// Plans of this many writes and more are counted as long.
pub const LONG: usize = SLOTS_MOST - 22;

#[derive(Clone, Copy)]
enum Edge {
    /// The call asks for what stands in the last slot, and gets it.
    Wanted,
    /// The last slot's record is unsound.
    Record,
    /// The last slot has the id of another.
    Twice,
    /// The last slot's rule is out of order with one other.
    Order,
    /// The new rule has the last slot's id.
    Known,
    /// The new rule overlaps that of the last slot at equal rank.
    Tie,
    /// The new rule has value, mask and rank of that of the last slot; no slot is empty.
    Replaced,
    /// Only the last slot's rule covers the new one, and its rank is higher.
    Covered,
    /// Only the last slot's rule precedes the new one, and one that depends on the new one stands before it.
    Crossed,
    /// As `Order`, `Tie` and `Crossed`, but the two rules have one action and the table is uncounted.
    OrderSpared,
    TieSpared,
    CrossedSpared,
    /// Only the last slot is empty, and the new rule goes there.
    PutIn,
    /// Only the last slot is empty, and a rule is copied there.
    Copied,
    /// The last slot has the only other copy of a rule that is written over.
    WrittenOver,
    /// The plan copies all rules toward higher slots, or nearly all.
    Down {
        nearly: bool,
    },
    /// The same toward lower slots.
    Up {
        nearly: bool,
    },
    /// As `Down`, with a buffer that is one word too short.
    Short,
}

/// The kinds of these inputs, taken in turn.
const KINDS: &[(Call, Edge)] = &[
    (Call::Lookup, Edge::Wanted),
    (Call::PlanInsert, Edge::Down { nearly: false }),
    (Call::PlanInsert, Edge::Up { nearly: false }),
    (Call::PlanInsert, Edge::Down { nearly: true }),
    (Call::PlanInsert, Edge::Up { nearly: true }),
    (Call::PlanInsert, Edge::Short),
    (Call::PlanInsert, Edge::Record),
    (Call::PlanInsert, Edge::Twice),
    (Call::PlanInsert, Edge::Order),
    (Call::PlanInsert, Edge::Known),
    (Call::PlanInsert, Edge::Tie),
    (Call::PlanInsert, Edge::Replaced),
    (Call::PlanInsert, Edge::Covered),
    (Call::PlanInsert, Edge::Crossed),
    (Call::PlanInsert, Edge::PutIn),
    (Call::PlanInsert, Edge::OrderSpared),
    (Call::PlanInsert, Edge::TieSpared),
    (Call::PlanInsert, Edge::CrossedSpared),
    (Call::Lookup, Edge::Record),
    (Call::SlotRecord, Edge::Wanted),
    (Call::SlotRecord, Edge::Record),
    (Call::PlanDelete, Edge::Wanted),
    (Call::PlanDelete, Edge::Record),
    (Call::PlanDelete, Edge::Twice),
    (Call::PlanDelete, Edge::Order),
    (Call::PlanDelete, Edge::OrderSpared),
    (Call::CarryOut, Edge::Wanted),
    (Call::CarryOut, Edge::Record),
    (Call::CarryOut, Edge::PutIn),
    (Call::CarryOut, Edge::Replaced),
    (Call::CarryOut, Edge::Copied),
    (Call::CarryOut, Edge::WrittenOver),
    (Call::CarryOut, Edge::Down { nearly: false }),
    (Call::CarryOut, Edge::Up { nearly: false }),
    (Call::Save, Edge::Wanted),
    (Call::Save, Edge::Record),
    (Call::Save, Edge::Twice),
    (Call::Save, Edge::Order),
    (Call::Save, Edge::OrderSpared),
    (Call::Load, Edge::Wanted),
    (Call::Load, Edge::Record),
    (Call::Load, Edge::Twice),
    (Call::Load, Edge::Order),
    (Call::Load, Edge::OrderSpared),
];

impl Edge {
    /// Whether the flag spares the call what the last slot would make it decline with.
    fn is_spared(self) -> bool {
        matches!(self, Edge::OrderSpared | Edge::TieSpared | Edge::CrossedSpared)
    }
}

pub fn make_largest(random: &mut Random, width: usize, turn: usize) -> Input {
    let (call, edge) = KINDS[turn % KINDS.len()];
    let mut input = Input::new(call, width, Vec::new(), random.one_in(2));
    let uncounted = edge.is_spared() || random.one_in(2);
    input.uncounted = flag(random, uncounted);
    match edge {
        Edge::Down { nearly } => long_plan(random, input, true, nearly),
        Edge::Up { nearly } => long_plan(random, input, false, nearly),
        Edge::Short => {
            let mut input = long_plan(random, input, true, false);
            input.call = Call::PlanInsert;
            input.room = LAST;
            input
        }
        _ => last_slot(random, input, edge),
    }
}

fn shuffled_ids(random: &mut Random) -> Vec<u32> {
    let mut ids: Vec<u32> = (1..=SLOTS_MOST as u32).collect();
    random.shuffle(&mut ids);
    ids
}

/// An id that none of these tables has.
const NEW_ID: u32 = SLOTS_MOST as u32 + 1;

/// A table in which each rule overlaps its neighbours, with one empty slot, and a new rule that belongs between two of its
/// rules: all rules from there to the empty slot have to move.
fn long_plan(random: &mut Random, mut input: Input, down: bool, nearly: bool) -> Input {
    let spared = if nearly { random.between(1, SLOTS_MOST - LONG) } else { 0 };
    let spared_first = random.below(spared + 1);
    let (place, hole) =
        if down { (spared_first, LAST - (spared - spared_first)) } else { (SLOTS_MOST - (spared - spared_first), spared_first) };
    let (mut table, new) = chain(random, input.width, place);
    table[hole] = None;
    input.table = words_of(&table, input.width);
    give(random, &mut input, new);
    let writes = SLOTS_MOST - spared;
    input.room = random.pick(&[writes, SLOTS_MOST, SLOTS_MOST + 1]);
    if input.call == Call::CarryOut {
        carried_far(random, &mut input, table);
    } else if random.one_in(8) {
        input.call = Call::InsertInFull;
        input.keys = [new.value, random.bits(input.width)].map(|key| key.words(input.width).to_vec()).to_vec();
    }
    input
}

/// Hands the call a rule that gets its rank in the table: 65,536 under 1.0 from any priority, another under 1.3 or, where the rule has
/// wildcards, under either edition.
fn give(random: &mut Random, input: &mut Input, rule: Rule) {
    let given_with = |priority: u64| Rule { rank: priority, ..rule }.record(input.width);
    (input.rule, input.edition) = if rule.rank == EXACT_RANK {
        (given_with(random.below(PRIORITY_MOST as usize + 1) as u64), EDITION_10)
    } else if rule.mask == Bits::all(input.width) {
        (given_with(rule.rank), EDITION_13)
    } else {
        (given_with(rule.rank), random.pick(&[EDITION_10, EDITION_13]))
    };
}

/// Rules in all slots, each of which overlaps the next: either all overlap, or only neighbours, since each rule cares for all
/// bits of a Gray code but the one that changes toward the next. The new rule overlaps those on both sides of its place.
fn chain(random: &mut Random, width: usize, place: usize) -> (Vec<Slot>, Rule) {
    let ids = shuffled_ids(random);
    let highest = random.pick(&[2 * SLOTS_MOST - 1, 40_000, 65_534]);
    let first_bit = random.below(64 * width - CODE_BITS);
    let all: usize = if random.one_in(2) { 0 } else { (1 << CODE_BITS) - 1 };
    let code = |number: usize| number ^ number >> 1;
    let mut rule = |id: u32, rank: usize, value: usize, mask: usize| {
        let bits = |number: usize| Bits::number(first_bit, CODE_BITS, number);
        Rule { id, rank: rank as u64, value: bits(value & mask), mask: bits(mask), action: random.word() as u32 }
    };
    let new = rule(NEW_ID, highest + 1 - 2 * place, code(place), all);
    let mut slots = Vec::new();
    for (slot, id) in ids.into_iter().enumerate() {
        slots.push(Some(rule(id, highest - 2 * slot, code(slot), all & !(code(slot) ^ code(slot + 1)))));
    }
    (slots, new)
}

/// Bits of a Gray code of all slots and one more.
const CODE_BITS: usize = 11;

/// The plan of the input's rule, carried out up to one of its last three writes.
fn carried_far(random: &mut Random, input: &mut Input, mut table: Vec<Slot>) {
    let plan = plan_insert(&input.table, input.width, input.is_uncounted(), &input.rule, input.edition, SLOTS_MOST);
    input.plan = plan.expect("the rule has its place").writes;
    let writes = input.plan.len();
    let done = random.between(writes - 3, writes - 1);
    for &write in &input.plan[..done] {
        table[write as usize % 65_536] = table[write as usize / 65_536];
    }
    input.table = words_of(&table, input.width);
    (input.done, input.total) = (done as u32, writes as u32);
}

/// A table of rules that are all apart, in which the last slot decides what the call answers.
fn last_slot(random: &mut Random, mut input: Input, edge: Edge) -> Input {
    let place = group_place(random, input.width);
    let mut table = apart(random, input.width, place);
    let last = table[LAST].expect("the last slot has a rule");
    let other = random.below(LAST);
    let has_one_action = edge.is_spared() || matches!(edge, Edge::Replaced) && input.is_uncounted();
    let mut new = Rule { id: NEW_ID, action: if has_one_action { last.action } else { !last.action }, ..last };
    spoil(random, &mut table, edge, (input.width, other));
    match edge {
        Edge::Known => new.id = last.id,
        Edge::Covered => new.rank -= 1,
        Edge::Tie | Edge::TieSpared => tie(random, &mut table, &mut new, (input.width, place)),
        Edge::Crossed | Edge::CrossedSpared => cross(random, &mut table, &mut new, (input.width, place)),
        _ => {}
    }
    if edge.is_spared() || matches!(edge, Edge::Covered) {
        // for the new rule; the slot of neither rule
        table[(other + 1) % LAST] = None;
    }
    input.room = SLOTS_MOST;
    give(random, &mut input, new);
    input.table = words_of(&table, input.width);
    fill_in(random, &mut input, edge, &table, (&last, other));
    input
}

/// What the call needs beside the table; the last slot had the rule `last` before it was spoiled.
fn fill_in(random: &mut Random, input: &mut Input, edge: Edge, table: &[Slot], (last, other): (&Rule, usize)) {
    match input.call {
        Call::Lookup => {
            let key = last.value | random.bits(input.width) & !last.mask;
            input.keys = vec![key.words(input.width).to_vec()];
        }
        Call::SlotRecord => input.slot = LAST as u32,
        Call::PlanDelete => input.id = last.id,
        Call::CarryOut => {
            input.plan = vec![match edge {
                Edge::Copied => write_word(other as u32, LAST),
                Edge::WrittenOver => write_word(other as u32 ^ 1, other),
                Edge::PutIn | Edge::Replaced => write_word(PUT_IN, LAST),
                _ => write_word(EMPTYING, LAST),
            }];
            input.total = 1;
        }
        Call::Save => input.room = image_bytes(input.width, SLOTS_MOST),
        Call::Load => {
            input.image = image_of(table, input.width);
            input.table.iter_mut().for_each(|word| *word = random.any_word());
        }
        _ => {}
    }
}

/// A rule in every slot, each with a number of its own at the same bits. In every other table all rules are exact, and alike at the
/// other bits; half of them have rank 65,536, as where some were inserted under 1.0 and some under 1.3.
fn apart(random: &mut Random, width: usize, place: usize) -> Vec<Slot> {
    let ids = shuffled_ids(random);
    let turned = random.below(SLOTS_MOST);
    let numbers = group_number(place, EVERY_GROUP);
    let mask = if random.one_in(2) { Bits::all(width) } else { numbers };
    let elsewhere = random.bits(width) & mask & !numbers;
    let mut rule = |slot: usize, id: u32| {
        let priority = random.between(1, 65_534) as u64;
        let rank = if mask == Bits::all(width) && random.one_in(2) { EXACT_RANK } else { priority };
        let value = group_number(place, slot ^ turned) | elsewhere;
        Some(Rule { id, rank, value, mask, action: random.word() as u32 })
    };
    ids.into_iter().enumerate().map(|(slot, id)| rule(slot, id)).collect()
}

/// A bit that a mask has or, where it is to be outside, has not.
fn bit_of(random: &mut Random, width: usize, mask: Bits, outside: bool) -> Bits {
    loop {
        let bit = Bits::at(random.below(64 * width));
        if (bit & mask).is_none() == outside {
            return bit;
        }
    }
}

/// Changes the last slot as the edge says; `other` is the slot that it is at odds with.
fn spoil(random: &mut Random, table: &mut [Slot], edge: Edge, (width, other): (usize, usize)) {
    let rule = table[other].expect("every slot has a rule");
    let last = table[LAST].as_mut().expect("every slot has a rule");
    match edge {
        Edge::Record => match random.below(3) {
            0 => last.id = 0,
            1 if last.mask == Bits::all(width) => last.rank = EXACT_RANK + 1,
            1 => last.rank = EXACT_RANK,
            _ => spoil_pattern(random, last, width),
        },
        Edge::Twice => last.id = rule.id,
        Edge::Order | Edge::OrderSpared => {
            last.action = if edge.is_spared() { rule.action } else { last.action };
            last.value = rule.value;
            last.rank = rule.rank + if rule.rank < PRIORITY_MOST { random.below(2) as u64 } else { 0 };
        }
        Edge::WrittenOver => table[LAST] = Some(rule),
        Edge::Copied | Edge::PutIn => table[LAST] = None,
        _ => {}
    }
}

/// Sets a value bit outside the mask. A rule with every mask bit set has none: it loses a mask bit whose value is 1 or, at rank 65,536,
/// any bit of mask and value.
fn spoil_pattern(random: &mut Random, rule: &mut Rule, width: usize) {
    if rule.mask != Bits::all(width) {
        rule.value ^= bit_of(random, width, rule.mask, true);
        return;
    }
    let any = if rule.rank == EXACT_RANK { rule.mask } else { rule.value };
    let bit = bit_of(random, width, any, false);
    rule.mask ^= bit;
    if rule.rank == EXACT_RANK {
        rule.value &= rule.mask;
    }
}

/// Gives the new rule, which has the last slot's pattern, one cared-for bit more or less, outside the numbers, and both the same
/// priority for their rank.
fn tie(random: &mut Random, table: &mut [Slot], new: &mut Rule, (width, place): (usize, usize)) {
    new.mask ^= bit_of(random, width, group_number(place, EVERY_GROUP), true);
    new.value &= new.mask;
    new.rank = new.rank.min(PRIORITY_MOST);
    table[LAST].as_mut().expect("every slot has a rule").rank = new.rank;
}

/// Takes one bit of the numbers out of the new rule, which has the last slot's pattern, so that it overlaps a second rule; the last
/// slot's then precedes it, and the second depends on it. Slot 0, whose number has no bit of the last one's, is emptied.
fn cross(random: &mut Random, table: &mut [Slot], new: &mut Rule, (width, place): (usize, usize)) {
    new.mask ^= bit_of(random, width, group_number(place, EVERY_GROUP), false);
    new.value &= new.mask;
    new.rank = new.rank.min(PRIORITY_MOST - 1);
    table[0] = None;
    for (slot, rule) in table.iter_mut().enumerate() {
        if let Some(rule) = rule.as_mut().filter(|rule| rule.overlaps(new)) {
            rule.rank = if slot == LAST { new.rank + 1 } else { new.rank - 1 };
        }
    }
}
