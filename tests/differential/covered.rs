// The names of what an insert tells of the rule that covers the new one, for the counts of a run.
// Beside whether there is one: what the rules of the table are to the new one, where a wrong comparison would tell another slot.

use crate::input::Input;
use reference::cover::{compare, obscures, Comparison};
use reference::given::Given;
use reference::plan::Planned;
use reference::table::{read_slots, Rule, Slot};

pub const COVERED: &str = "covered";
pub const UNCOVERED: &str = "uncovered";

/// Of a covered rule: both match the same keys; both have one action, in an uncounted table; a later slot has such a rule too; a write
/// of the plan goes to the slot.
const EQUAL_MATCH: &str = "covered, equal match";
const OWN_ACTION: &str = "covered, own action";
const SEVERAL: &str = "covered, by several";
const SLOT_WRITTEN: &str = "covered, slot written";

/// Of an uncovered one: a rule of the same rank would cover it, or one of a lower rank; it covers one of a higher rank.
const EQUAL_RANK: &str = "uncovered, but for equal rank";
const LOWER_RANK: &str = "uncovered, but for lower rank";
const COVERS_HIGHER: &str = "uncovered, covers a higher rule";

/// All of these names.
pub const KINDS: [&str; 7] = [EQUAL_MATCH, OWN_ACTION, SEVERAL, SLOT_WRITTEN, EQUAL_RANK, LOWER_RANK, COVERS_HIGHER];

/// Those that an accepted insert has.
pub fn kinds(input: &Input, planned: &Planned) -> Vec<&'static str> {
    let slots = read_slots(&input.table, input.width).expect("a planned table is sound");
    let given = Given::of_record(&input.rule, input.width);
    let new = given.ranked(input.width, input.edition).expect("a planned rule is sound");
    let holds: Vec<(&'static str, bool)> = match planned.covered {
        Some(slot) => of_covered(input, &slots, slot, &new, planned),
        None => of_uncovered(&slots, &new),
    };
    holds.into_iter().filter(|(_, holds)| *holds).map(|(kind, _)| kind).collect()
}

fn of_covered(input: &Input, slots: &[Slot], slot: usize, new: &Rule, planned: &Planned) -> Vec<(&'static str, bool)> {
    let rule = slots[slot].expect("a slot that is told has a rule");
    vec![
        (EQUAL_MATCH, rule.value == new.value && rule.mask == new.mask),
        (OWN_ACTION, input.is_uncounted() && rule.action == new.action),
        (SEVERAL, slots[slot + 1..].iter().flatten().any(|other| obscures(other, new))),
        (SLOT_WRITTEN, planned.writes.iter().any(|write| *write as usize % 65_536 == slot)),
    ]
}

fn of_uncovered(slots: &[Slot], new: &Rule) -> Vec<(&'static str, bool)> {
    let any = |test: &dyn Fn(&Rule) -> bool| slots.iter().flatten().any(test);
    let covers = |rule: &Rule| compare(rule, new) == Comparison::FirstCovers;
    vec![
        (EQUAL_RANK, any(&|rule| rule.rank == new.rank && covers(rule))),
        (LOWER_RANK, any(&|rule| rule.rank < new.rank && covers(rule))),
        (COVERS_HIGHER, any(&|rule| rule.rank > new.rank && compare(rule, new) == Comparison::SecondCovers)),
    ]
}
