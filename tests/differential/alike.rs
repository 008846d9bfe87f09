// How like the rule of an input is to one that its table holds: equal, so that it replaces that one, or nearly so.
// Of a write that is carried out the slot that it goes to is asked, where its rule stands in no other.

use crate::input::{Call, Input};
use reference::bits::WIDTHS;
use reference::given::{Given, EDITION_13};
use reference::plan::{EMPTYING, PUT_IN};
use reference::table::{read_slots, record_words, Rule, Slot};

/// The same value, mask and rank; the same value and mask; the same value and rank.
pub const EQUAL: &str = "equal rule";
pub const ANOTHER_RANK: &str = "another rank";
pub const ANOTHER_MASK: &str = "another mask";

pub fn alike(call: Call, input: &Input) -> Option<&'static str> {
    if !WIDTHS.contains(&input.width) || input.rule.len() != record_words(input.width) {
        return None;
    }
    let slots = read_slots(&input.table, input.width).ok()?;
    match call {
        Call::PlanInsert => likest(&slots, &given(input)?),
        Call::CarryOut => {
            let write = *input.plan.get(input.done as usize)?;
            let (from, to) = (write / 65_536, write as usize % 65_536);
            let written = match from {
                PUT_IN | EMPTYING => given(input)?,
                _ => (*slots.get(from as usize)?)?,
            };
            let over = (*slots.get(to)?)?;
            let is_elsewhere = |(slot, entry): (usize, &Slot)| slot != to && entry.is_some_and(|rule| rule.id == over.id);
            if from as usize == to || slots.iter().enumerate().any(is_elsewhere) {
                return None;
            }
            likest(&[Some(over)], &written)
        }
        _ => None,
    }
}

/// The input's rule with its rank; under an edition that there is not, with its priority.
fn given(input: &Input) -> Option<Rule> {
    let given = Given::of_record(&input.rule, input.width);
    given.ranked(input.width, input.edition).or(given.ranked(input.width, EDITION_13)).ok()
}

fn likest(slots: &[Slot], new: &Rule) -> Option<&'static str> {
    let holds = |test: &dyn Fn(&Rule) -> bool| slots.iter().flatten().any(test);
    if holds(&|rule| rule.equals(new)) {
        Some(EQUAL)
    } else if holds(&|rule| rule.value == new.value && rule.mask == new.mask) {
        Some(ANOTHER_RANK)
    } else if holds(&|rule| rule.value == new.value && rule.rank == new.rank) {
        Some(ANOTHER_MASK)
    } else {
        None
    }
}
