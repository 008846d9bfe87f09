// The comparison of two rules' patterns, place by place, and the slot whose rule covers a new one.
// What a pattern says at each bit is all that is looked at: ids, actions, and whether the table is counted, play no part.

use crate::bits::BITS_MOST;
use crate::table::{Rule, Slot};

/// What the patterns of two rules are to each other; "equal matches count as the first covering".
#[derive(Clone, Copy, Debug, PartialEq, Eq)]
pub enum Comparison {
    Apart,
    Overlapping,
    FirstCovers,
    SecondCovers,
}

/// The bit that a rule asks for at a place, or none where it doesn't care.
fn asked_at(rule: &Rule, place: usize) -> Option<bool> {
    rule.mask.is_set(place).then(|| rule.value.is_set(place))
}

/// A place where both ask for a bit, and not for the same one, lets no key match both.
fn are_apart(first: &Rule, second: &Rule) -> bool {
    let differ = |place: usize| asked_at(first, place).zip(asked_at(second, place)).is_some_and(|(one, other)| one != other);
    (0..BITS_MOST).any(differ)
}

/// Whether every key of the second matches the first: whatever the first asks for, the second asks for too.
fn covers(first: &Rule, second: &Rule) -> bool {
    (0..BITS_MOST).all(|place| asked_at(first, place).is_none_or(|bit| asked_at(second, place) == Some(bit)))
}

pub fn compare(first: &Rule, second: &Rule) -> Comparison {
    if are_apart(first, second) {
        Comparison::Apart
    } else if covers(first, second) {
        Comparison::FirstCovers
    } else if covers(second, first) {
        Comparison::SecondCovers
    } else {
        Comparison::Overlapping
    }
}

/// "A higher-priority rule that alone covers the new one", by rank.
pub fn obscures(rule: &Rule, new: &Rule) -> bool {
    rule.rank > new.rank && compare(rule, new) == Comparison::FirstCovers
}

/// "The lowest slot" of such a rule.
pub fn covering_slot(slots: &[Slot], new: &Rule) -> Option<usize> {
    slots.iter().position(|entry| entry.as_ref().is_some_and(|rule| obscures(rule, new)))
}
