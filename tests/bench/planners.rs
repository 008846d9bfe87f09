// The planners that are compared, by name; ours is the library itself.
// The priority-ordered firmware stands here too; documents 000's and 001's planners have files of their own.

use crate::fast_rule::{greedy, Way};
use crate::memory::{Chain, Memory, NoPlan, WIDTH};
use crate::rule_tris::shortest_moving_chain;
use crate::workload::Free;
use reference::given::EDITION_13;
use reference::table::{Rule, COUNTED, CROSSED};

#[derive(Clone, Copy, Debug, PartialEq, Eq, PartialOrd, Ord)]
pub enum Planner {
    Ours,
    RuleTris,
    FastRuleTwoWay,
    FastRuleOneWay,
    PriorityOrder,
}

pub const PLANNERS: [Planner; 5] =
    [Planner::Ours, Planner::RuleTris, Planner::FastRuleTwoWay, Planner::FastRuleOneWay, Planner::PriorityOrder];

impl Planner {
    pub fn name(self) -> &'static str {
        match self {
            Planner::Ours => "ours",
            Planner::RuleTris => "RuleTris",
            Planner::FastRuleTwoWay => "FastRule two-way",
            Planner::FastRuleOneWay => "FastRule one-way",
            Planner::PriorityOrder => "priority order",
        }
    }

    /// `free` says at which end the free space was, which is FastRule's one way.
    pub fn plan(self, memory: &Memory, new: &Rule, free: Free) -> Result<Chain, NoPlan> {
        match self {
            Planner::Ours => plan_by_library(memory, new),
            Planner::RuleTris => shortest_moving_chain(memory, new),
            Planner::FastRuleTwoWay => greedy_two_way(memory, new, Way::toward(free)),
            Planner::FastRuleOneWay => greedy(memory, new, Way::toward(free)),
            Planner::PriorityOrder => Ok(shift_by_priority(memory, new)),
        }
    }
}

/// Under 1.3, where a rule's rank is the priority that it is given with, as the papers' planners have it.
fn plan_by_library(memory: &Memory, new: &Rule) -> Result<Chain, NoPlan> {
    match support::calls::plan_insert(&memory.words, WIDTH, COUNTED, &new.record(WIDTH), EDITION_13) {
        Ok(planned) => Ok(planned.writes.iter().rev().map(|write| (write % 65_536) as usize).collect()),
        Err(refusal) if refusal.number == CROSSED => Err(NoPlan::Crossed),
        Err(refusal) => panic!("a workload has no insert that is refused with {refusal:?}"),
    }
}

/// Not in document 001: its greedy in both directions, the shorter chain taken, that of the one way if equal.
fn greedy_two_way(memory: &Memory, new: &Rule, one_way: Way) -> Result<Chain, NoPlan> {
    match (greedy(memory, new, one_way), greedy(memory, new, one_way.turned())) {
        (Ok(published), Ok(other)) => Ok(if other.len() < published.len() { other } else { published }),
        (Ok(chain), Err(_)) | (Err(_), Ok(chain)) => Ok(chain),
        (Err(no_plan), Err(_)) => Err(no_plan),
    }
}

/// The firmware that documents 000 (section V-A) and 001 (section II-B) start from: all rules stand in the order of their
/// priorities, overlapping or not. An empty slot within the new rule's range is taken; else every rule between the range
/// and the nearest empty slot moves one slot. Document 001 moves toward one end only; here both ends are tried and the
/// fewer writes taken, down if equal.
fn shift_by_priority(memory: &Memory, new: &Rule) -> Chain {
    let slots = &memory.slots;
    let count = slots.len();
    let first = slots.iter().rposition(|entry| entry.is_some_and(|rule| rule.rank > new.rank)).map_or(0, |slot| slot + 1);
    let end = slots.iter().position(|entry| entry.is_some_and(|rule| rule.rank < new.rank)).unwrap_or(count);
    if let Some(slot) = (first..end).find(|&slot| slots[slot].is_none()) {
        return vec![slot];
    }
    let down = (end..count).find(|&slot| slots[slot].is_none()).map(|empty| (end..=empty).collect::<Chain>());
    let up = (0..first).rev().find(|&slot| slots[slot].is_none()).map(|empty| (empty..first).rev().collect::<Chain>());
    match (down, up) {
        (Some(down), Some(up)) => {
            if up.len() < down.len() {
                up
            } else {
                down
            }
        }
        (Some(chain), None) | (None, Some(chain)) => chain,
        (None, None) => panic!("a workload leaves an empty slot for each insert"),
    }
}
