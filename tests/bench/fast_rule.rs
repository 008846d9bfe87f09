// FastRule's greedy planner: document 001, section IV, algorithm 2 with the metric of definition 1 (algorithm 1).
// The paper's addresses run from the losing end to the winning one, so its one way is up here, toward lower slots.

use crate::memory::{Chain, Memory, NoPlan};
use crate::workload::Free;
use reference::table::Rule;

/// Up is the way of the paper's text, with the free space at the winning end; down is its mirror, for free space at the
/// losing end ("top or bottom, depending on the arrangement", section V-A).
#[derive(Clone, Copy, Debug, PartialEq, Eq)]
pub enum Way {
    Up,
    Down,
}

impl Way {
    pub fn toward(free: Free) -> Way {
        match free {
            Free::First => Way::Up,
            Free::Last => Way::Down,
        }
    }

    pub fn turned(self) -> Way {
        match self {
            Way::Up => Way::Down,
            Way::Down => Way::Up,
        }
    }
}

/// The metric M: the number of rules on the path from a slot's rule that always goes on to the nearest rule it depends
/// on (going down: the nearest that depends on it) and ends at a rule without one. An empty slot has 0. Computed on
/// demand, each slot once.
struct Metric<'a> {
    memory: &'a Memory,
    way: Way,
    known: Vec<Option<usize>>,
}

impl Metric<'_> {
    fn of(&mut self, slot: usize) -> usize {
        if self.memory.slots[slot].is_none() {
            return 0;
        }
        if let Some(metric) = self.known[slot] {
            return metric;
        }
        let next = self.memory.nearest(slot, self.way);
        let metric = 1 + next.map_or(0, |next| self.of(next));
        self.known[slot] = Some(metric);
        metric
    }

    /// The candidate of least metric, by "M(k) <= h" (lines 5 to 9) the last of equals, which several empty ones are too.
    /// An empty one is looked for first since its metric is 0 and a rule's at least 1: then no path need be followed.
    fn last_of_least(&mut self, candidates: &[usize]) -> Option<usize> {
        let empty = candidates.iter().rev().find(|&&slot| self.memory.slots[slot].is_none());
        empty.copied().or_else(|| candidates.iter().rev().copied().min_by_key(|&slot| self.of(slot)))
    }
}

impl Memory {
    fn nearest(&self, slot: usize, way: Way) -> Option<usize> {
        match way {
            Way::Up => self.nearest_preceding(slot),
            Way::Down => self.nearest_dependant(slot),
        }
    }

    /// The slots from beside `slot` to `limit`, or to the memory's end, in the order of the way.
    fn beyond(&self, slot: Option<usize>, limit: Option<usize>, way: Way) -> Vec<usize> {
        match way {
            Way::Up => (limit.unwrap_or(0)..slot.unwrap_or(self.slots.len())).rev().collect(),
            Way::Down => (slot.map_or(0, |slot| slot + 1)..limit.map_or(self.slots.len(), |limit| limit + 1)).collect(),
        }
    }
}

/// Candidates for the new rule are the slots past f_a's up to and with f_b's, for a displaced rule those past its own
/// up to and with that of the nearest rule it depends on, or to the memory's end if there is none.
/// The chain ends where an empty slot is taken, as in figure 3 and proof 2; by line 10 alone it would end at a rule that
/// depends on none, and lose that rule.
pub fn greedy(memory: &Memory, new: &Rule, way: Way) -> Result<Chain, NoPlan> {
    let (a, b) = (memory.highest_preceding(new), memory.lowest_dependant(new));
    if let (Some(a), Some(b)) = (a, b) {
        if a > b {
            return Err(NoPlan::Crossed);
        }
    }
    let (start, limit) = match way {
        Way::Up => (b, a),
        Way::Down => (a, b),
    };
    let mut metric = Metric { memory, way, known: vec![None; memory.slots.len()] };
    let mut candidates = memory.beyond(start, limit, way);
    let mut chain = Vec::new();
    loop {
        let slot = metric.last_of_least(&candidates).ok_or(NoPlan::NoRoom)?;
        chain.push(slot);
        if memory.slots[slot].is_none() {
            return Ok(chain);
        }
        candidates = memory.beyond(Some(slot), memory.nearest(slot, way), way);
    }
}
