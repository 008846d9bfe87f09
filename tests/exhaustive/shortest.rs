// The shortest sequence of document 01's comparison class, by breadth-first search over whole tables.
// Nothing of the planner's costs is used: only what a write may do and what order is.

use reference::table::{Rule, Slot};

/// A table within the search: for each slot the number of its rule, or EMPTY.
type State = [u8; 6];
const EMPTY: u8 = 255;

struct Search {
    slots: usize,
    /// The table's rules, then the new one.
    rules: Vec<Rule>,
    uncounted: bool,
}

#[derive(Clone, Copy)]
enum Toward {
    Higher,
    Lower,
}

/// The least number of writes, the last of which puts the new rule in, in sequences that keep the order of a counted or of an uncounted
/// table. Some sequence must exist.
pub fn shortest_sequence(table: &[Slot], new: &Rule, uncounted: bool) -> usize {
    let mut start = [EMPTY; 6];
    let mut rules = Vec::new();
    for (slot, entry) in table.iter().enumerate() {
        if let Some(rule) = entry {
            start[slot] = rules.len() as u8;
            rules.push(*rule);
        }
    }
    rules.push(*new);
    let search = Search { slots: table.len(), rules, uncounted };
    let mut higher = vec![start];
    let mut lower = vec![start];
    for copies in 0.. {
        if higher.iter().chain(&lower).any(|state| search.takes_new_rule(state)) {
            return copies + 1;
        }
        higher = search.after_one_copy(&higher, Toward::Higher);
        lower = search.after_one_copy(&lower, Toward::Lower);
        assert!(!(higher.is_empty() && lower.is_empty()), "the class has no sequence for an insert that was planned");
    }
    unreachable!()
}

impl Search {
    fn takes_new_rule(&self, state: &State) -> bool {
        let new = self.rules.len() as u8 - 1;
        (0..self.slots).any(|to| self.written(state, to, new).is_some())
    }

    /// The table after writing a rule, if no rule is lost by it and the table is in order then.
    fn written(&self, state: &State, to: usize, rule: u8) -> Option<State> {
        let stands_elsewhere = (0..self.slots).any(|slot| slot != to && state[slot] == state[to]);
        if state[to] != EMPTY && !stands_elsewhere {
            return None;
        }
        let mut after = *state;
        after[to] = rule;
        self.in_order(&after).then_some(after)
    }

    fn in_order(&self, state: &State) -> bool {
        (0..self.slots).all(|high| (0..high).all(|low| self.may_stand_before(state[low], state[high])))
    }

    fn may_stand_before(&self, earlier: u8, later: u8) -> bool {
        if earlier == EMPTY || later == EMPTY || earlier == later {
            return true;
        }
        let (earlier, later) = (&self.rules[earlier as usize], &self.rules[later as usize]);
        let is_free = !earlier.overlaps(later) || self.uncounted && earlier.action == later.action;
        is_free || earlier.rank > later.rank
    }

    /// All tables one copy further, each once.
    fn after_one_copy(&self, level: &[State], toward: Toward) -> Vec<State> {
        let mut next = Vec::new();
        for state in level {
            for from in (0..self.slots).filter(|&from| state[from] != EMPTY) {
                let targets = match toward {
                    Toward::Higher => from + 1..self.slots,
                    Toward::Lower => 0..from,
                };
                next.extend(targets.filter_map(|to| self.written(state, to, state[from])));
            }
        }
        next.sort_unstable();
        next.dedup();
        next
    }
}
