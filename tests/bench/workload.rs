// Workloads: a first set of rules, then deletes and inserts; and how a planner runs one on its own memory.
// Every planner starts from the same layout and is given the same operations, which the seed alone decides.

use crate::memory::{Memory, NoPlan};
use crate::planners::Planner;
use crate::rule_sets::{make_rules, RuleSet};
use reference::table::{first_out_of_order, Rule, COUNTED};
use support::random::Random;

/// Where the free space is at the start: the rules stand by falling priority in one block at the other end.
#[derive(Clone, Copy, Debug, PartialEq, Eq)]
pub enum Free {
    /// At the winning end: document 001's "original layout".
    First,
    /// At the losing end, as in document 000's figure 2 and document 01's script.
    Last,
}

pub struct Workload {
    slots: usize,
    free: Free,
    /// Rules at the start; the rest are inserted in turn.
    first: usize,
    rules: Vec<Rule>,
    /// For each insert the member of the set whose rule it replaces, if there are deletes: a number below `first`, the
    /// same whatever a planner declined before.
    replaced: Option<Vec<usize>>,
}

#[derive(Clone, Copy, Debug, PartialEq, Eq)]
pub enum Operations {
    /// Delete one, insert one.
    DeleteInsert,
    InsertOnly,
}

pub const OPERATIONS: [Operations; 2] = [Operations::DeleteInsert, Operations::InsertOnly];

#[derive(Clone, Copy)]
pub struct Size {
    pub slots: usize,
    /// Rules at the start.
    pub first: usize,
    pub inserts: usize,
}

#[derive(Default, Clone)]
pub struct Outcome {
    /// Writes of each insert that was planned.
    pub writes: Vec<usize>,
    pub crossed: usize,
    pub no_room: usize,
}

impl Outcome {
    fn count(&mut self, planned: Result<&[usize], &NoPlan>) {
        match planned {
            Ok(chain) => self.writes.push(chain.len()),
            Err(NoPlan::Crossed) => self.crossed += 1,
            Err(NoPlan::NoRoom) => self.no_room += 1,
        }
    }

    pub fn add(&mut self, other: Outcome) {
        self.writes.extend(other.writes);
        self.crossed += other.crossed;
        self.no_room += other.no_room;
    }

    pub fn inserts(&self) -> usize {
        self.writes.len() + self.crossed + self.no_room
    }

    pub fn mean(&self) -> f64 {
        self.writes.iter().sum::<usize>() as f64 / self.writes.len().max(1) as f64
    }

    /// The least number that 99 of 100 inserts don't exceed.
    pub fn percentile_99(&self) -> usize {
        let mut sorted = self.writes.clone();
        sorted.sort_unstable();
        let place = (sorted.len() * 99).div_ceil(100);
        if place == 0 {
            0
        } else {
            sorted[place - 1]
        }
    }

    pub fn worst(&self) -> usize {
        self.writes.iter().copied().max().unwrap_or(0)
    }
}

impl Workload {
    pub fn new(set: RuleSet, size: Size, operations: Operations, free: Free, seed: u64) -> Workload {
        let mut random = Random::new(seed, 0);
        let rules = make_rules(set, size.first + size.inserts, &mut random);
        let with_deletes = operations == Operations::DeleteInsert;
        let replaced = with_deletes.then(|| (0..size.inserts).map(|_| random.below(size.first)).collect());
        Workload { slots: size.slots, free, first: size.first, rules, replaced }
    }

    fn first_memory(&self) -> Memory {
        let mut rules = self.rules[..self.first].to_vec();
        rules.sort_by_key(|rule| std::cmp::Reverse(rule.rank));
        let mut memory = Memory::new(self.slots);
        let start = if self.free == Free::First { self.slots - self.first } else { 0 };
        for (place, rule) in rules.iter().enumerate() {
            memory.set(start + place, Some(*rule));
        }
        memory
    }

    /// Runs all operations. With deletes, the rule of the member named is deleted before the new one is planned; a planner
    /// that declines keeps the old rule, where it stood, so that every planner's memory keeps the load.
    /// `each` sees every insert before it is written.
    pub fn run(&self, planner: Planner, mut each: impl FnMut(&Memory, &Rule, Result<&[usize], NoPlan>)) -> Outcome {
        let mut memory = self.first_memory();
        let mut members: Vec<u32> = self.rules[..self.first].iter().map(|rule| rule.id).collect();
        let mut outcome = Outcome::default();
        for (number, new) in self.rules[self.first..].iter().enumerate() {
            let member = self.replaced.as_ref().map(|replaced| replaced[number]);
            let deleted = member.map(|member| memory.delete(members[member]));
            let planned = planner.plan(&memory, new, self.free);
            each(&memory, new, planned.as_deref().map_err(|&no_plan| no_plan));
            outcome.count(planned.as_deref());
            if let Ok(chain) = planned {
                memory.write_chain(&chain, new);
                member.into_iter().for_each(|member| members[member] = new.id);
            } else if let Some((slot, old)) = deleted {
                memory.set(slot, Some(old));
            }
        }
        assert_eq!(first_out_of_order(&memory.slots, COUNTED), None, "{} left the order", planner.name());
        outcome
    }
}
