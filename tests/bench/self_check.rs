// The bench's self-check: every planner on small seeded memories, held to something that is written apart from it, and the
// papers' examples. It says that the comparison compares what it names; it measures nothing.

use crate::fast_rule::{greedy, Way};
use crate::memory::{Memory, NoPlan, WIDTH};
use crate::planners::{Planner, PLANNERS};
use crate::restated::{algorithm_2, is_by_priority, shortest_shift};
use crate::rule_sets::RULE_SETS;
use crate::workload::{Free, Operations, Outcome, Size, Workload, OPERATIONS};
use reference::bits::Bits;
use reference::given::EDITION_13;
use reference::plan::plan_insert;
use reference::table::{Rule, COUNTED, CROSSED};

const WORKLOADS: u64 = 40;

pub fn run() {
    document_000_figure_2();
    document_01_five_slots();
    document_001_figure_3();
    let mut outcomes = PLANNERS.map(|_| Outcome::default());
    for set in RULE_SETS {
        for seed in 0..WORKLOADS {
            let slots = 8 + seed as usize % 33;
            let room = if seed % 5 == 4 { slots / 2 } else { 1 + seed as usize % 4 };
            for (operations, free) in OPERATIONS.into_iter().flat_map(|each| [(each, Free::First), (each, Free::Last)]) {
                let inserts = if operations == Operations::DeleteInsert { 60 } else { room };
                let workload = Workload::new(set, Size { slots, first: slots - room, inserts }, operations, free, seed);
                for (planner, outcome) in PLANNERS.into_iter().zip(&mut outcomes) {
                    outcome.add(workload.run(planner, |memory, new, planned| check(planner, memory, new, free, planned)));
                }
            }
        }
    }
    print(&outcomes);
}

fn print(outcomes: &[Outcome]) {
    for (planner, outcome) in PLANNERS.into_iter().zip(outcomes) {
        let (planned, crossed, no_room) = (outcome.writes.len(), outcome.crossed, outcome.no_room);
        assert!(planned > 0 && (crossed > 0) != (planner == Planner::PriorityOrder), "{planner:?} was tried on too little");
        assert_eq!(no_room > 0, planner == Planner::FastRuleOneWay, "{planner:?} was tried on too little");
        let held_to = match planner {
            Planner::Ours | Planner::RuleTris => "the reference, on the count",
            Planner::FastRuleTwoWay => "the shorter of algorithm 2 restated both ways, on every slot",
            Planner::FastRuleOneWay => "algorithm 2 restated, on every slot, and figure 3 of document 001",
            Planner::PriorityOrder => "the shortest of all shifts, on the count",
        };
        let counts = format!("{planned} planned, {crossed} crossed, {no_room} without room");
        println!("bench: self-check: {} agrees with {held_to}: {counts}", planner.name());
    }
}

/// Holds a planner's answer for the table to what it is to equal.
fn check(planner: Planner, memory: &Memory, new: &Rule, free: Free, planned: Result<&[usize], NoPlan>) {
    let count = planned.map(|chain| chain.len());
    let restated = |way| algorithm_2(memory, new, way);
    match planner {
        Planner::Ours | Planner::RuleTris => assert_eq!(count, least_count(memory, new), "{planner:?}"),
        Planner::FastRuleOneWay => assert_eq!(planned.map(|chain| chain.to_vec()), restated(Way::toward(free))),
        Planner::FastRuleTwoWay => {
            let (one, other) = (restated(Way::toward(free)), restated(Way::toward(free).turned()));
            let length = |chain: &Result<Vec<usize>, NoPlan>| chain.as_ref().map_or(usize::MAX, |chain| chain.len());
            assert_eq!(planned.map(|chain| chain.to_vec()), if length(&other) < length(&one) { other } else { one });
        }
        Planner::PriorityOrder => {
            assert_eq!(count.ok(), shortest_shift(memory, new));
            let mut written = memory.clone();
            written.write_chain(planned.expect("a count was compared"), new);
            assert!(is_by_priority(&written.slots));
        }
    }
}

fn least_count(memory: &Memory, new: &Rule) -> Result<usize, NoPlan> {
    let planned = plan_insert(&memory.words, WIDTH, COUNTED, &new.record(WIDTH), EDITION_13, memory.slots.len());
    planned.map(|planned| planned.writes.len()).map_err(|refusal| {
        assert_eq!(refusal.number, CROSSED);
        NoPlan::Crossed
    })
}

fn rule(id: u32, rank: u64, pattern: &str) -> Rule {
    let mut rule = Rule { id, rank, value: Bits::NONE, mask: Bits::NONE, action: 0 };
    for (place, digit) in pattern.chars().enumerate().filter(|(_, digit)| *digit != '*') {
        rule.mask |= Bits::at(place);
        rule.value |= if digit == '1' { Bits::at(place) } else { Bits::NONE };
    }
    rule
}

fn memory_of(entries: &[Option<Rule>]) -> Memory {
    let mut memory = Memory::new(entries.len());
    for (slot, entry) in entries.iter().enumerate() {
        memory.set(slot, *entry);
    }
    memory
}

fn expect(memory: &Memory, new: &Rule, expected: [Result<usize, NoPlan>; 5]) {
    for (planner, expected) in PLANNERS.into_iter().zip(expected) {
        assert_eq!(planner.plan(memory, new, Free::First).map(|chain| chain.len()), expected, "{planner:?}");
    }
}

/// Four moves by priority, two by dependencies; the only empty slot is at the losing end, where document 001's one way finds none.
fn document_000_figure_2() {
    let rules = [rule(1, 20, "00*"), rule(2, 15, "**0"), rule(3, 15, "0*1"), rule(4, 10, "**1"), rule(5, 5, "***")];
    let mut entries: Vec<Option<Rule>> = rules.into_iter().map(Some).collect();
    entries.push(None);
    expect(&memory_of(&entries), &rule(6, 17, "0*0"), [Ok(3), Ok(3), Ok(3), Err(NoPlan::NoRoom), Ok(5)]);
}

/// Document 01's five-slot table upside down, so that document 001's one way applies. The path of its definition 1 alone would
/// take four writes; its greedy step sees the other rule.
fn document_01_five_slots() {
    let entries = [None, Some(rule(4, 40, "11*")), Some(rule(3, 30, "1**")), Some(rule(2, 25, "01*")), Some(rule(1, 20, "*0*"))];
    expect(&memory_of(&entries), &rule(5, 10, "00*"), [Ok(3), Ok(3), Ok(3), Ok(3), Ok(5)]);
}

/// The edges of document 001's figure 3 that its text names: the first node depends on the second.
const FIGURE_3: [(usize, usize); 8] = [(5, 3), (3, 1), (1, 0), (4, 2), (6, 9), (9, 5), (7, 6), (8, 7)];

/// The rule of each node of figure 3. Two that have no edge between them differ at a bit of their own, and so don't overlap.
fn figure_3_rules() -> Vec<Rule> {
    let mut rules: Vec<Rule> = (1..=10).map(|id| rule(id, 100 - 10 * u64::from(id), "")).collect();
    rules[9].rank = (rules[5].rank + rules[6].rank) / 2;
    let mut place = 0;
    for second in 1..rules.len() {
        for first in 0..second {
            if !FIGURE_3.contains(&(first, second)) && !FIGURE_3.contains(&(second, first)) {
                rules[first].mask |= Bits::at(place);
                rules[second].mask |= Bits::at(place);
                rules[second].value |= Bits::at(place);
                place += 1;
            }
        }
    }
    rules
}

/// Nodes 0 to 8 stand at addresses 0x8 to 0x0, the free space at 0x9: node 9 goes to 0x3, 5 to 0x4, 4 to 0x6 and 2 to 0x9.
/// With more free space above, where the figure shows none, lines 5 to 9 give node 2 the highest address.
fn document_001_figure_3() {
    let mut rules = figure_3_rules();
    for way in [Way::Up, Way::Down] {
        for highest in [0x9, 0xa, 0xf] {
            let mut entries = vec![None; highest + 1];
            (0..9).for_each(|node| entries[8 - node] = Some(rules[node]));
            let mut chain = vec![0x3, 0x4, 0x6, highest];
            if way == Way::Up {
                entries.reverse();
                chain.iter_mut().for_each(|address| *address = highest - *address);
            }
            assert_eq!(greedy(&memory_of(&entries), &rules[9], way), Ok(chain), "figure 3 of document 001, {way:?}");
        }
        // For the other way every dependency is turned about.
        rules.iter_mut().for_each(|rule| rule.rank = 100 - rule.rank);
    }
}
