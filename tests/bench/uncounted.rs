// Access lists and firewalls with two actions, permit and deny, and priorities of few levels: what the same inserts take where the
// table is counted and where it is uncounted, so that only rules of different actions are ordered. Ours alone, by the library.

use crate::memory::{Memory, WIDTH};
use crate::rule_sets::{make_rules, RuleSet};
use crate::workload::{Free, Operations, Size};
use crate::Kind;
use reference::given::EDITION_13;
use reference::plan::{plan_insert, PUT_IN};
use reference::table::{first_out_of_order, Rule, Slot, COUNTED, CROSSED, TIE, UNCOUNTED};
use support::random::Random;

/// The sets whose rules permit or deny; a route's action is its next hop.
pub const LISTS: [RuleSet; 2] = [RuleSet::AccessList, RuleSet::Firewall];

pub const ACTIONS: usize = 2;
/// A list's own order in so many priorities, each for as many rules: overlapping rules share one now and then.
pub const LEVELS: usize = 1000;

/// What came of the inserts of a run.
#[derive(Default)]
pub struct Inserts {
    pub planned: usize,
    pub writes: usize,
    pub tied: usize,
    pub crossed: usize,
}

/// The inserts of the counted run asked once more, each uncounted, on the very table.
#[derive(Default)]
pub struct Spared {
    /// Writes of those that both plan, and how many of these take fewer uncounted.
    pub counted_writes: usize,
    pub uncounted_writes: usize,
    pub fewer: usize,
    /// Declined counted, and planned uncounted.
    pub tied: usize,
    pub crossed: usize,
}

#[derive(Default)]
pub struct Outcome {
    pub counted: Inserts,
    pub uncounted: Inserts,
    pub spared: Spared,
}

struct Lists {
    size: Size,
    free: Free,
    first: Vec<Rule>,
    inserted: Vec<Rule>,
    /// For each insert the member of the set whose rule is deleted before, if there are deletes.
    replaced: Option<Vec<usize>>,
}

/// A plan's words, or the refusal's number.
type Answer = Result<Vec<u32>, u32>;

pub fn measure(kind: &Kind, size: Size, seed: u64, outcome: &mut Outcome) {
    let lists = Lists::new(kind, size, LEVELS, seed);
    let Outcome { counted, uncounted, spared } = outcome;
    lists.run(COUNTED, counted, |memory, new, answer| spared.count(answer, &ask(memory, new, UNCOUNTED)));
    lists.run(UNCOUNTED, uncounted, |_, _, _| {});
}

fn ask(memory: &Memory, new: &Rule, uncounted: bool) -> Answer {
    let planned = support::calls::plan_insert(&memory.words, WIDTH, uncounted, &new.record(WIDTH), EDITION_13);
    planned.map(|planned| planned.writes).map_err(|refusal| refusal.number)
}

impl Inserts {
    fn count(&mut self, answer: &Answer) {
        match answer {
            Ok(plan) => {
                self.planned += 1;
                self.writes += plan.len();
            }
            Err(TIE) => self.tied += 1,
            Err(CROSSED) => self.crossed += 1,
            Err(number) => panic!("a workload has no insert that is refused with {number}"),
        }
    }

    pub fn mean(&self) -> f64 {
        self.writes as f64 / self.planned.max(1) as f64
    }
}

impl Spared {
    fn count(&mut self, counted: &Answer, uncounted: &Answer) {
        match (counted, uncounted) {
            (Ok(counted), Ok(uncounted)) => {
                assert!(uncounted.len() <= counted.len(), "what keeps the counted order keeps the looser one");
                self.counted_writes += counted.len();
                self.uncounted_writes += uncounted.len();
                self.fewer += usize::from(uncounted.len() < counted.len());
            }
            (Ok(_), Err(number)) => panic!("a counted insert is refused with {number} uncounted"),
            (Err(TIE), Ok(_)) => self.tied += 1,
            (Err(_), Ok(_)) => self.crossed += 1,
            (Err(_), Err(_)) => {}
        }
    }
}

impl Lists {
    fn new(kind: &Kind, size: Size, levels: usize, seed: u64) -> Lists {
        let mut random = Random::new(seed, 1);
        let mut rules = make_rules(kind.set, 2 * size.first + size.inserts, &mut random);
        let step = rules.iter().map(|rule| rule.rank).max().unwrap_or(0) / levels as u64 + 1;
        for rule in &mut rules {
            rule.action = random.below(ACTIONS) as u32;
            rule.rank = rule.rank / step * step;
        }
        let mut rules = rules.into_iter();
        let first = untied(&mut rules, size.first);
        let inserted: Vec<Rule> = rules.take(size.inserts).collect();
        assert_eq!((first.len(), inserted.len()), (size.first, size.inserts), "rules enough are drawn");
        let with_deletes = kind.operations == Operations::DeleteInsert;
        let replaced = with_deletes.then(|| (0..size.inserts).map(|_| random.below(size.first)).collect());
        Lists { size, free: kind.free, first, inserted, replaced }
    }

    fn first_memory(&self) -> Memory {
        let mut rules = self.first.clone();
        rules.sort_by_key(|rule| std::cmp::Reverse(rule.rank));
        let mut memory = Memory::new(self.size.slots);
        let start = if self.free == Free::First { self.size.slots - rules.len() } else { 0 };
        for (place, rule) in rules.iter().enumerate() {
            memory.set(start + place, Some(*rule));
        }
        memory
    }

    /// All operations, as in the other workloads: an insert that is declined keeps the rule that was deleted for it.
    fn run(&self, uncounted: bool, inserts: &mut Inserts, mut each: impl FnMut(&Memory, &Rule, &Answer)) {
        let mut memory = self.first_memory();
        let mut members: Vec<u32> = self.first.iter().map(|rule| rule.id).collect();
        for (number, new) in self.inserted.iter().enumerate() {
            let member = self.replaced.as_ref().map(|replaced| replaced[number]);
            let deleted = member.map(|member| memory.delete(members[member]));
            let answer = ask(&memory, new, uncounted);
            each(&memory, new, &answer);
            inserts.count(&answer);
            if let Ok(plan) = answer {
                write_plan(&mut memory, &plan, new);
                member.into_iter().for_each(|member| members[member] = new.id);
            } else if let Some((slot, old)) = deleted {
                memory.set(slot, Some(old));
            }
        }
        assert_eq!(first_out_of_order(&memory.slots, uncounted), None, "the order is left");
    }
}

/// The first of the rules, so many of which no two tie, whatever their actions: those that do are left out.
fn untied(rules: &mut impl Iterator<Item = Rule>, count: usize) -> Vec<Rule> {
    let mut first: Vec<Rule> = Vec::new();
    while first.len() < count {
        let Some(rule) = rules.next() else { break };
        if !first.iter().any(|earlier| earlier.ties_with(&rule, COUNTED)) {
            first.push(rule);
        }
    }
    first
}

fn write_plan(memory: &mut Memory, plan: &[u32], new: &Rule) {
    for write in plan {
        let moved: Slot = match write / 65_536 {
            PUT_IN => Some(*new),
            from => memory.slots[from as usize],
        };
        memory.set(*write as usize % 65_536, moved);
    }
}

const WORKLOADS: u64 = 40;
/// Fewer for small lists, so that some tie.
const FEW_LEVELS: usize = 30;

/// Small lists, each insert held to the reference; every case that is measured must come up.
pub fn self_check() {
    let mut outcome = Outcome::default();
    for (set, seed) in LISTS.into_iter().flat_map(|set| (0..WORKLOADS).map(move |seed| (set, seed))) {
        let free = if seed % 2 == 0 { Free::First } else { Free::Last };
        let kind = Kind { set, load: 0, operations: Operations::DeleteInsert, free };
        let slots = 40 + seed as usize % 60;
        let lists = Lists::new(&kind, Size { slots, first: slots - 4, inserts: 60 }, FEW_LEVELS, seed);
        let Outcome { counted, uncounted, spared } = &mut outcome;
        lists.run(COUNTED, counted, |memory, new, answer| {
            hold_to_reference(memory, new, answer, COUNTED);
            spared.count(answer, &ask(memory, new, UNCOUNTED));
        });
        lists.run(UNCOUNTED, uncounted, |memory, new, answer| hold_to_reference(memory, new, answer, UNCOUNTED));
    }
    let Outcome { counted, uncounted, spared } = &outcome;
    let reached = [spared.fewer, spared.tied, spared.crossed, uncounted.tied, uncounted.crossed];
    assert!(!reached.contains(&0), "lists were tried on too little: {reached:?}");
    let (planned, looser) = (counted.planned, uncounted.planned);
    println!("bench: self-check: ours agrees with the reference on lists, counted and uncounted: {planned} and {looser} planned");
}

fn hold_to_reference(memory: &Memory, new: &Rule, answer: &Answer, uncounted: bool) {
    let slots = memory.slots.len();
    let expected = plan_insert(&memory.words, WIDTH, uncounted, &new.record(WIDTH), EDITION_13, slots);
    let expected = expected.map(|planned| planned.writes).map_err(|refusal| refusal.number);
    assert_eq!(answer, &expected, "uncounted: {uncounted}");
}
