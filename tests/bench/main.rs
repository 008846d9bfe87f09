// The bench: writes per insert of our planner, those of documents 000 and 001, and a priority-ordered firmware.
// Flags: --self-check (small, for the gate), --inserts N, --seed S, --plot PATH. Counts of writes only, no times.

mod fast_rule;
mod memory;
mod planners;
mod plot;
mod restated;
mod rule_sets;
mod rule_tris;
mod self_check;
mod tables;
mod uncounted;
mod workload;

use crate::memory::{Memory, NoPlan};
use crate::planners::{Planner, PLANNERS};
use crate::rule_sets::{RuleSet, RULE_SETS};
use crate::workload::{Free, Operations, Outcome, Size, Workload, OPERATIONS};
use reference::table::Rule;

const SLOTS: usize = 1024;
/// Loads in hundredths.
const LOADS: [usize; 3] = [50, 90, 99];
const INSERTS: usize = 2000;
const SEED: u64 = 7;

#[derive(Clone, Copy)]
pub struct Kind {
    pub set: RuleSet,
    pub load: usize,
    pub operations: Operations,
    pub free: Free,
}

/// One line of the table: a kind of workload, and what came out for each planner in turn.
pub struct Row {
    pub kind: Kind,
    pub outcomes: Vec<Outcome>,
}

/// The same for lists with few actions, counted and uncounted.
pub struct ListRow {
    pub kind: Kind,
    pub outcome: uncounted::Outcome,
}

fn flag(name: &str) -> Option<String> {
    let words: Vec<String> = std::env::args().collect();
    let place = words.iter().position(|word| word == name)?;
    Some(words.get(place + 1).cloned().unwrap_or_default())
}

fn number_flag(name: &str, otherwise: u64) -> u64 {
    flag(name).map_or(otherwise, |word| word.parse().unwrap_or_else(|_| panic!("{name} takes a number")))
}

fn main() {
    if flag("--self-check").is_some() {
        self_check::run();
        return uncounted::self_check();
    }
    let inserts = number_flag("--inserts", INSERTS as u64) as usize;
    let seed = number_flag("--seed", SEED);
    println!("Writes per insert, {SLOTS} slots, seed {seed}: the same operations for each planner, on a memory of its own.");
    let mut compared = Compared::default();
    let mut rows = Vec::new();
    for kind in kinds() {
        let outcomes = PLANNERS.into_iter().map(|planner| measure(kind, planner, inserts, seed, &mut compared)).collect();
        rows.push(Row { kind, outcomes });
    }
    tables::print_writes(&rows);
    tables::print_counts(&rows);
    tables::print_lower_means(&rows);
    compared.print();
    tables::print_uncounted(&list_rows(inserts, seed));
    if let Some(path) = flag("--plot") {
        std::fs::write(&path, plot::drawing(&rows)).unwrap_or_else(|error| panic!("{path}: {error}"));
        println!("plot: {path}");
    }
}

fn kinds() -> Vec<Kind> {
    let mut kinds = Vec::new();
    for operations in OPERATIONS {
        for free in [Free::First, Free::Last] {
            for set in RULE_SETS {
                kinds.extend(LOADS.map(|load| Kind { set, load, operations, free }));
            }
        }
    }
    kinds
}

/// Delete one, insert one: one long run. Insert only: from the load until the memory is full, as often as it takes. The size of a run,
/// and the seed of each.
fn runs_of(kind: Kind, inserts: usize, seed: u64) -> (Size, impl Iterator<Item = u64>) {
    let first = SLOTS * kind.load / 100;
    let room = SLOTS - first;
    let (runs, inserts) = match kind.operations {
        Operations::DeleteInsert => (1, inserts),
        Operations::InsertOnly => (inserts.div_ceil(room), room),
    };
    (Size { slots: SLOTS, first, inserts }, (0..runs as u64).map(move |run| seed * 1_000_000 + run))
}

/// The rows of the lists with few actions, counted and uncounted.
fn list_rows(inserts: usize, seed: u64) -> Vec<ListRow> {
    let mut rows = Vec::new();
    for kind in kinds().into_iter().filter(|kind| uncounted::LISTS.contains(&kind.set)) {
        let mut outcome = uncounted::Outcome::default();
        let (size, seeds) = runs_of(kind, inserts, seed);
        seeds.for_each(|seed| uncounted::measure(&kind, size, seed, &mut outcome));
        rows.push(ListRow { kind, outcome });
    }
    rows
}

fn measure(kind: Kind, planner: Planner, inserts: usize, seed: u64, compared: &mut Compared) -> Outcome {
    let (size, seeds) = runs_of(kind, inserts, seed);
    let mut outcome = Outcome::default();
    for seed in seeds {
        let workload = Workload::new(kind.set, size, kind.operations, kind.free, seed);
        outcome.add(workload.run(planner, |memory, new, planned| {
            if planner == Planner::Ours {
                compared.compare(memory, new, planned);
            }
        }));
    }
    outcome
}

/// The papers' planners on the very tables that ours planned for.
#[derive(Default)]
struct Compared {
    plans: usize,
    rule_tris_same: usize,
    rule_tris_same_chain: usize,
    fast_rule_more: usize,
}

impl Compared {
    fn compare(&mut self, memory: &Memory, new: &Rule, ours: Result<&[usize], NoPlan>) {
        let rule_tris = Planner::RuleTris.plan(memory, new, Free::First);
        let fast_rule = Planner::FastRuleTwoWay.plan(memory, new, Free::First);
        let Ok(chain) = ours else {
            assert_eq!((rule_tris, fast_rule), (Err(NoPlan::Crossed), Err(NoPlan::Crossed)));
            return;
        };
        let rule_tris = rule_tris.expect("what ours plans RuleTris plans");
        self.plans += 1;
        self.rule_tris_same += usize::from(rule_tris.len() == chain.len());
        self.rule_tris_same_chain += usize::from(rule_tris == chain);
        let greedy = fast_rule.expect("the empty slot lies in one of the two ways").len();
        self.fast_rule_more += usize::from(greedy > chain.len());
        assert!(rule_tris.len() >= chain.len() && greedy >= chain.len(), "their plans are in document 01's class");
    }

    fn print(&self) {
        println!("\nEach of our {} plans, made again by the others on the same table:", self.plans);
        println!("  RuleTris: as many writes in {}, the same chain in {}", self.rule_tris_same, self.rule_tris_same_chain);
        println!("  FastRule two-way: more writes in {}, fewer in none", self.fast_rule_more);
    }
}
