// The calls with a neighbour list as Markdown: planning with one, single writes, and of these the update of the list alone.

use crate::cases::{listed_kinds, Measured, NEIGHBOUR_SIZES, SMALL_KINDS};
use crate::listed::{writes_on, Agreement, Write, WRITES};
use crate::report::{grouped, Found, LARGEST};
use crate::tables::{Kind, OF_ONE_NEIGHBOUR};
use crate::versions::{Call, OURS};
use crate::{SIZES, SMALL_SIZES};

const AGREEMENTS: [Agreement; 2] = [Agreement::Right, Agreement::Stale];

impl Found<'_> {
    fn ours(&self, slots: usize, kind: Kind, measured: Measured) -> f64 {
        self.of(slots, kind, measured, OURS)
    }

    /// A planned insert with a list, beside one without; the worse of the two lists.
    pub fn plan_with_list(&self, slots: usize, kind: Kind) -> f64 {
        let most = AGREEMENTS.map(|agreement| self.ours(slots, kind, Measured::ListedPlan(agreement)));
        most[0].max(most[1]) / self.ours(slots, kind, Measured::Whole(Call::PlanInsert))
    }

    /// One write with a list, beside a planned insert without; the worst of the writes.
    pub fn write_with_list(&self, slots: usize, kind: Kind) -> f64 {
        let most = WRITES.map(|write| self.ours(slots, kind, Measured::ListedWrite(write)));
        most.into_iter().fold(0.0, f64::max) / self.ours(slots, kind, Measured::Whole(Call::PlanInsert))
    }
}

pub fn print(found: &Found) {
    println!("### With a neighbour list\n");
    print_plans(found);
    let slots = grouped(LARGEST as u64);
    println!("One write at {slots} slots: without a list / with one / of that the update of the list:\n");
    print_writes(found, &WRITES, &listed_kinds(found.width).map(|kind| (kind, LARGEST)).collect::<Vec<_>>());
    println!("Where the rule that is taken out, or copied over, is the only neighbour of all others:\n");
    let of_one = OF_ONE_NEIGHBOUR.into_iter().flat_map(|kind| NEIGHBOUR_SIZES.map(|slots| (kind, slots)));
    print_writes(found, writes_on(Kind::OneNeighbour), &of_one.collect::<Vec<_>>());
    println!("By size:\n");
    let sizes = || SMALL_SIZES.into_iter().chain(SIZES);
    let small = SMALL_KINDS.into_iter().flat_map(|kind| sizes().map(move |slots| (kind, slots)));
    print_writes(found, &WRITES, &small.collect::<Vec<_>>());
}

/// Planning with a list, and its ratio to planning without.
fn print_plans(found: &Found) {
    let sizes: Vec<usize> = SMALL_SIZES.into_iter().chain(SIZES).filter(|&slots| slots != LARGEST).collect();
    let heads: Vec<String> = sizes.iter().map(|slots| format!("{slots} slots")).collect();
    println!("A planned insert at {} slots; at fewer the ratio:\n", grouped(LARGEST as u64));
    println!("| Table | without a list | with the table's | with another | ratio | {} |", heads.join(" | "));
    println!("|---|---|---|---|---|{}", "---|".repeat(sizes.len()));
    for kind in listed_kinds(found.width) {
        let without = found.ours(LARGEST, kind, Measured::Whole(Call::PlanInsert));
        let with = AGREEMENTS.map(|agreement| grouped(found.ours(LARGEST, kind, Measured::ListedPlan(agreement)) as u64));
        let at = |slots: usize| format!("{:.4}", found.plan_with_list(slots, kind));
        let small = |&slots: &usize| if SMALL_KINDS.contains(&kind) { at(slots) } else { String::new() };
        let cells: Vec<String> = sizes.iter().map(small).collect();
        let (name, first) = (kind.name(found.width), grouped(without as u64));
        println!("| {name} | {first} | {} | {} | {} |", with.join(" | "), at(LARGEST), cells.join(" | "));
    }
    println!();
}

/// Of each write three counts: without a list, with one, the update alone.
fn print_writes(found: &Found, writes: &[Write], tables: &[(Kind, usize)]) {
    let names: Vec<&str> = writes.iter().map(|write| write.name()).collect();
    println!("| Table | slots | {} |", names.join(" | "));
    println!("|---|---|{}", "---|".repeat(writes.len()));
    for &(kind, slots) in tables {
        let cell = |write: &Write| {
            let counts = [Measured::Write(*write), Measured::ListedWrite(*write), Measured::Update(*write)];
            counts.map(|measured| grouped(found.ours(slots, kind, measured) as u64)).join(" / ")
        };
        let cells: Vec<String> = writes.iter().map(cell).collect();
        println!("| {} | {} | {} |", kind.name(found.width), grouped(slots as u64), cells.join(" | "));
    }
    println!();
}
