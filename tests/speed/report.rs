// The counts as Markdown: planning by table, the other calls at their worst, hostile and small tables, the cost per part, and each
// target met or missed.
// A ratio is ours divided by the other version's count at the largest size; growth is the larger of the two doublings.

use crate::before;
use crate::cases::{Case, Measured, DRAWN_KIND, PAIR_CALLS, SMALL_KINDS};
use crate::ids::DRAWS;
use crate::instructions::{Counts, Functions};
use crate::listed_report;
use crate::properties;
use crate::tables::{every_kind, kinds, Kind, HOSTILE};
use crate::targets::{self, Target};
use crate::versions::{Call, CALLS, GCC, OURS, REFERENCE, SAFE, UNCHECKED};
use crate::{SIZES, SMALL_SIZES};
use reference::bits::WIDTHS;
use std::collections::BTreeSet;

pub const LARGEST: usize = SIZES[SIZES.len() - 1];
/// The order of the printed columns.
const OTHERS: [usize; 4] = [SAFE, GCC, UNCHECKED, REFERENCE];
const OTHERS_HEAD: &str = "/ safe Rust | / gcc -O3 | / unchecked Rust | / reference";

/// What was counted at one width.
pub struct Found<'a> {
    pub width: usize,
    counts: &'a Counts,
}

impl Found<'_> {
    pub fn of(&self, slots: usize, kind: Kind, measured: Measured, version: usize) -> f64 {
        self.counts[&Case { width: self.width, slots, kind, measured, version }] as f64
    }

    /// The count of an accepted call.
    pub fn count(&self, slots: usize, kind: Kind, call: Call, version: usize) -> f64 {
        self.of(slots, kind, Measured::Whole(call), version)
    }

    pub fn ratio(&self, kind: Kind, call: Call, other: usize) -> f64 {
        self.count(LARGEST, kind, call, OURS) / self.count(LARGEST, kind, call, other)
    }

    pub fn growth(&self, kind: Kind, call: Call) -> f64 {
        let of_size = |slots: usize| self.count(slots, kind, call, OURS);
        SIZES.windows(2).map(|pair| of_size(pair[1]) / of_size(pair[0])).fold(0.0, f64::max)
    }

    /// Ours beside what it was before, at its worst over the sizes.
    pub fn now_to_before(&self, kind: Kind, call: Call) -> f64 {
        let of_size = |slots: usize| self.count(slots, kind, call, OURS) / before::count(self.width, slots, kind, call);
        before::sizes(kind, call).map(of_size).fold(0.0, f64::max)
    }
}

pub fn print(counts: &Counts, functions: &Functions, every_table: bool) {
    println!("Instructions of one call, by callgrind. Ratios are ours / other at {} slots.\n", grouped(LARGEST as u64));
    for width in WIDTHS {
        println!("## Values of {width} words\n");
        print_width(&Found { width, counts }, functions, every_table);
    }
}

fn print_width(found: &Found, functions: &Functions, every_table: bool) {
    let kinds = kinds(found.width);
    properties::print((found.width, LARGEST));
    print_tables(found, &[Call::PlanInsert], &kinds, "Planning an insert");
    print_worst(found);
    print_tables(found, &PAIR_CALLS, &HOSTILE, "Tables made to be hostile: the last two are not judged");
    print_small(found);
    if every_table {
        let others: Vec<Call> = CALLS.into_iter().filter(|&call| call != Call::PlanInsert).collect();
        print_tables(found, &others, &kinds, "The other calls, by table");
    }
    listed_report::print(found);
    print_before(found);
    print_parts(found);
    print_ids(found);
    print_functions(found.width, functions);
    print_targets(&targets::all(found));
}

/// Digits in groups of three.
pub fn grouped(number: u64) -> String {
    let digits = number.to_string();
    let groups: Vec<&str> = digits.as_bytes().rchunks(3).rev().map(|group| std::str::from_utf8(group).unwrap()).collect();
    groups.join(",")
}

fn ratios_of(one: impl Fn(usize) -> f64) -> String {
    let ratios: Vec<String> = OTHERS.iter().map(|&other| format!("{:.3}", one(other))).collect();
    ratios.join(" | ")
}

fn print_tables(found: &Found, calls: &[Call], kinds: &[Kind], title: &str) {
    println!("### {title}\n");
    let sizes: Vec<String> = SIZES.iter().map(|&slots| format!("{} slots", grouped(slots as u64))).collect();
    println!("| Call | Table | {} | growth | {OTHERS_HEAD} |", sizes.join(" | "));
    println!("|---|---|{}---|---|---|---|---|", "---|".repeat(SIZES.len()));
    for &call in calls {
        for &kind in kinds {
            let of_sizes: Vec<String> = SIZES.iter().map(|&slots| grouped(found.count(slots, kind, call, OURS) as u64)).collect();
            let ratios = ratios_of(|other| found.ratio(kind, call, other));
            let growth = found.growth(kind, call);
            println!("| {} | {} | {} | {growth:.2} | {ratios} |", call.name(), kind.name(found.width), of_sizes.join(" | "));
        }
    }
    println!();
}

/// The largest of a number over the tables, the hostile ones apart.
fn most(width: usize, number: impl Fn(Kind) -> f64) -> f64 {
    kinds(width).into_iter().map(number).fold(0.0, f64::max)
}

fn print_worst(found: &Found) {
    println!("### Every call at its worst: the most over the tables, the hostile ones apart, each column for itself\n");
    println!("| Call | ours at {} slots | a slot | growth | {OTHERS_HEAD} |", grouped(LARGEST as u64));
    println!("|---|---|---|---|---|---|---|---|");
    for call in CALLS {
        let ours = most(found.width, |kind| found.count(LARGEST, kind, call, OURS));
        let ratios = ratios_of(|other| most(found.width, |kind| found.ratio(kind, call, other)));
        let growth = most(found.width, |kind| found.growth(kind, call));
        let a_slot = ours / LARGEST as f64;
        println!("| {} | {} | {a_slot:.1} | {growth:.2} | {ratios} |", call.name(), grouped(ours as u64));
    }
    println!();
}

/// Ours beside what it was before neighbour lists could be lent, each call and table.
fn print_before(found: &Found) {
    println!("### Beside what it was before neighbour lists could be lent: now / before, the worst of the sizes\n");
    println!("| Table | {} |", CALLS.map(Call::name).join(" | "));
    println!("|---|{}", "---|".repeat(CALLS.len()));
    for kind in every_kind(found.width) {
        let cells = CALLS.map(|call| format!("{:.4}", found.now_to_before(kind, call)));
        println!("| {} | {} |", kind.name(found.width), cells.join(" | "));
    }
    println!();
}

/// Ours, and its ratio to safe Rust, where no growth is judged.
fn print_small(found: &Found) {
    println!("### Small tables: ours (ratio to safe Rust)\n");
    let sizes: Vec<String> = SMALL_SIZES.iter().map(|slots| format!("{slots} slots")).collect();
    println!("| Call | Table | {} |", sizes.join(" | "));
    println!("|---|---|{}", "---|".repeat(SMALL_SIZES.len()));
    for call in PAIR_CALLS {
        for kind in SMALL_KINDS {
            let cell = |slots: &usize| {
                let (ours, safe) = (found.count(*slots, kind, call, OURS), found.count(*slots, kind, call, SAFE));
                format!("{} ({:.2})", grouped(ours as u64), ours / safe)
            };
            let cells: Vec<String> = SMALL_SIZES.iter().map(cell).collect();
            println!("| {} | {} | {} |", call.name(), kind.name(found.width), cells.join(" | "));
        }
    }
    println!();
}

/// Check 3 on one table whose ids are drawn in several ways.
fn print_ids(found: &Found) {
    println!(
        "### Check 3 by how ids are drawn, {}, {} slots: ours (ratio to safe Rust)\n",
        DRAWN_KIND.name(found.width),
        grouped(LARGEST as u64)
    );
    println!("| Ids | check 3 |");
    println!("|---|---|");
    for way in DRAWS {
        let of = |measured, version| found.of(LARGEST, DRAWN_KIND, measured, version);
        let spent = |version| of(Measured::IdsDrawn(way), version) - of(Measured::Records, version);
        println!("| {} | {} ({:.2}) |", way.name(), grouped(spent(OURS) as u64), spent(OURS) / spent(SAFE));
    }
    println!();
}

/// The cost per part, by differences of calls that end early.
fn print_parts(found: &Found) {
    println!("### Cost per part of a planned insert, {} slots: ours (ratio to safe Rust)\n", grouped(LARGEST as u64));
    println!(
        "| Table | checks 1, 2 | check 3 | check 4 | checks 5 to 11, windows, costs, choice | chain, words, cover | whole |"
    );
    println!("|---|---|---|---|---|---|---|");
    for kind in every_kind(found.width) {
        let of = |measured: Measured, version: usize| found.of(LARGEST, kind, measured, version);
        let ends = [Measured::Records, Measured::Ids, Measured::Order, Measured::Short, Measured::Whole(Call::PlanInsert)];
        let part =
            |place: usize, version: usize| of(ends[place], version) - if place == 0 { 0.0 } else { of(ends[place - 1], version) };
        let mut cells: Vec<String> = Vec::new();
        for place in 0..ends.len() {
            let (ours, safe) = (part(place, OURS), part(place, SAFE));
            cells.push(format!("{} ({:.2})", grouped(ours.max(0.0) as u64), ours / safe));
        }
        cells.push(grouped(of(ends[4], OURS) as u64));
        println!("| {} | {} |", kind.name(found.width), cells.join(" | "));
    }
    println!();
}

/// Our functions that the compiler left apart; what was inlined into a function counts as its own.
fn print_functions(width: usize, functions: &Functions) {
    println!("### What our functions that stay apart spend themselves in a planned insert, {} slots\n", grouped(LARGEST as u64));
    let is_shown = |case: &Case| case.width == width && case.slots == LARGEST && !HOSTILE.contains(&case.kind);
    let of_largest: Vec<_> = functions.iter().filter(|(case, _)| is_shown(case)).collect();
    let is_spender = |name: &&String| of_largest.iter().any(|(_, spent)| spent.get(*name).is_some_and(|&count| count > 0));
    let names: BTreeSet<&String> = of_largest.iter().flat_map(|(_, spent)| spent.keys()).filter(is_spender).collect();
    let kinds: Vec<&str> = of_largest.iter().map(|(case, _)| case.kind.name(width)).collect();
    println!("| Function | {} |", kinds.join(" | "));
    println!("|---|{}", "---|".repeat(kinds.len()));
    for name in names {
        let cells: Vec<String> = of_largest.iter().map(|(_, spent)| grouped(spent.get(name).copied().unwrap_or(0))).collect();
        println!("| `{name}` | {} |", cells.join(" | "));
    }
    println!();
}

fn print_targets(all: &[Target]) {
    println!("### Targets at {} slots\n", grouped(LARGEST as u64));
    println!("| Target | at most | found, at its worst | |");
    println!("|---|---|---|---|");
    for target in all {
        let verdict = if target.found <= target.most { "met" } else { "**missed**" };
        println!(
            "| {} | {} | {} ({}) | {verdict} |",
            target.name,
            target.figure(target.most),
            target.figure(target.found),
            target.place
        );
    }
    println!();
}
