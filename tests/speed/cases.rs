// The calls whose instructions are counted, in one order for the program that makes them and the one that reads the counts.
// Beside every call on every table: refused calls that end after some part of a plan, for the cost per part, small tables, and the calls
// with a neighbour list, which are ours alone.

use crate::ids::{draw, repeat_first, Draw, DRAWS};
use crate::inputs::{inputs_of, perform, Input, Lent};
use crate::listed::{self, Agreement, Write, REFRESHED};
use crate::tables::{every_kind, make, Kind, Size, OF_ONE_NEIGHBOUR};
use crate::versions::{versions, Call, OURS, SAFE};
use crate::{SIZES, SMALL_SIZES};
use reference::bits::WIDTHS;
use reference::table::record_words;
use std::hint::black_box;

/// What a case measures: a call that is accepted, or a planned insert that ends early.
#[derive(Clone, Copy, Debug, PartialEq, Eq, PartialOrd, Ord)]
pub enum Measured {
    Whole(Call),
    /// slot_record of an absent slot: checks 1 and 2.
    Records,
    /// A table whose last rule has the first one's id: checks 1 to 3.
    Ids,
    /// The same, the ids drawn in some way.
    IdsDrawn(Draw),
    /// A rule with id 0: checks 1 to 4.
    Order,
    /// A plan buffer of no words: all but the chain, its words, and the search of a rule that covers.
    Short,
    /// A planned insert with a neighbour list lent.
    ListedPlan(Agreement),
    /// One write without a list and with one, and the update of the list within the latter, which is no call of its own.
    Write(Write),
    ListedWrite(Write),
    Update(Write),
}

#[derive(Clone, Copy, Debug, PartialEq, Eq, PartialOrd, Ord)]
pub struct Case {
    pub width: usize,
    pub slots: usize,
    pub kind: Kind,
    pub measured: Measured,
    /// Place in the list of versions.
    pub version: usize,
}

/// The version whose parts are counted beside ours, and its small tables.
pub const PARTS_VERSIONS: [usize; 2] = [OURS, SAFE];
/// The small tables' kinds, and the calls that compare rules in pairs.
pub const SMALL_KINDS: [Kind; 2] = [Kind::Sparse, Kind::Dense];
pub const PAIR_CALLS: [Call; 4] = [Call::PlanInsert, Call::PlanDelete, Call::Save, Call::Load];
/// The sizes of the tables in which one rule is the neighbour of all.
pub const NEIGHBOUR_SIZES: [usize; 2] = [SIZES[0], SIZES[SIZES.len() - 1]];
/// The table whose ids are drawn in several ways.
pub const DRAWN_KIND: Kind = Kind::Sparse;

/// The tables on which calls with a list are counted at the largest size; those that are left out have the rules of others.
pub fn listed_kinds(width: usize) -> impl Iterator<Item = Kind> {
    every_kind(width).filter(|kind| !kind.is_sent_again() && !kind.is_for_cover())
}

pub fn for_each_case(mut visit: impl FnMut(Case, &Input)) {
    for width in WIDTHS {
        for slots in SIZES {
            for kind in every_kind(width) {
                let inputs = inputs_of(&make(kind, width, slots));
                for input in &inputs {
                    for version in 0..versions().len() {
                        visit(Case { width, slots, kind, measured: Measured::Whole(input.call), version }, input);
                    }
                }
                if slots == SIZES[SIZES.len() - 1] {
                    for_each_part(kind, slots, &inputs[0], &mut visit);
                }
                if are_listed_counted(kind, (width, slots)) {
                    for_each_listed(kind, slots, &inputs[0], &mut visit);
                }
            }
        }
        for slots in NEIGHBOUR_SIZES {
            for kind in OF_ONE_NEIGHBOUR {
                for_each_listed(kind, slots, &inputs_of(&make(kind, width, slots))[0], &mut visit);
            }
        }
        for_each_small(width, &mut visit);
    }
}

fn for_each_small(width: usize, visit: &mut impl FnMut(Case, &Input)) {
    for slots in SMALL_SIZES {
        for kind in SMALL_KINDS {
            let inputs = inputs_of(&make(kind, width, slots));
            for input in inputs.iter().filter(|input| PAIR_CALLS.contains(&input.call)) {
                for version in PARTS_VERSIONS {
                    visit(Case { width, slots, kind, measured: Measured::Whole(input.call), version }, input);
                }
            }
            for_each_listed(kind, slots, &inputs[0], visit);
        }
    }
}

/// At the largest size on each table, at the others on those that there are small ones of.
fn are_listed_counted(kind: Kind, (width, slots): Size) -> bool {
    SMALL_KINDS.contains(&kind) || slots == SIZES[SIZES.len() - 1] && listed_kinds(width).any(|one| one == kind)
}

fn for_each_listed(kind: Kind, slots: usize, plan: &Input, visit: &mut impl FnMut(Case, &Input)) {
    for (measured, input) in listed::counted(kind, plan) {
        visit(Case { width: plan.width, slots, kind, measured, version: OURS }, &input);
    }
}

fn for_each_part(kind: Kind, slots: usize, plan: &Input, visit: &mut impl FnMut(Case, &Input)) {
    for (measured, input) in parts(kind, plan) {
        for version in PARTS_VERSIONS {
            visit(Case { width: plan.width, slots, kind, measured, version }, &input);
        }
    }
}

fn parts(kind: Kind, plan: &Input) -> Vec<(Measured, Input)> {
    let width = plan.width;
    let twice = |table: Vec<u64>| Input { table: repeat_first(table, width), ..plan.clone() };
    let mut order = plan.clone();
    order.rule[2 * width] &= 0xffff_ffff;
    let mut parts = vec![
        (Measured::Records, Input { call: Call::SlotRecord, slot: u32::MAX, ..plan.clone() }),
        (Measured::Ids, twice(plan.table.clone())),
        (Measured::Order, order),
        (Measured::Short, Input { room: 0, ..plan.clone() }),
    ];
    if kind == DRAWN_KIND {
        parts.extend(DRAWS.map(|way| (Measured::IdsDrawn(way), twice(draw(way, &plan.table, width)))));
    }
    parts
}

/// Called before each call of a case: callgrind forgets what it has counted, of calls that made the input.
/// It does something else than the function below, as the compiler makes two functions that do the same into one.
#[no_mangle]
#[inline(never)]
pub extern "C" fn begin_call() {
    black_box(());
}

/// Called after each call of a case: callgrind writes the counts so far to a file when it gets here.
/// Its name starts unlike those of the calls, since callgrind mixes up options for names that start alike.
#[no_mangle]
#[inline(never)]
pub extern "C" fn made_call(result: u64) -> u64 {
    black_box(result)
}

/// Makes each call once.
pub fn make_calls() {
    let versions = versions();
    for_each_case(|case, input| {
        let mut lent = Lent::new(input);
        begin_call();
        let result = made_call(perform(&versions[case.version], input, &mut lent));
        let expected = match case.measured {
            Measured::Whole(Call::SlotRecord) => record_words(case.width) as u64,
            Measured::Whole(_) | Measured::Records | Measured::ListedPlan(_) => 0,
            Measured::Write(_) | Measured::ListedWrite(_) | Measured::Update(_) => 0,
            Measured::Ids | Measured::IdsDrawn(_) => 3,
            Measured::Order => 5,
            Measured::Short => 11,
        };
        assert_eq!(result, expected, "{case:?}");
        let refreshed = u32::from(case.measured == Measured::ListedPlan(Agreement::Stale));
        assert!(input.list.is_none() || lent.cells[REFRESHED] == refreshed, "{case:?}");
    });
}
