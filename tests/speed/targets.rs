// The targets of the comparison, each with what was found at its worst and where.
// Ratios hold for safe Rust and for gcc -O3; the other versions are reported only. Ours is held to what it was before, too.

use crate::cases::{listed_kinds, PAIR_CALLS};
use crate::report::{Found, LARGEST};
use crate::tables::{every_kind, kinds, Kind, HOSTILE, HOSTILE_JUDGED};
use crate::versions::{Call, CALLS, GCC, OURS, SAFE};
use reference::bits::WIDTHS;

const PAIRS_RATIO: f64 = 1.05;
const CALL_RATIO: f64 = 1.10;
const PAIRS_MOST: f64 = 2_400_000.0;
const HOSTILE_MOST: f64 = 7_000_000.0;
const LOOKUP_A_SLOT: f64 = 30.0;
const PAIRS_GROWTH: f64 = 2.8;
const CALL_GROWTH: f64 = 2.2;
/// Of what it was before, every call.
const BEFORE_RATIO: f64 = 1.01;
/// Of a planned insert without a neighbour list: one with a list, and one write carried out with a list.
const LISTED_PLAN_RATIO: f64 = 1.01;
const LISTED_WRITE_RATIO: f64 = 1.05;

/// At five words: planning, an insert or a delete, and every other call; then planning an insert and a load by themselves.
const WIDE_PLAN_RATIO: f64 = 1.10;
const WIDE_CALL_RATIO: f64 = 1.15;
const WIDE_PLAN_MOST: f64 = 2_700_000.0;
const WIDE_LOAD_MOST: f64 = 2_800_000.0;
/// Lookups at five words where only the last word decides, and on half-empty tables.
const LAST_WORD_RATIO: f64 = 1.4;
const HALF_EMPTY_RATIO: f64 = 1.8;

const OTHERS: [(usize, &str); 2] = [(SAFE, "safe Rust"), (GCC, "gcc -O3")];

#[derive(Clone)]
pub struct Target {
    pub name: String,
    pub most: f64,
    pub found: f64,
    /// The table where it was found.
    pub place: &'static str,
}

impl Target {
    /// The worst of some tables at a width for a number.
    fn among(kinds: &[Kind], width: usize, name: String, most: f64, number: impl Fn(Kind) -> f64) -> Target {
        let mut target = Target { name, most, found: 0.0, place: "" };
        for &kind in kinds {
            if number(kind) > target.found {
                (target.found, target.place) = (number(kind), kind.name(width));
            }
        }
        target
    }

    /// Ratios to two or three decimals, counts in millions.
    pub fn figure(&self, number: f64) -> String {
        match self.most {
            most if most >= 1e6 => format!("{:.2} M", number / 1e6),
            most if most >= 10.0 => format!("{number:.1}"),
            _ => format!("{number:.3}"),
        }
    }
}

pub fn all(found: &Found) -> Vec<Target> {
    let of_width = if found.width == WIDTHS[0] { at_two(found) } else { at_five(found) };
    [of_width, beside_before(found), with_list(found)].concat()
}

/// Ratios at two words: all calls that compare rules in pairs are held to safe Rust alike; beside gcc -O3 planning is.
fn ratio_most(call: Call, other: usize) -> f64 {
    match call {
        Call::PlanInsert | Call::PlanDelete => PAIRS_RATIO,
        Call::Save | Call::Load if other == SAFE => PAIRS_RATIO,
        _ => CALL_RATIO,
    }
}

fn at_two(found: &Found) -> Vec<Target> {
    let kinds = kinds(found.width);
    let worst = |name, most, number: &dyn Fn(Kind) -> f64| Target::among(&kinds, found.width, name, most, number);
    let ours = |kind, call| found.count(LARGEST, kind, call, OURS);
    let mut targets = Vec::new();
    for call in CALLS {
        for (other, name) in OTHERS {
            let title = format!("{} / {name}", call.name());
            targets.push(worst(title, ratio_most(call, other), &|kind| found.ratio(kind, call, other)));
        }
    }
    for call in PAIR_CALLS {
        targets.push(worst(format!("{}, instructions", call.name()), PAIRS_MOST, &|kind| ours(kind, call)));
    }
    for call in PAIR_CALLS {
        let title = format!("{}, instructions, hostile tables", call.name());
        let judged = &HOSTILE[..HOSTILE_JUDGED];
        targets.push(Target::among(judged, found.width, title, HOSTILE_MOST, |kind| ours(kind, call)));
    }
    let lookup = |kind| ours(kind, Call::Lookup) / LARGEST as f64;
    targets.push(worst("lookup, instructions a slot".to_string(), LOOKUP_A_SLOT, &lookup));
    for call in CALLS {
        let most = if PAIR_CALLS.contains(&call) { PAIRS_GROWTH } else { CALL_GROWTH };
        targets.push(worst(format!("{}, growth per doubling", call.name()), most, &|kind| found.growth(kind, call)));
    }
    targets
}

/// The calls with a neighbour list, hostile tables too.
fn with_list(found: &Found) -> Vec<Target> {
    let kinds: Vec<Kind> = listed_kinds(found.width).collect();
    let worst =
        |name: &str, most, number: &dyn Fn(Kind) -> f64| Target::among(&kinds, found.width, name.to_string(), most, number);
    vec![
        worst("plan_insert with a list / without", LISTED_PLAN_RATIO, &|kind| found.plan_with_list(LARGEST, kind)),
        worst("carry_out with a list / plan_insert without", LISTED_WRITE_RATIO, &|kind| found.write_with_list(LARGEST, kind)),
    ]
}

/// Each call on every table, hostile ones too, at every size, beside what it was before.
fn beside_before(found: &Found) -> Vec<Target> {
    let kinds: Vec<Kind> = every_kind(found.width).collect();
    let target = |call: Call| {
        let title = format!("{} / before", call.name());
        Target::among(&kinds, found.width, title, BEFORE_RATIO, |kind| found.now_to_before(kind, call))
    };
    CALLS.into_iter().map(target).collect()
}

/// Ratios at five words; lookups apart, since two kinds of tables are held to ratios of their own.
fn at_five(found: &Found) -> Vec<Target> {
    let kinds = kinds(found.width);
    let worst = |name, most, number: &dyn Fn(Kind) -> f64| Target::among(&kinds, found.width, name, most, number);
    let mut targets = Vec::new();
    for call in CALLS.into_iter().filter(|&call| call != Call::Lookup) {
        let most = if matches!(call, Call::PlanInsert | Call::PlanDelete) { WIDE_PLAN_RATIO } else { WIDE_CALL_RATIO };
        for (other, name) in OTHERS {
            targets.push(worst(format!("{} / {name}", call.name()), most, &|kind| found.ratio(kind, call, other)));
        }
    }
    for (other, name) in OTHERS {
        let of = |some: &[Kind], which: &str, most| {
            let title = format!("lookup / {name}{which}");
            Target::among(some, found.width, title, most, |kind| found.ratio(kind, Call::Lookup, other))
        };
        let is_plain = |kind: &Kind| !matches!(kind, Kind::LastWord | Kind::HalfEmpty);
        let plain: Vec<Kind> = kinds.iter().copied().filter(is_plain).collect();
        targets.extend([
            of(&plain, "", WIDE_CALL_RATIO),
            of(&[Kind::LastWord], ", where only the last word decides", LAST_WORD_RATIO),
            of(&[Kind::HalfEmpty], ", half-empty", HALF_EMPTY_RATIO),
        ]);
    }
    for (call, most) in [(Call::PlanInsert, WIDE_PLAN_MOST), (Call::Load, WIDE_LOAD_MOST)] {
        let ours = |kind| found.count(LARGEST, kind, call, OURS);
        targets.push(worst(format!("{}, instructions", call.name()), most, &ours));
    }
    targets
}
