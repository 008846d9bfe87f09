// What our calls took before neighbour lists could be lent: the counts of before.txt, beside which those of now are judged.
// They are what `--record` printed at the landing before.

use crate::cases::{PAIR_CALLS, SMALL_KINDS};
use crate::record::{count_start, line_start};
use crate::tables::{every_kind, Kind};
use crate::versions::{Call, CALLS};
use crate::{SIZES, SMALL_SIZES};
use reference::bits::WIDTHS;

const COUNTS: &str = include_str!("before.txt");

/// The numbers of slots at which a call on a table is counted.
pub fn sizes(kind: Kind, call: Call) -> impl Iterator<Item = usize> {
    let is_small_too = SMALL_KINDS.contains(&kind) && PAIR_CALLS.contains(&call);
    SMALL_SIZES.into_iter().filter(move |_| is_small_too).chain(SIZES)
}

fn found(width: usize, slots: usize, kind: Kind, call: Call) -> Option<f64> {
    let start = line_start(width, kind, call);
    let line = COUNTS.lines().find_map(|line| line.strip_prefix(&start))?;
    line.split(" | ").find_map(|count| count.strip_prefix(&count_start(slots))).and_then(|count| count.parse().ok())
}

pub fn count(width: usize, slots: usize, kind: Kind, call: Call) -> f64 {
    found(width, slots, kind, call).expect("a count of before.txt")
}

/// Ends the program, before anything is counted, where before.txt lacks a count that another will be divided by.
pub fn need_all() {
    for (width, call) in WIDTHS.into_iter().flat_map(|width| CALLS.map(|call| (width, call))) {
        for (kind, slots) in every_kind(width).flat_map(|kind| sizes(kind, call).map(move |slots| (kind, slots))) {
            if found(width, slots, kind, call).is_none() {
                let start = line_start(width, kind, call);
                eprintln!("speed: tests/speed/before.txt has no count for {start}{slots} slots: --record prints such a file");
                std::process::exit(1);
            }
        }
    }
}
