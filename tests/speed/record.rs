// Our counts in the form of before.txt, for the landing that comes next: a line for each width, call and table, with the count at
// each number of slots.

use crate::cases::{Case, Measured};
use crate::instructions::Counts;
use crate::tables::{every_kind, Kind};
use crate::versions::{Call, CALLS, OURS};
use crate::{SIZES, SMALL_SIZES};
use reference::bits::WIDTHS;

/// The start of a line.
pub fn line_start(width: usize, kind: Kind, call: Call) -> String {
    format!("{width} words | {} | {} | ", call.name(), kind.name(width))
}

/// The start of a count in its line.
pub fn count_start(slots: usize) -> String {
    format!("{slots}: ")
}

pub fn print(counts: &Counts) {
    for width in WIDTHS {
        for (call, kind) in CALLS.into_iter().flat_map(|call| every_kind(width).map(move |kind| (call, kind))) {
            let counted = |slots: &usize| {
                let count = counts.get(&Case { width, slots: *slots, kind, measured: Measured::Whole(call), version: OURS })?;
                Some(format!("{}{count}", count_start(*slots)))
            };
            let of_sizes: Vec<String> = SMALL_SIZES.iter().chain(&SIZES).filter_map(counted).collect();
            println!("{}{}", line_start(width, kind, call), of_sizes.join(" | "));
        }
    }
}
