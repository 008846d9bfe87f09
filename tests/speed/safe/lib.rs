// A safe Rust version of the library's algorithms, on records at a constant width.
// `unsafe` stands only where lent pointers become slices and lent words become records, in answers.rs.

#[path = "../answers.rs"]
mod answers;
mod bitmaps;
mod checks;
mod images;
mod lookups;
mod neighbour_lists;
mod planner;
mod plans;
mod records;
mod steps;

use answers::*;

export_calls!(safe_lookup safe_slot_record safe_plan_insert safe_plan_delete safe_carry_out safe_save safe_load);
