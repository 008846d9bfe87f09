// A hand-written Rust version of the same algorithms without bounds checks, by `get_unchecked`.
// Slots are counted once, by check 1; each unchecked index stands below that count or below the length just tested.

#[path = "../answers.rs"]
mod answers;
mod bitmaps;
mod checks;
mod images;
mod lookups;
mod neighbour_lists;
mod planner;
mod plans;
mod records;
mod steps;

use answers::*;

export_calls!(
    unchecked_lookup unchecked_slot_record unchecked_plan_insert unchecked_plan_delete unchecked_carry_out unchecked_save
    unchecked_load
);
