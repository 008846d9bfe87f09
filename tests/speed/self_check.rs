// The cross-check: all versions give equal results, buffers and cells on the tables of the comparison and on edited inputs.
// It times nothing. It fails on a difference, on a table that is not accepted, and where some refusal is never reached, or no rule
// that is covered, or none that isn't. The calls with a neighbour list are compared with ours without one.

use crate::answers::NO_SLOT;
use crate::cases::{listed_kinds, PAIR_CALLS};
use crate::edits::edit;
use crate::inputs::{inputs_of, perform, Input, Lent};
use crate::listed::writes_without_list;
use crate::listed_check::{self, LISTED_CALLS};
use crate::properties;
use crate::shapes;
use crate::tables::{every_kind, make, Kind, Size, OF_ONE_NEIGHBOUR};
use crate::versions::{versions, Call, Version, OURS};
use crate::SIZES;
use reference::bits::WIDTHS;
use reference::table::{record_words, COUNTED, UNCOUNTED};
use std::collections::BTreeSet;
use support::random::Random;

const EDITED_SIZES: [usize; 11] = [1, 2, 3, 5, 8, 13, 21, 40, 64, 65, 150];
const EDITS: u64 = 500;
/// Of so many edits one is made with lists too.
const EDITS_FOR_LISTS: u64 = 25;
const SEED: u64 = 11;

/// The results that each call must have had at each width: refusals by number, and 2^32 - 1 for a finished plan. Beside them a
/// slot's record has had its words. The calls that compare rules have had theirs of counted tables and of uncounted ones.
const RESULTS: [(Call, &[u64]); 7] = [
    (Call::PlanInsert, &[0, 1, 2, 3, 4, 5, 6, 8, 9, 10, 11, 18]),
    (Call::PlanDelete, &[0, 1, 2, 3, 4, 5, 7, 11]),
    (Call::Lookup, &[0, 1, 2]),
    (Call::SlotRecord, &[0]),
    (Call::CarryOut, &[0, 1, 2, 5, 12, 18, 0xffff_ffff]),
    (Call::Save, &[0, 1, 2, 3, 4, 11]),
    (Call::Load, &[0, 1, 3, 4, 14]),
];

#[derive(Default)]
struct Tally {
    compared: usize,
    different: usize,
    /// By width, call, whether the table is uncounted, and result.
    reached: BTreeSet<(usize, Call, bool, u64)>,
    /// Of the accepted inserts, by width and whether the table is uncounted, whether some rule covers the new one.
    covered: BTreeSet<(usize, bool, bool)>,
    listed: listed_check::Tally,
}

/// Whether all is as it should be.
pub fn run() -> bool {
    let versions = versions();
    let mut tally = Tally::default();
    let mut sound = true;
    for width in WIDTHS {
        for slots in SIZES {
            for kind in every_kind(width).chain(OF_ONE_NEIGHBOUR) {
                sound &= is_as_made(&versions, kind, (width, slots), &mut tally);
            }
        }
        for slots in EDITED_SIZES {
            sound &= are_refused(&versions, (width, slots), &mut tally);
            for kind in every_kind(width) {
                compare_edited(&versions, kind, (width, slots), &mut tally);
            }
        }
    }
    sound & tally.told(versions.len()) & tally.listed.told()
}

/// Whether a table is what its kind says, and each call is accepted.
fn is_as_made(versions: &[Version], kind: Kind, (width, slots): Size, tally: &mut Tally) -> bool {
    let mut sound = properties::hold(kind, (width, slots));
    if !sound {
        println!("speed: the table of {slots} slots, {}, width {width}, is not what it says", kind.name(width));
    }
    let inputs = inputs_of(&make(kind, width, slots));
    for input in &inputs {
        let wanted = if input.call == Call::SlotRecord { record_words(width) as u64 } else { 0 };
        sound &= gives(versions, input, wanted, tally);
    }
    compare_listed(versions, &inputs, tally);
    if listed_kinds(width).any(|one| one == kind) || kind.is_of_one_neighbour() {
        compare_listed(versions, &writes_without_list(kind, &inputs[0]), tally);
    }
    sound
}

/// Whether each call is refused at other widths and with other numbers of words, and a load of the other width's image.
fn are_refused(versions: &[Version], (width, slots): Size, tally: &mut Tally) -> bool {
    let mut sound = true;
    let inputs = inputs_of(&make(Kind::Sparse, width, slots));
    let others = inputs_of(&make(Kind::Sparse, shapes::other_width(width), slots));
    for input in &inputs {
        for misshaped in shapes::misshaped(input) {
            sound &= gives(versions, &misshaped, shapes::wanted(input.call), tally);
        }
        if input.call == Call::Load && slots > 1 {
            sound &= gives(versions, &shapes::other_image(input, &others), 14, tally);
        }
    }
    sound
}

fn compare_edited(versions: &[Version], kind: Kind, (width, slots): Size, tally: &mut Tally) {
    let inputs = inputs_of(&make(kind, width, slots));
    for number in 0..EDITS {
        let mut random = Random::new(SEED + slots as u64, number);
        let edited: Vec<Input> = inputs.iter().map(|input| edit(input, &mut random)).collect();
        for input in &edited {
            compare(versions, input, tally);
        }
        if number % EDITS_FOR_LISTS == 0 {
            compare_listed(versions, &edited, tally);
        }
    }
}

/// Compares the calls with a list, on those of the inputs whose calls take one.
fn compare_listed(versions: &[Version], inputs: &[Input], tally: &mut Tally) {
    for input in inputs.iter().filter(|input| LISTED_CALLS.contains(&input.call)) {
        listed_check::compare(&versions[OURS], input, &mut tally.listed);
    }
}

/// Compares an input to which every version must answer so.
fn gives(versions: &[Version], input: &Input, wanted: u64, tally: &mut Tally) -> bool {
    let result = compare(versions, input, tally);
    if result != wanted {
        let (width, slots) = (input.width, input.table.len() / record_words(input.width));
        println!(
            "speed: {} on {slots} slots of width {width}, width {}, flag {} and edition {} given: result {result:#x}",
            input.call.name(),
            input.given,
            input.uncounted,
            input.edition
        );
    }
    result == wanted
}

/// The first version's result; a difference is printed and counted.
fn compare(versions: &[Version], input: &Input, tally: &mut Tally) -> u64 {
    let mut first = Lent::new(input);
    let result = perform(&versions[0], input, &mut first);
    for version in &versions[1..] {
        let mut lent = Lent::new(input);
        let other = perform(version, input, &mut lent);
        tally.compared += 1;
        if other != result || lent != first {
            tally.different += 1;
            if tally.different <= 5 {
                report(version, input, (result, &first), (other, &lent));
            }
        }
    }
    let number = if input.call == Call::CarryOut { result & 0xffff_ffff } else { result };
    tally.reached.insert((input.width, input.call, input.uncounted != 0 && PAIR_CALLS.contains(&input.call), number));
    if input.call == Call::PlanInsert && result == 0 {
        tally.covered.insert((input.width, input.uncounted != 0, first.cells[1] != NO_SLOT));
    }
    result
}

fn report(version: &Version, input: &Input, ours: (u64, &Lent), other: (u64, &Lent)) {
    let (words, width) = (input.table.len(), input.width);
    println!("speed: {} of {} differs, {words} words, made at width {width}:", input.call.name(), version.name);
    println!("  width {}, flag {} and edition {} given", input.given, input.uncounted, input.edition);
    println!("  ours {:#x}, cells {:x?}, done {}", ours.0, ours.1.cells, ours.1.done);
    println!("  this {:#x}, cells {:x?}, done {}", other.0, other.1.cells, other.1.done);
    let parts = [
        ("table", ours.1.table != other.1.table),
        ("plan", ours.1.plan != other.1.plan),
        ("image", ours.1.image != other.1.image),
    ];
    let changed: Vec<&str> = parts.iter().filter(|part| part.1).map(|part| part.0).collect();
    println!("  buffers that differ: {changed:?}");
}

impl Tally {
    fn told(&self, versions: usize) -> bool {
        let mut missing = 0;
        for (width, (call, results)) in WIDTHS.into_iter().flat_map(|width| RESULTS.map(|row| (width, row))) {
            let part = (call == Call::SlotRecord).then(|| record_words(width) as u64);
            let flags: &[bool] = if PAIR_CALLS.contains(&call) { &[COUNTED, UNCOUNTED] } else { &[COUNTED] };
            for (uncounted, result) in
                flags.iter().flat_map(|flag| results.iter().copied().chain(part).map(move |one| (*flag, one)))
            {
                if !self.reached.contains(&(width, call, uncounted, result)) {
                    println!("speed: {} at width {width}, uncounted: {uncounted}, never gave {result:#x}", call.name());
                    missing += 1;
                }
            }
        }
        println!(
            "speed: self-check: {versions} versions, {} comparisons with ours, {} differences; {} results of calls reached",
            self.compared,
            self.different,
            self.reached.len()
        );
        self.different == 0 && missing == 0 && self.are_covers_told()
    }

    fn are_covers_told(&self) -> bool {
        let mut all = true;
        for (width, uncounted) in WIDTHS.into_iter().flat_map(|width| [COUNTED, UNCOUNTED].map(|flag| (width, flag))) {
            for covered in [false, true] {
                if !self.covered.contains(&(width, uncounted, covered)) {
                    println!("speed: no insert at width {width}, uncounted: {uncounted}, that is accepted, covered: {covered}");
                    all = false;
                }
            }
        }
        all
    }
}
