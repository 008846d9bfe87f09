// The neighbour list of a table, and check 4, in one pass over the pairs of its rules: slot after slot is asked against the
// earlier ones, in blocks of 64 going down, the highest slot of a block first, and noted for the later ones.

use crate::answers::{Record, EXACT_RANK, SLOTS_MOST};
use crate::bitmaps::{apart_in, choose_places, fill_rows, note_rows, spread_places, Spread, PLACES_MOST, PLACE_WORDS};
use crate::records::{at, id_of, overlap, put, rules_overlap};

pub const NONE: u16 = 65_535;
/// Below so many slots no maps are used.
const MAPS_FROM: usize = 160;
/// For up to so many places smaller maps are used: large ones cost more to clear than they save.
const PLACES_FEW: usize = 8;

/// At 2 i the nearest slot after slot i whose rule depends on its, at 2 i + 1 the nearest before it whose rule precedes its;
/// 65,535 for none.
pub type Near = [u16; 2 * SLOTS_MOST];

/// full: the rules before a slot; free: those of them without a dependant yet; low: for each block a number that no rank of its
/// rules is below. Beside them whether the table is uncounted.
struct Marks {
    full: [u64; 16],
    free: [u64; 16],
    low: [u64; 16],
    uncounted: bool,
}

/// The slots of a block that are to be asked. Once the later slot has its preceding rule, a block of higher ranks has nothing to
/// tell but to the rules that have no dependant.
unsafe fn needed(near: &Near, marks: &Marks, block: usize, later: usize, rank: u64) -> u64 {
    if at(near, 2 * later + 1) == NONE || at(&marks.low, block) <= rank {
        at(&marks.full, block)
    } else {
        at(&marks.free, block)
    }
}

/// A pair whose first rule precedes the second: each number is kept where there was none.
unsafe fn keep_pair(near: &mut Near, marks: &mut Marks, slot: usize, later: usize) {
    if at(near, 2 * slot) == NONE {
        put(near, 2 * slot, later as u16);
        *marks.free.get_unchecked_mut(slot / 64) &= !(1 << (slot % 64));
    }
    if at(near, 2 * later + 1) == NONE {
        put(near, 2 * later + 1, slot as u16);
    }
}

/// One pair asked: its numbers are kept, and whether it is out of order is told.
unsafe fn ask_pair<const W: usize>(records: &[Record<W>], near: &mut Near, marks: &mut Marks, slot: usize, later: usize) -> bool {
    let (first, second) = (records.get_unchecked(slot), records.get_unchecked(later));
    if !rules_overlap(first, second, marks.uncounted) {
        return false;
    }
    if first.rank <= second.rank {
        return true;
    }
    keep_pair(near, marks, slot, later);
    false
}

/// Whether a pair need not be asked: both slots have their numbers and the ranks fall, or the patterns do not overlap.
unsafe fn quiet<const W: usize>(records: &[Record<W>], near: &Near, slot: usize, later: usize) -> bool {
    let (first, second) = (records.get_unchecked(slot), records.get_unchecked(later));
    let settled = at(near, 2 * later + 1) != NONE && first.rank > second.rank && at(near, 2 * slot) != NONE;
    settled || !overlap(first, second)
}

/// The bits of a block left once quiet pairs are dropped, from the highest on, up to the first that is to be asked.
unsafe fn skip_quiet<const W: usize>(records: &[Record<W>], near: &Near, block: usize, some: u64, later: usize) -> u64 {
    let mut left = some;
    while left != 0 {
        let top = 63 - left.leading_zeros() as usize;
        if !quiet(records, near, 64 * block + top, later) {
            return left;
        }
        left -= 1 << top;
    }
    0
}

/// The slots of a block whose bits are left, asked from the highest on; whether a pair is out of order.
unsafe fn ask_block<const W: usize>(
    records: &[Record<W>],
    near: &mut Near,
    marks: &mut Marks,
    block: usize,
    some: u64,
    later: usize,
) -> bool {
    let rank = records.get_unchecked(later).rank;
    let mut left = some;
    let mut bad = false;
    while left != 0 {
        let top = 63 - left.leading_zeros() as usize;
        bad |= ask_pair(records, near, marks, 64 * block + top, later);
        let rest = (left - (1 << top)) & needed(near, marks, block, later, rank);
        left = skip_quiet(records, near, block, rest, later);
    }
    bad
}

/// A slot against all earlier ones, those not asked that need not be or that the maps tell apart.
unsafe fn ask_row<const W: usize>(
    records: &[Record<W>],
    near: &mut Near,
    marks: &mut Marks,
    maps: &[u64],
    rows: &[usize],
    later: usize,
) -> bool {
    let rank = records.get_unchecked(later).rank;
    let mut block = later / 64 + 1;
    let mut bad = false;
    while block > 0 {
        block -= 1;
        let some = needed(near, marks, block, later, rank);
        if some != 0 {
            bad |= ask_block(records, near, marks, block, some & !apart_in(maps, rows, block), later);
        }
    }
    bad
}

unsafe fn note_rule(marks: &mut Marks, slot: usize, rank: u64) {
    let block = slot / 64;
    *marks.full.get_unchecked_mut(block) |= 1 << (slot % 64);
    *marks.free.get_unchecked_mut(block) |= 1 << (slot % 64);
    let low = marks.low.get_unchecked_mut(block);
    *low = rank.min(*low);
}

unsafe fn pass_with<const W: usize>(
    records: &[Record<W>],
    uncounted: bool,
    near: &mut Near,
    maps: &mut [u64],
    spread: &Spread<W>,
) -> usize {
    let mut marks = Marks { full: [0; 16], free: [0; 16], low: [EXACT_RANK; 16], uncounted };
    let mut others = [0; PLACES_MOST];
    let mut own = [0; PLACES_MOST];
    let mut first = 0;
    let mut slot = 0;
    while slot < records.len() {
        put(near, 2 * slot, NONE);
        put(near, 2 * slot + 1, NONE);
        let record = records.get_unchecked(slot);
        let mut bad = false;
        if id_of(record) != 0 {
            let used = fill_rows(record, spread, &mut others, &mut own);
            bad = ask_row(records, near, &mut marks, maps, others.get_unchecked(..used), slot);
            note_rows(maps, own.get_unchecked(..used), slot);
            note_rule(&mut marks, slot, record.rank);
        }
        if first == slot && !bad {
            first += 1;
        }
        slot += 1;
    }
    first
}

unsafe fn pass_screened<const W: usize>(records: &[Record<W>], uncounted: bool, near: &mut Near) -> usize {
    let mut places = [0; PLACES_MOST];
    let count = choose_places(records, &mut places);
    let spread = spread_places(places.get_unchecked(..count));
    if count <= PLACES_FEW {
        return pass_with(records, uncounted, near, &mut [0; PLACE_WORDS * PLACES_FEW], &spread);
    }
    pass_with(records, uncounted, near, &mut [0; PLACE_WORDS * PLACES_MOST], &spread)
}

/// The neighbour list of a table, into the front of a lent list; the lowest slot that is out of order, or the number of slots.
///
/// # Safety
/// There are 1 to 1,024 records.
pub unsafe fn fill_near<const W: usize>(records: &[Record<W>], uncounted: bool, near: &mut Near) -> usize {
    if records.len() < MAPS_FROM {
        return pass_with(records, uncounted, near, &mut [0; 16], &Spread::NONE);
    }
    pass_screened(records, uncounted, near)
}
