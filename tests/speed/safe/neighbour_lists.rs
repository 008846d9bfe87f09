// The neighbour list of a table, and check 4, in one pass over the pairs of its rules: slot after slot is asked against the
// earlier ones, in blocks of 64 going down, the highest slot of a block first, and noted for the later ones.

use crate::answers::{Record, EXACT_RANK};
use crate::bitmaps::{apart_in, choose_places, fill_rows, note_rows, spread_places, Spread, PLACES_MOST, PLACE_WORDS};
use crate::records::{id_of, overlap, rules_overlap};

pub const NONE: u16 = 65_535;
/// Below so many slots no maps are used.
const MAPS_FROM: usize = 160;
/// For up to so many places smaller maps are used: large ones cost more to clear than they save.
const PLACES_FEW: usize = 8;

/// The nearest slot after a rule whose rule depends on it, and the nearest before it whose rule precedes it; 65,535 for none.
#[derive(Clone, Copy)]
pub struct Near {
    pub next: u16,
    pub before: u16,
}

/// full: the rules before a slot; free: those of them without a dependant yet; low: for each block a number that no rank of its
/// rules is below. Beside them whether the table is uncounted.
struct Marks {
    full: [u64; 16],
    free: [u64; 16],
    low: [u64; 16],
    uncounted: bool,
}

impl Marks {
    /// The slots of a block that are to be asked. Once the later slot has its preceding rule, a block of higher ranks has nothing to
    /// tell but to the rules that have no dependant.
    fn needed(&self, later: &Near, block: usize, rank: u64) -> u64 {
        if later.before == NONE || self.low[block] <= rank {
            self.full[block]
        } else {
            self.free[block]
        }
    }

    fn note_rule(&mut self, slot: usize, rank: u64) {
        let block = slot / 64;
        self.full[block] |= 1 << (slot % 64);
        self.free[block] |= 1 << (slot % 64);
        self.low[block] = self.low[block].min(rank);
    }

    /// A pair whose first rule precedes the second: each number is kept where there was none.
    fn keep_pair(&mut self, near: &mut [Near], slot: usize, later: usize) {
        if near[slot].next == NONE {
            near[slot].next = later as u16;
            self.free[slot / 64] &= !(1 << (slot % 64));
        }
        if near[later].before == NONE {
            near[later].before = slot as u16;
        }
    }

    /// One pair asked: its numbers are kept, and whether it is out of order is told.
    fn ask_pair<const W: usize>(&mut self, records: &[Record<W>], near: &mut [Near], slot: usize, later: usize) -> bool {
        let (first, second) = (&records[slot], &records[later]);
        if !rules_overlap(first, second, self.uncounted) {
            return false;
        }
        if first.rank <= second.rank {
            return true;
        }
        self.keep_pair(near, slot, later);
        false
    }

    /// The slots of a block whose bits are left, asked from the highest on; whether a pair is out of order.
    fn ask_block<const W: usize>(
        &mut self,
        records: &[Record<W>],
        near: &mut [Near],
        block: usize,
        some: u64,
        later: usize,
    ) -> bool {
        let mut left = some;
        let mut bad = false;
        while left != 0 {
            let top = 63 - left.leading_zeros() as usize;
            bad |= self.ask_pair(records, near, 64 * block + top, later);
            let rest = (left - (1 << top)) & self.needed(&near[later], block, records[later].rank);
            left = skip_quiet(records, near, block, rest, later);
        }
        bad
    }

    /// A slot against all earlier ones, those not asked that need not be or that the maps tell apart.
    fn ask_row<const W: usize>(
        &mut self,
        records: &[Record<W>],
        near: &mut [Near],
        maps: &[u64],
        rows: &[usize],
        later: usize,
    ) -> bool {
        let mut bad = false;
        for block in (0..later / 64 + 1).rev() {
            let some = self.needed(&near[later], block, records[later].rank);
            if some != 0 {
                bad |= self.ask_block(records, near, block, some & !apart_in(maps, rows, block), later);
            }
        }
        bad
    }
}

/// Whether a pair need not be asked: both slots have their numbers and the ranks fall, or the patterns do not overlap.
fn quiet<const W: usize>(records: &[Record<W>], near: &[Near], slot: usize, later: usize) -> bool {
    let (first, second) = (&records[slot], &records[later]);
    let settled = near[later].before != NONE && first.rank > second.rank && near[slot].next != NONE;
    settled || !overlap(first, second)
}

/// The bits of a block left once quiet pairs are dropped, from the highest on, up to the first that is to be asked.
fn skip_quiet<const W: usize>(records: &[Record<W>], near: &[Near], block: usize, some: u64, later: usize) -> u64 {
    let mut left = some;
    while left != 0 {
        let top = 63 - left.leading_zeros() as usize;
        if !quiet(records, near, 64 * block + top, later) {
            return left;
        }
        left -= 1 << top;
    }
    0
}

fn pass_with<const W: usize>(
    records: &[Record<W>],
    uncounted: bool,
    near: &mut [Near],
    maps: &mut [u64],
    spread: &Spread<W>,
) -> usize {
    let mut marks = Marks { full: [0; 16], free: [0; 16], low: [EXACT_RANK; 16], uncounted };
    let mut others = [0; PLACES_MOST];
    let mut own = [0; PLACES_MOST];
    let mut first = 0;
    for (slot, record) in records.iter().enumerate() {
        near[slot] = Near { next: NONE, before: NONE };
        let mut bad = false;
        if id_of(record) != 0 {
            let used = fill_rows(record, spread, &mut others, &mut own);
            bad = marks.ask_row(records, near, maps, &others[..used], slot);
            note_rows(maps, &own[..used], slot);
            marks.note_rule(slot, record.rank);
        }
        if first == slot && !bad {
            first += 1;
        }
    }
    first
}

fn pass_screened<const W: usize>(records: &[Record<W>], uncounted: bool, near: &mut [Near]) -> usize {
    let mut places = [0; PLACES_MOST];
    let count = choose_places(records, &mut places);
    let spread = spread_places(&places[..count]);
    if count <= PLACES_FEW {
        return pass_with(records, uncounted, near, &mut [0; PLACE_WORDS * PLACES_FEW], &spread);
    }
    pass_with(records, uncounted, near, &mut [0; PLACE_WORDS * PLACES_MOST], &spread)
}

/// The neighbour list of a table, into the front of a lent list; the lowest slot that is out of order, or the number of slots.
pub fn fill_near<const W: usize>(records: &[Record<W>], uncounted: bool, near: &mut [Near]) -> usize {
    if records.len() < MAPS_FROM {
        return pass_with(records, uncounted, near, &mut [0; 16], &Spread::NONE);
    }
    pass_screened(records, uncounted, near)
}
