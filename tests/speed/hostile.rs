// The patterns of the tables made to be hostile to the pass over the pairs, or to the update of a neighbour list, and their new rules.
// What costs the pass time: pairs that the maps don't tell apart, and blocks whose lowest priority says nothing. What costs the update
// time: slots that lose their only neighbour, since each searches all others.

use crate::tables::{dense_mask, drawn, falling, from_last, word_mask, Kind, Size};
use reference::bits::Bits;
use support::random::Random;

/// Value of all bits wanted, mask, and rank or, of a new rule, priority.
pub type Pattern = (Bits, Bits, u64);

const LOWER: u64 = 30_000;
/// One-hot rules: so many chains, at places that are spread over all words.
const CHAINS: usize = 128;
/// The words in turn of what the sampled slots have.
const ALIKE: [u64; 2] = [0x6b8b_4567_327b_23c6, 0x643c_9869_6633_4873];

/// The bit that tells the two groups apart: 1 in the one with the high priorities.
fn group() -> Bits {
    Bits::at(0)
}

fn alike(width: usize) -> Bits {
    let words: Vec<u64> = ALIKE.into_iter().cycle().take(width).collect();
    Bits::of_words(&words)
}

/// How many bits a rule of the last table but two cares for: such that as many pairs overlap at either width.
fn more_bits(width: usize) -> usize {
    if width == 2 {
        12
    } else {
        19
    }
}

/// How far apart the slots are that the choice of places looks at.
pub fn sample_step(slots: usize) -> usize {
    slots / 32 + 1
}

pub fn pattern(kind: Kind, (width, slots): Size, slot: usize, random: &mut Random) -> Pattern {
    match kind {
        Kind::TwoGroups => of_group(slot % 2 == 0, width, slot, random),
        Kind::LowInBlocks => of_group(slot % 64 != 0, width, slot, random),
        Kind::OneHot => (Bits::at(slot % CHAINS * width / 2), Bits::all(width), falling(slot)),
        Kind::TwoBits => (drawn(width, random), some_bits(2, width, random), falling(slot)),
        Kind::MoreBits => (drawn(width, random), some_bits(more_bits(width), width, random), falling(slot)),
        _ if kind.is_of_one_neighbour() && slot == slots / 2 => (Bits::NONE, Bits::NONE, falling(slot)),
        _ if kind.is_of_one_neighbour() => (drawn(width, random), other_mask(kind, width), falling(slot)),
        _ if slot % sample_step(slots) == 0 => (alike(width), Bits::all(width), falling(slot)),
        _ => (drawn(width, random), drawn(width, random), falling(slot)),
    }
}

/// The mask of the rules that have one neighbour.
fn other_mask(kind: Kind, width: usize) -> Bits {
    match kind {
        Kind::OneNeighbour => word_mask(0),
        Kind::OneNeighbourLast => word_mask(width - 1),
        _ => Bits::NONE,
    }
}

fn of_group(high: bool, width: usize, slot: usize, random: &mut Random) -> Pattern {
    let mask = group() | dense_mask(width, random);
    if high {
        return (drawn(width, random) | group(), mask, falling(slot));
    }
    (drawn(width, random) & !group(), mask, falling(slot) - LOWER)
}

fn some_bits(count: usize, width: usize, random: &mut Random) -> Bits {
    let mut mask = Bits::NONE;
    let mut left = count;
    while left > 0 {
        let bit = from_last(width, random.below(64 * width));
        left -= usize::from((mask & bit).is_none());
        mask |= bit;
    }
    mask
}

/// A rule that belongs where the empty slot is.
pub fn new_pattern(kind: Kind, (width, slots): Size, random: &mut Random) -> Pattern {
    let here = falling(slots / 2) + 1;
    match kind {
        Kind::TwoGroups | Kind::LowInBlocks => (group(), group(), here),
        Kind::TwoBits | Kind::MoreBits => (Bits::NONE, Bits::NONE, here),
        _ if kind.is_of_one_neighbour() => (drawn(width, random), other_mask(kind, width), falling(slots)),
        _ => (drawn(width, random), Bits::all(width), here),
    }
}
