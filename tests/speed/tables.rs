// The rule tables of the comparison, at any width and number of slots, each with a new rule that it accepts and its edition.
// All are sound: of two overlapping rules the one in the lower slot has the higher rank.

use crate::hostile;
use crate::ids::id_of_place;
use reference::bits::Bits;
use reference::given::{Given, EDITION_10, EDITION_13};
use reference::table::{words_of, Rule, Slot, EXACT_RANK};
use support::random::Random;

/// A table's kind, named as in the printed tables.
#[derive(Clone, Copy, Debug, PartialEq, Eq, PartialOrd, Ord)]
pub enum Kind {
    /// Random ternary patterns, no two overlapping but by chance, and random priorities.
    Sparse,
    /// Nearly all pairs overlap, priorities fall; the empty slot is where the new rule belongs.
    Dense,
    /// The same rules; the empty slot is the last and the new rule belongs first, so that the plan is the longest.
    DenseDown,
    /// The mirror: the empty slot is the first and the new rule belongs last.
    DenseUp,
    /// Sparse patterns, priorities fall.
    Sorted,
    /// Prefixes of 8 to 32 bits, the longest first, by priorities that rise with the length.
    Prefixes,
    /// The first word tells apart half of the pairs, at random, and the second word all.
    Undecided,
    /// The first word tells no pair apart, the second word all.
    SecondWord,
    /// Sparse rules in every second slot.
    HalfEmpty,
    /// Two dense groups, slot by slot in turn, apart by one bit; one has the high priorities: its rules find low ones in every block.
    TwoGroups,
    /// The same, with one rule of the low group in 64 slots.
    LowInBlocks,
    /// Rules that care for all bits, of which one is 1, in turn: a sample sees few of these places.
    OneHot,
    /// Rules that care for 2 bits, at random.
    TwoBits,
    /// Rules that care for more bits, at random: 12 of 128, or so many of 320 that as many pairs overlap.
    MoreBits,
    /// Sparse rules, but those that the choice of places samples have one pattern: no place tells them apart.
    Unsampled,
    /// Only the last word tells pairs apart, and it tells all; at two words that is the second.
    LastWord,
    /// Rules that care for all bits, each of rank 65,536, and a new one of this kind: all inserted under 1.0.
    Exact,
    /// A sparse table whose last rule is sent again: the plan is one put-in over it.
    SentAgain,
    /// The same in a dense table.
    DenseSentAgain,
    /// The same in a sparse table without an empty slot.
    FullSentAgain,
    /// As `Dense`, with two actions in turn and uncounted, so that half of the overlapping pairs are ordered.
    DenseUncounted,
    /// As `Dense`, the new rule below all others; only the last of them covers it, and the slot after that one is empty.
    CoveredLast,
    /// The same, but none covers it: each cares for a bit of the last word, and the new rule for none.
    Overlapped,
    /// A rule without mask bits in the middle of rules that the first word tells apart, priorities fall: it is the only neighbour of each.
    OneNeighbour,
    /// The same, but only the last word tells the others apart.
    OneNeighbourLast,
    /// The same, but uncounted: all overlap, and all but the one in the middle have one action.
    OneNeighbourUncounted,
}

const KINDS: [Kind; 17] = [
    Kind::Sparse,
    Kind::Dense,
    Kind::DenseDown,
    Kind::DenseUp,
    Kind::Sorted,
    Kind::Prefixes,
    Kind::Undecided,
    Kind::SecondWord,
    Kind::LastWord,
    Kind::HalfEmpty,
    Kind::Exact,
    Kind::SentAgain,
    Kind::DenseSentAgain,
    Kind::FullSentAgain,
    Kind::DenseUncounted,
    Kind::CoveredLast,
    Kind::Overlapped,
];

/// The kinds at a width, the hostile ones apart.
pub fn kinds(width: usize) -> Vec<Kind> {
    KINDS.into_iter().filter(|&kind| width > 2 || kind != Kind::LastWord).collect()
}

/// Tables made to be hostile to the pass over the pairs; the first of them are judged by a target, the last two reported.
pub const HOSTILE: [Kind; 6] = [Kind::TwoGroups, Kind::OneHot, Kind::TwoBits, Kind::MoreBits, Kind::LowInBlocks, Kind::Unsampled];
pub const HOSTILE_JUDGED: usize = 4;

/// Tables made to be hostile to the update of a neighbour list; only that is counted on them.
pub const OF_ONE_NEIGHBOUR: [Kind; 3] = [Kind::OneNeighbour, Kind::OneNeighbourLast, Kind::OneNeighbourUncounted];

pub fn every_kind(width: usize) -> impl Iterator<Item = Kind> {
    kinds(width).into_iter().chain(HOSTILE)
}

impl Kind {
    pub fn name(self, width: usize) -> &'static str {
        match self {
            Kind::Sparse => "sparse",
            Kind::Dense => "dense",
            Kind::DenseDown => "dense, long plan down",
            Kind::DenseUp => "dense, long plan up",
            Kind::Sorted => "sorted priorities",
            Kind::Prefixes => "prefixes",
            Kind::Undecided => "first word undecided",
            Kind::SecondWord => "second word decides",
            Kind::LastWord => "last word decides",
            Kind::HalfEmpty => "half-empty",
            Kind::TwoGroups => "two dense groups",
            Kind::LowInBlocks => "dense, a low rule in each block",
            Kind::OneHot => "one-hot chains",
            Kind::TwoBits if width == 2 => "2 of 128 bits",
            Kind::TwoBits => "2 of 320 bits",
            Kind::MoreBits if width == 2 => "12 of 128 bits",
            Kind::MoreBits => "19 of 320 bits",
            Kind::Unsampled => "sampled slots alike",
            Kind::Exact => "exact, under 1.0",
            Kind::SentAgain => "sparse, a rule sent again",
            Kind::DenseSentAgain => "dense, a rule sent again",
            Kind::FullSentAgain => "full, a rule sent again",
            Kind::DenseUncounted => "dense, uncounted",
            Kind::CoveredLast => "dense, covered by the last rule",
            Kind::Overlapped => "dense, overlapped by every rule",
            Kind::OneNeighbour => "one neighbour of all",
            Kind::OneNeighbourLast => "one neighbour of all, last word decides",
            Kind::OneNeighbourUncounted => "one neighbour of all, uncounted",
        }
    }

    /// Whether some rule of the table, the new one apart, has every mask bit set.
    pub fn has_full_masks(self) -> bool {
        matches!(self, Kind::OneHot | Kind::Unsampled | Kind::Exact)
    }

    /// Whether the new rule replaces the last one of the table.
    pub fn is_sent_again(self) -> bool {
        matches!(self, Kind::SentAgain | Kind::DenseSentAgain | Kind::FullSentAgain)
    }

    /// Whether the table is named as uncounted.
    pub fn is_uncounted(self) -> bool {
        matches!(self, Kind::DenseUncounted | Kind::OneNeighbourUncounted)
    }

    /// Whether the rule in the middle is the only neighbour of each other.
    pub fn is_of_one_neighbour(self) -> bool {
        OF_ONE_NEIGHBOUR.contains(&self)
    }

    /// Whether the table is made for the search of a rule that covers the new one: all of its rules are ranked above that.
    pub fn is_for_cover(self) -> bool {
        matches!(self, Kind::CoveredLast | Kind::Overlapped)
    }

    /// Under 1.3 a new rule with every mask bit set, as some tables have one, gets its priority for its rank.
    fn edition(self) -> u32 {
        match self {
            Kind::Exact => EDITION_10,
            _ => EDITION_13,
        }
    }

    fn is_empty_at(self, slots: usize, slot: usize) -> bool {
        match self {
            Kind::HalfEmpty => slot % 2 == 1,
            Kind::DenseDown | Kind::CoveredLast | Kind::Overlapped => slot == slots - 1,
            Kind::OneNeighbour | Kind::OneNeighbourLast | Kind::OneNeighbourUncounted => slot == slots - 1,
            Kind::DenseUp => slot == 0,
            Kind::FullSentAgain => false,
            _ => slot == slots / 2,
        }
    }
}

pub struct RuleTable {
    pub width: usize,
    pub words: Vec<u64>,
    pub new: Given,
    pub edition: u32,
    pub uncounted: bool,
}

/// A width and a number of slots.
pub type Size = (usize, usize);

const SEED: u64 = 20_261_116;
/// For each word of a value so many bits, of which a dense rule cares for one: at two words two rules in 208 are then apart.
const DENSE_BITS: usize = 52;
const DENSE_PRIORITY: u64 = 60_000;
const LEVELS: usize = 60_000;

pub fn make(kind: Kind, width: usize, slots: usize) -> RuleTable {
    let mut random = Random::new(SEED, kind as u64);
    let mut rules: Vec<Rule> = Vec::new();
    for slot in 0..slots {
        let rule = fitting_rule(kind, (width, slots), slot, &rules, &mut random);
        rules.push(rule);
    }
    if kind == Kind::Prefixes {
        rules.sort_by_key(|rule| 65_535 - rule.rank);
    }
    let entry = |(slot, rule): (usize, &Rule)| if kind.is_empty_at(slots, slot) { None } else { Some(*rule) };
    let entries: Vec<Slot> = rules.iter().enumerate().map(entry).collect();
    let new = match entries.last() {
        Some(Some(last)) if kind.is_sent_again() => sent_again(last, slots),
        _ => new_rule(kind, (width, slots), &mut random),
    };
    RuleTable { width, words: words_of(&entries, width), new, edition: kind.edition(), uncounted: kind.is_uncounted() }
}

/// A rule that may stand after those before it.
fn fitting_rule(kind: Kind, size: Size, slot: usize, before: &[Rule], random: &mut Random) -> Rule {
    loop {
        let rule = any_rule(kind, size, slot, random);
        let clash = |earlier: &Rule| match kind {
            Kind::Prefixes => earlier.value == rule.value && earlier.mask == rule.mask,
            _ => earlier.is_ordered_with(&rule, kind.is_uncounted()) && earlier.rank <= rule.rank,
        };
        if !before.iter().any(clash) {
            return rule;
        }
    }
}

/// Priorities that fall with the slots, with room between any two.
pub fn falling(slot: usize) -> u64 {
    DENSE_PRIORITY - 2 * slot as u64
}

/// A value of so many words, drawn at random.
pub fn drawn(width: usize, random: &mut Random) -> Bits {
    let words: Vec<u64> = (0..width).map(|_| random.word()).collect();
    Bits::of_words(&words)
}

/// One bit, counted from the last.
pub fn from_last(width: usize, bit: usize) -> Bits {
    Bits::at(64 * width - 1 - bit)
}

/// The one bit that a dense rule cares for.
pub fn dense_mask(width: usize, random: &mut Random) -> Bits {
    from_last(width, random.below(DENSE_BITS * width))
}

fn prefix(length: usize) -> Bits {
    Bits::number(0, length, (1 << length) - 1)
}

/// All bits of one word.
pub fn word_mask(word: usize) -> Bits {
    Bits::number(64 * word, 64, usize::MAX)
}

/// One bit of the first word, all of the second.
fn undecided_mask() -> Bits {
    Bits::at(0) | word_mask(1)
}

fn any_rule(kind: Kind, (width, slots): Size, slot: usize, random: &mut Random) -> Rule {
    let (wanted, mask, rank) = match kind {
        Kind::Sparse | Kind::HalfEmpty | Kind::SentAgain | Kind::FullSentAgain => {
            (drawn(width, random), drawn(width, random), random.below(LEVELS) as u64)
        }
        Kind::Sorted => (drawn(width, random), drawn(width, random), falling(slot)),
        Kind::CoveredLast if slot + 2 == slots => (Bits::NONE, Bits::NONE, falling(slot)),
        Kind::Dense | Kind::DenseDown | Kind::DenseUp | Kind::DenseSentAgain | Kind::DenseUncounted | Kind::CoveredLast => {
            (drawn(width, random), dense_mask(width, random), falling(slot))
        }
        Kind::Overlapped => (drawn(width, random), from_last(width, random.below(DENSE_BITS)), falling(slot)),
        Kind::Prefixes => {
            let length = random.between(8, 32);
            (drawn(width, random), prefix(length), 100 * length as u64)
        }
        Kind::Undecided => (drawn(width, random), undecided_mask(), random.below(LEVELS) as u64),
        Kind::SecondWord => (drawn(width, random), word_mask(1), random.below(LEVELS) as u64),
        Kind::LastWord => (drawn(width, random), word_mask(width - 1), random.below(LEVELS) as u64),
        Kind::Exact => (drawn(width, random), Bits::all(width), EXACT_RANK),
        _ => hostile::pattern(kind, (width, slots), slot, random),
    };
    let action = match kind {
        Kind::DenseUncounted => slot as u32 % 2,
        Kind::OneNeighbourUncounted => u32::from(slot == slots / 2),
        _ => slot as u32 ^ 0x5a5a,
    };
    Rule { id: id_of_place(slot), rank, value: wanted & mask, mask, action }
}

/// A rule of the table as it is sent again, with an id and an action of its own.
fn sent_again(rule: &Rule, slots: usize) -> Given {
    Given { id: new_id(slots), priority: rule.rank, value: rule.value, mask: rule.mask, action: 5 }
}

/// An id that no table of so many slots has.
fn new_id(slots: usize) -> u32 {
    id_of_place(slots + 7)
}

fn new_rule(kind: Kind, (width, slots): Size, random: &mut Random) -> Given {
    let id = new_id(slots);
    let (wanted, mask, priority) = match kind {
        Kind::Sparse | Kind::Sorted | Kind::HalfEmpty | Kind::Exact | Kind::SentAgain | Kind::FullSentAgain => {
            (drawn(width, random), Bits::all(width), 30_001)
        }
        Kind::Dense | Kind::DenseSentAgain | Kind::DenseUncounted => (Bits::NONE, Bits::NONE, falling(slots / 2) + 1),
        Kind::DenseDown => (Bits::NONE, Bits::NONE, falling(0) + 1),
        Kind::DenseUp | Kind::CoveredLast | Kind::Overlapped => (Bits::NONE, Bits::NONE, falling(slots) + 1),
        Kind::Prefixes => (drawn(width, random), prefix(20), 2000),
        Kind::Undecided => (drawn(width, random), undecided_mask(), 30_001),
        Kind::SecondWord => (drawn(width, random), word_mask(1), 30_001),
        Kind::LastWord => (drawn(width, random), word_mask(width - 1), 30_001),
        _ => hostile::new_pattern(kind, (width, slots), random),
    };
    Given { id, priority, value: wanted & mask, mask, action: 5 }
}
