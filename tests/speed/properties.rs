// What the tables of the comparison are made for, counted: rules, pairs that overlap, pairs that the first word tells apart, writes, and
// what is above the new rule.
// The self-check holds each table to it; the instruction counts are printed with it.

use crate::hostile::sample_step;
use crate::tables::{every_kind, make, Kind, Size, OF_ONE_NEIGHBOUR};
use reference::bits::Bits;
use reference::plan::{plan_insert, write_word, PUT_IN};
use reference::table::{read_sound_table, Rule, Slot, EXACT_RANK};

pub struct Properties {
    pub rules: usize,
    pub pairs: usize,
    pub overlapping: usize,
    /// For each word the pairs that it tells apart and no word before it does.
    pub apart_by_word: Vec<usize>,
    pub falling: bool,
    /// Whether the slots that the choice of places looks at have one pattern.
    pub sampled_alike: bool,
    /// Rules with every mask bit set, and those of rank 65,536.
    pub full_masks: usize,
    pub ranked_highest: usize,
    pub writes: usize,
    /// Whether the new rule goes over the last one of the table.
    pub replaces: bool,
    /// Pairs of one action, of all.
    pub of_one_action: f64,
    /// Rules of a higher rank that overlap the new one, and the slot of the lowest that covers it.
    pub above: usize,
    pub covered: Option<usize>,
}

pub fn properties(kind: Kind, (width, slots): Size) -> Properties {
    let table = make(kind, width, slots);
    let entries = read_sound_table(&table.words, width, table.uncounted).expect("a sound table");
    let sampled_alike = are_sampled_alike(&entries);
    let rule = table.new.record(width);
    let planned = plan_insert(&table.words, width, table.uncounted, &rule, table.edition, slots);
    let (plan, covered) = planned.map(|planned| (planned.writes, planned.covered)).unwrap_or_default();
    let replaces = entries[slots - 1].is_some() && plan == [write_word(PUT_IN, slots - 1)];
    let rules: Vec<Rule> = entries.into_iter().flatten().collect();
    let new = table.new.ranked(width, table.edition).expect("a sound rule");
    let mut counted = Properties {
        rules: rules.len(),
        pairs: rules.len() * (rules.len() - 1) / 2,
        overlapping: 0,
        apart_by_word: vec![0; width],
        falling: rules.windows(2).all(|pair| pair[0].rank > pair[1].rank),
        sampled_alike,
        full_masks: rules.iter().filter(|rule| rule.mask == Bits::all(width)).count(),
        ranked_highest: rules.iter().filter(|rule| rule.rank == EXACT_RANK).count(),
        writes: plan.len(),
        replaces,
        of_one_action: 0.0,
        above: rules.iter().filter(|rule| rule.rank > new.rank && rule.overlaps(&new)).count(),
        covered,
    };
    count_pairs(&mut counted, &rules, width);
    counted
}

fn count_pairs(counted: &mut Properties, rules: &[Rule], width: usize) {
    let mut of_one_action = 0;
    for (place, rule) in rules.iter().enumerate() {
        for earlier in &rules[..place] {
            of_one_action += usize::from(earlier.action == rule.action);
            let apart = (earlier.value ^ rule.value) & earlier.mask & rule.mask;
            match apart.words(width).iter().position(|&word| word != 0) {
                Some(word) => counted.apart_by_word[word] += 1,
                None => counted.overlapping += 1,
            }
        }
    }
    counted.of_one_action = of_one_action as f64 / counted.pairs as f64;
}

fn are_sampled_alike(entries: &[Slot]) -> bool {
    let sampled: Vec<&Rule> = entries.iter().step_by(sample_step(entries.len())).take(32).flatten().collect();
    sampled.windows(2).all(|pair| pair[0].value == pair[1].value && pair[0].mask == pair[1].mask)
}

/// Whether the pairs of a table are what its kind says, and the order of its ranks.
fn is_of_kind(kind: Kind, counted: &Properties, (width, slots): Size) -> bool {
    let share = |count: usize| count as f64 / counted.pairs as f64;
    let (overlapping, apart) = (share(counted.overlapping), share(counted.apart_by_word[0]));
    let pairs_beside_one = counted.pairs - (counted.rules - 1);
    let all_apart_by = |word: usize| counted.apart_by_word[word] == counted.pairs;
    match kind {
        Kind::Sparse | Kind::HalfEmpty | Kind::SentAgain | Kind::FullSentAgain => {
            overlapping < 0.001 && apart > 0.99 && !counted.falling
        }
        Kind::Sorted => overlapping < 0.001 && apart > 0.99 && counted.falling,
        Kind::Dense | Kind::DenseSentAgain | Kind::CoveredLast => overlapping > 0.99 && counted.falling,
        Kind::Overlapped => overlapping > 0.98 && counted.falling,
        Kind::DenseUncounted => {
            overlapping > 0.99 && counted.falling && counted.of_one_action > 0.45 && counted.of_one_action < 0.55
        }
        Kind::DenseDown | Kind::DenseUp => overlapping > 0.99 && counted.falling && 10 * counted.writes > 8 * slots,
        Kind::Prefixes => counted.overlapping > 0 && overlapping < 0.01 && apart > 0.99,
        Kind::Undecided => counted.overlapping == 0 && apart > 0.45 && apart < 0.55 && !counted.falling,
        Kind::SecondWord => all_apart_by(1) && !counted.falling,
        Kind::LastWord => all_apart_by(width - 1) && !counted.falling,
        Kind::TwoGroups => overlapping > 0.45 && overlapping < 0.55 && !counted.falling,
        Kind::LowInBlocks => overlapping > 0.95 && !counted.falling,
        Kind::OneHot => counted.overlapping > 0 && overlapping < 0.01 && counted.falling,
        Kind::TwoBits => overlapping > 0.95 && counted.falling,
        Kind::MoreBits => overlapping > 0.4 && overlapping < 0.7 && counted.falling,
        Kind::Unsampled => overlapping < 0.02 && counted.sampled_alike && counted.falling,
        Kind::OneNeighbour => counted.falling && counted.apart_by_word[0] == pairs_beside_one,
        Kind::OneNeighbourLast => counted.falling && counted.apart_by_word[width - 1] == pairs_beside_one,
        Kind::OneNeighbourUncounted => counted.falling && counted.overlapping == counted.pairs,
        Kind::Exact => counted.overlapping == 0 && apart > 0.99 && counted.full_masks == counted.rules,
    }
}

/// Whether what is above the new rule is what the kind says: which rule covers it, and in the tables that are made for it all overlap
/// it.
fn is_covered_so(kind: Kind, counted: &Properties, slots: usize) -> bool {
    let of_cover = match kind {
        Kind::CoveredLast => counted.covered == Some(slots - 2),
        Kind::DenseSentAgain => true,
        Kind::OneNeighbour | Kind::OneNeighbourLast => counted.covered == Some(slots / 2),
        Kind::OneNeighbourUncounted => counted.covered == Some(0),
        _ => counted.covered.is_none(),
    };
    of_cover && (counted.above == counted.rules || !kind.is_for_cover())
}

/// Whether a table is what its kind says.
pub fn hold(kind: Kind, (width, slots): Size) -> bool {
    let counted = properties(kind, (width, slots));
    let rules = match kind {
        Kind::HalfEmpty => slots / 2,
        Kind::FullSentAgain => slots,
        _ => slots - 1,
    };
    let ranked_highest = if kind == Kind::Exact { rules } else { 0 };
    let of_masks = (counted.full_masks > 0) == kind.has_full_masks() && counted.ranked_highest == ranked_highest;
    let of_plan = counted.writes > 0 && counted.replaces == kind.is_sent_again() && is_covered_so(kind, &counted, slots);
    is_of_kind(kind, &counted, (width, slots)) && of_masks && of_plan && counted.rules == rules
}

pub fn print((width, slots): Size) {
    println!("### The tables, {slots} slots\n");
    println!("| Table | rules | pairs | of them overlapping | apart by the first word | writes of the plan | covered by slot |");
    println!("|---|---|---|---|---|---|---|");
    for kind in every_kind(width).chain(OF_ONE_NEIGHBOUR) {
        let counted = properties(kind, (width, slots));
        let covered = counted.covered.map_or("none".to_string(), |slot| slot.to_string());
        println!(
            "| {} | {} | {} | {} | {} | {} | {covered} |",
            kind.name(width),
            counted.rules,
            counted.pairs,
            counted.overlapping,
            counted.apart_by_word[0],
            counted.writes
        );
    }
    println!();
}
