// Document 02's 2026-05 on the reference: what two patterns are to each other, beside the keys that match them, and the slot of the
// rule that covers a new one.

use crate::bits::{Bits, WIDTHS};
use crate::cover::{compare, Comparison};
use crate::edge_test::{of_each_kind, put, rule, told, uncovered};
use crate::given::{EDITION_10, EDITION_13};
use crate::plan::{plan_insert, write_word, Planned};
use crate::table::*;

/// Every key over some places, all other bits 0.
fn every_key(places: &[usize]) -> Vec<Bits> {
    let key_of = |number: usize| {
        let is_set = |(bit, _): &(usize, &usize)| number >> bit & 1 == 1;
        places.iter().enumerate().filter(is_set).fold(Bits::NONE, |key, (_, &place)| key | Bits::at(place))
    };
    (0..1 << places.len()).map(key_of).collect()
}

/// Every pattern over some places, with 0, 1 or no care at each. At all others it doesn't care, or asks for 0.
fn every_pattern(places: &[usize], width: usize, others_cared_for: bool) -> Vec<Rule> {
    let all_others = every_key(places).into_iter().fold(Bits::all(width), |others, key| others & !key);
    let start = if others_cared_for { all_others } else { Bits::NONE };
    let mut patterns = vec![Rule { mask: start, ..rule(1, 5, "") }];
    for &place in places {
        let one = Bits::at(place);
        let with_place = |pattern: Rule| {
            let asking = Rule { mask: pattern.mask | one, ..pattern };
            [pattern, asking, Rule { value: pattern.value | one, ..asking }]
        };
        patterns = patterns.into_iter().flat_map(with_place).collect();
    }
    patterns
}

/// By the keys alone: which of them match the one and which the other.
fn by_keys(first: &Rule, second: &Rule, keys: &[Bits]) -> Comparison {
    let every_key_of = |of: &Rule, matches: &Rule| keys.iter().filter(|key| of.matches(**key)).all(|key| matches.matches(*key));
    if !keys.iter().any(|key| first.matches(*key) && second.matches(*key)) {
        Comparison::Apart
    } else if every_key_of(second, first) {
        Comparison::FirstCovers
    } else if every_key_of(first, second) {
        Comparison::SecondCovers
    } else {
        Comparison::Overlapping
    }
}

#[test]
fn every_pair_of_patterns_beside_every_key() {
    for width in WIDTHS {
        let last = 64 * width - 1;
        for (places, others_cared_for) in
            [([0, 1, 2, last], false), ([63, last - 63, last - 1, last], false), ([0, 63, 64, last], true)]
        {
            let (keys, patterns) = (every_key(&places), every_pattern(&places, width, others_cared_for));
            assert_eq!(patterns.len(), 81);
            for (first, second) in patterns.iter().flat_map(|first| patterns.iter().map(move |second| (first, second))) {
                assert_eq!(compare(first, second), by_keys(first, second, &keys), "{first:x?} {second:x?}");
            }
        }
    }
}

#[test]
fn four_comparisons() {
    let of = |first: &str, second: &str| compare(&rule(1, 5, first), &rule(2, 5, second));
    assert_eq!(of("10", "11"), Comparison::Apart);
    assert_eq!(of("1", "*1"), Comparison::Overlapping);
    assert_eq!(of("1", "11"), Comparison::FirstCovers);
    assert_eq!(of("11", "1"), Comparison::SecondCovers);
    assert_eq!(of("11", "11"), Comparison::FirstCovers);
    assert_eq!(of("", ""), Comparison::FirstCovers);
    // the mask lies within the other's, and the values differ
    assert_eq!(of("0", "11"), Comparison::Apart);
}

fn covered_by(slot: usize, writes: Vec<u32>) -> Result<Planned, Refusal> {
    Ok(Planned { writes, covered: Some(slot) })
}

/// What is told of an insert, of a counted table and of an uncounted one.
fn of_either(slots: &[Slot], new: &Rule) -> Result<Planned, Refusal> {
    of_each_kind(|uncounted| told(uncounted, slots, new, slots.len()))
}

/// [1/40 `10`, 2/30 `1`, 3/20 `*`, –].
fn nested() -> [Slot; 4] {
    [Some(rule(1, 40, "10")), Some(rule(2, 30, "1")), Some(rule(3, 20, "")), None]
}

#[test]
fn the_lowest_higher_ranked_rule_that_covers_the_new_one() {
    let planned = |rank: u64, pattern: &str| of_either(&nested(), &rule(9, rank, pattern));
    assert_eq!(planned(10, "11"), covered_by(1, vec![put(3)]));
    assert_eq!(planned(25, "11"), covered_by(1, vec![write_word(2, 3), put(2)]));
    assert_eq!(planned(35, "11"), uncovered(vec![write_word(2, 3), write_word(1, 2), put(1)]));
    assert_eq!(planned(29, "1"), covered_by(1, vec![write_word(2, 3), put(2)]));
    assert_eq!(planned(10, "01"), covered_by(2, vec![put(3)]));
    assert_eq!(planned(19, "10"), covered_by(0, vec![put(3)]));
}

#[test]
fn a_replacement_tells_its_cover_too() {
    assert_eq!(told(COUNTED, &nested(), &rule(9, 30, "1"), 4), uncovered(vec![put(1)]));
    let same_action = Rule { action: 102, ..rule(9, 30, "1") };
    assert_eq!(of_either(&nested(), &same_action), uncovered(vec![put(1)]));
    let full = [Some(rule(1, 40, "1")), Some(rule(2, 20, "11"))];
    let same_action = Rule { action: 102, ..rule(9, 20, "11") };
    assert_eq!(of_either(&full, &same_action), covered_by(0, vec![put(1)]));
}

#[test]
fn two_rules_that_cover_only_together_do_not_count() {
    let slots = [Some(rule(1, 40, "10")), Some(rule(2, 30, "11")), None];
    assert_eq!(of_either(&slots, &rule(9, 10, "1")), uncovered(vec![put(2)]));
}

/// The plan moves the rule that covers the new one, and the new one goes to its slot.
#[test]
fn the_slot_is_one_of_the_table_before_the_plan() {
    let slots = [None, Some(rule(1, 40, "1")), Some(rule(2, 10, "1"))];
    assert_eq!(of_either(&slots, &rule(9, 20, "11")), covered_by(1, vec![write_word(1, 0), put(1)]));
}

/// Of an uncounted table a key may be told the covered rule.
#[test]
fn actions_and_the_flag_play_no_part() {
    let slots = [None, Some(rule(1, 40, "1"))];
    let new = Rule { action: 101, ..rule(9, 10, "11") };
    assert_eq!(told(UNCOUNTED, &slots, &new, 2), covered_by(1, vec![put(0)]));
    assert_eq!(told(COUNTED, &slots, &new, 2), covered_by(1, vec![write_word(1, 0), put(1)]));
    // of one rank neither covers the other
    assert_eq!(told(UNCOUNTED, &slots, &Rule { rank: 40, ..new }, 2), uncovered(vec![put(0)]));
}

#[test]
fn ranks_decide_and_not_priorities() {
    for width in WIDTHS {
        let exact = |id: u32, rank: u64| Rule { id, rank, value: Bits::NONE, mask: Bits::all(width), action: id };
        let covered = |present: Rule, new: Rule, edition: u32| {
            let words = words_of(&[Some(present), None], width);
            plan_insert(&words, width, COUNTED, &new.record(width), edition, 2).expect("a slot is empty").covered
        };
        assert_eq!(covered(rule(1, 65_535, ""), exact(9, 7), EDITION_13), Some(0));
        assert_eq!(covered(rule(1, 65_535, ""), exact(9, 7), EDITION_10), None);
        assert_eq!(covered(exact(1, EXACT_RANK), exact(9, 7), EDITION_13), Some(0));
        assert_eq!(covered(exact(1, EXACT_RANK), exact(9, 7), EDITION_10), None);
    }
}
