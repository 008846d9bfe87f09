// Document 02's 2026-07 on the reference: ranks by edition, tables and images that hold 65,536, and editions that there are not.
// E is the rule of value 0 that cares for all bits of the width; each table is asked at both widths, with the same answer.

use crate::bits::{Bits, WIDTHS};
use crate::carry::{carry_out, Carried, Progress};
use crate::edge_test::{at_each_width, plan_at, put, refused, rule};
use crate::given::{Given, EDITION_10, EDITION_13};
use crate::image::{body_offset, image_of};
use crate::image_test::{load, save};
use crate::lookup::{lookup, slot_record, Found};
use crate::plan::{plan_delete, plan_insert, write_word, EMPTYING};
use crate::table::*;

const OTHER_EDITIONS: [u32; 9] = [0, 9, 11, 12, 14, 99, 10 + 65_536, 13 + 65_536, u32::MAX];

/// E; where it is given to a call, its rank is its priority.
fn exact(width: usize, id: u32, rank: u64) -> Rule {
    Rule { id, rank, value: Bits::NONE, mask: Bits::all(width), action: id }
}

/// E, but for one bit that is not cared for.
fn but_one_bit(width: usize, id: u32, rank: u64, place: usize) -> Rule {
    Rule { mask: Bits::all(width) ^ Bits::at(place), ..exact(width, id, rank) }
}

/// The places at the ends of each word.
fn places(width: usize) -> impl Iterator<Item = usize> {
    (0..width).flat_map(|word| [64 * word, 64 * word + 63])
}

fn ranks(slots: &[Slot]) -> Vec<Option<u64>> {
    slots.iter().map(|entry| entry.map(|rule| rule.rank)).collect()
}

/// The plan for a rule, and the ranks in the slots once it is carried out.
fn planned(width: usize, slots: &[Slot], new: &Rule, edition: u32) -> Result<(Vec<u32>, Vec<Option<u64>>), Refusal> {
    plan_at(width, COUNTED, slots, new, edition).map(|(plan, slots)| (plan, ranks(&slots)))
}

/// 1/7 E, then 2/65,535 `*`, into three empty slots: both plans, the ranks in the end, and the id that key 0 finds.
fn two_inserts(first: u32, second: u32) -> ([Vec<u32>; 2], Vec<Option<u64>>, u32) {
    at_each_width(|width| {
        let (one, slots) = plan_at(width, COUNTED, &[None; 3], &exact(width, 1, 7), first).unwrap();
        let (two, slots) = plan_at(width, COUNTED, &slots, &rule(2, 65_535, "*"), second).unwrap();
        match lookup(&words_of(&slots, width), width, &vec![0; width]) {
            Ok(Found::Hit { id, .. }) => ([one, two], ranks(&slots), id),
            other => panic!("{other:?}"),
        }
    })
}

#[test]
fn a_rule_without_wildcards_stands_above_all_others_under_10() {
    let plans = [vec![put(0)], vec![put(1)]];
    assert_eq!(two_inserts(EDITION_10, EDITION_10), (plans, vec![Some(65_536), Some(65_535), None], 1));
}

#[test]
fn only_the_priority_counts_under_13() {
    let plans = [vec![put(0)], vec![write_word(0, 1), put(0)]];
    assert_eq!(two_inserts(EDITION_13, EDITION_13), (plans, vec![Some(65_535), Some(7), None], 2));
}

/// "An upgrade from 1.0 to 1.3 writes nothing: rules present keep their rank, later ones get theirs by the new edition."
#[test]
fn each_rule_has_its_own_edition() {
    let upgraded = [vec![put(0)], vec![put(1)]];
    assert_eq!(two_inserts(EDITION_10, EDITION_13), (upgraded, vec![Some(65_536), Some(65_535), None], 1));
    let turned_back = [vec![put(0)], vec![write_word(0, 1), put(0)]];
    assert_eq!(two_inserts(EDITION_13, EDITION_10), (turned_back, vec![Some(65_535), Some(7), None], 2));
}

#[test]
fn a_second_rule_beside_one_of_rank_65_536() {
    for width in WIDTHS {
        let slots = [Some(exact(width, 1, 65_536)), None, None];
        let replaced = (vec![put(0)], vec![Some(65_536), None, None]);
        assert_eq!(planned(width, &slots, &exact(width, 3, 500), EDITION_10), Ok(replaced));
        let below = (vec![put(1)], vec![Some(65_536), Some(7), None]);
        assert_eq!(planned(width, &slots, &exact(width, 3, 7), EDITION_13), Ok(below));
        // apart from E, at the same rank
        for place in places(width) {
            let apart = Rule { value: Bits::at(place), ..exact(width, 3, 500) };
            let beside = (vec![put(1)], vec![Some(65_536), Some(65_536), None]);
            assert_eq!(planned(width, &slots, &apart, EDITION_10), Ok(beside));
        }
    }
}

#[test]
fn a_rule_without_wildcards_among_others() {
    for width in WIDTHS {
        let slots = [Some(rule(1, 65_535, "*0")), Some(but_one_bit(width, 2, 0, 64 * width - 1)), None];
        let first_of_all = (vec![write_word(1, 2), write_word(0, 1), put(0)], vec![Some(65_536), Some(65_535), Some(0)]);
        assert_eq!(planned(width, &slots, &exact(width, 3, 0), EDITION_10), Ok(first_of_all));
        assert_eq!(planned(width, &slots, &exact(width, 3, 0), EDITION_13), refused(TIE, 1));
        let between = (vec![write_word(1, 2), put(1)], vec![Some(65_535), Some(9), Some(0)]);
        assert_eq!(planned(width, &slots, &exact(width, 3, 9), EDITION_13), Ok(between));
        // E precedes a rule of wildcards whatever this one's priority, and that one precedes the rule before E
        let behind = [Some(rule(2, 5, "1")), Some(exact(width, 1, 65_536)), None];
        assert_eq!(planned(width, &behind, &rule(3, 65_535, ""), EDITION_13), refused(CROSSED, 1));
    }
}

#[test]
fn every_mask_bit_of_the_width_is_asked() {
    for width in WIDTHS {
        let rank = |mask: Bits| {
            let given = Given { id: 1, priority: 7, value: Bits::NONE, mask, action: 1 };
            given.ranked(width, EDITION_10).map(|rule| rule.rank)
        };
        assert_eq!(rank(Bits::all(width)), Ok(65_536));
        for place in 0..64 * width {
            assert_eq!(rank(Bits::all(width) ^ Bits::at(place)), Ok(7), "without place {place}");
        }
    }
    // 128 bits are all at two words, and not at five
    let given = Given { id: 1, priority: 7, value: Bits::NONE, mask: Bits::all(2), action: 1 };
    assert_eq!(given.ranked(2, EDITION_10).map(|rule| rule.rank), Ok(65_536));
    assert_eq!(given.ranked(5, EDITION_10).map(|rule| rule.rank), Ok(7));
}

/// What every call says of a table with one rule: nothing against it, or one refusal, which another edition doesn't come before.
fn all_calls_say(width: usize, entry: Rule, expected: Option<(u32, u64)>) {
    let words = words_of(&[Some(entry), None], width);
    let wanted = |other: Result<(), Refusal>| expected.map_or(other, |(number, spot)| refused(number, spot));
    let new = rule(9, 3, "1").record(width);
    assert_eq!(read_sound_table(&words, width, COUNTED).map(drop), wanted(Ok(())));
    assert_eq!(lookup(&words, width, &vec![0; width]).map(drop), wanted(Ok(())));
    assert_eq!(slot_record(&words, width, 0).is_empty(), expected.is_some());
    assert_eq!(plan_insert(&words, width, COUNTED, &new, EDITION_13, 2).map(drop), wanted(Ok(())));
    assert_eq!(plan_insert(&words, width, COUNTED, &new, 99, 2).map(drop), wanted(refused(EDITION, 0)));
    assert_eq!(plan_delete(&words, width, COUNTED, entry.id, 1).map(drop), wanted(Ok(())));
    assert_eq!(save(&words, width, 1000).map(drop), wanted(Ok(())));
    let mut carried = words.clone();
    let mut progress = Progress { done: 0, total: 1 };
    let answer = carry_out(&mut carried, width, &new, EDITION_13, &[write_word(0, 1)], &mut progress);
    assert_eq!(answer.map(drop), wanted(Ok(())));
    assert_eq!(carried == words, expected.is_some());
}

#[test]
fn records_that_may_have_65_536() {
    for width in WIDTHS {
        all_calls_say(width, exact(width, 1, 65_535), None);
        all_calls_say(width, exact(width, 1, 65_536), None);
        for rank in [65_537, 65_536 + (1 << 16), 65_536 + (1 << 32), 1 << 32, u64::MAX] {
            all_calls_say(width, exact(width, 1, rank), Some((RECORD, 0)));
        }
        for place in places(width) {
            all_calls_say(width, but_one_bit(width, 1, 65_535, place), None);
            all_calls_say(width, but_one_bit(width, 1, 65_536, place), Some((RECORD, 0)));
        }
        all_calls_say(width, Rule { id: 0, ..exact(width, 1, 65_536) }, Some((RECORD, 0)));
    }
    let two_words_of_five = Rule { mask: Bits::all(2), ..exact(5, 1, 65_536) };
    all_calls_say(5, two_words_of_five, Some((RECORD, 0)));
}

#[test]
fn a_priority_is_at_most_65_535_under_either_edition() {
    for width in WIDTHS {
        for edition in [EDITION_10, EDITION_13] {
            assert!(planned(width, &[None], &exact(width, 1, 65_535), edition).is_ok());
            for priority in [65_536, 65_537, 1 << 32, u64::MAX] {
                assert_eq!(planned(width, &[None], &exact(width, 1, priority), edition), refused(RULE, 0));
                let mut words = vec![0; record_words(width)];
                let mut progress = Progress { done: 0, total: 1 };
                let record = exact(width, 1, priority).record(width);
                assert_eq!(carry_out(&mut words, width, &record, edition, &[put(0)], &mut progress), refused(RULE, 0));
                assert_eq!((words, progress.done), (vec![0; record_words(width)], 0));
            }
        }
    }
}

#[test]
fn other_editions_are_declined_after_5_and_before_6() {
    for (width, edition) in WIDTHS.into_iter().flat_map(|width| OTHER_EDITIONS.map(|edition| (width, edition))) {
        let ask = |slots: &[Slot], new: &Rule| planned(width, slots, new, edition);
        let present = Some(rule(1, 30, "1"));
        for new in [rule(2, 20, "1"), exact(width, 2, 20)] {
            assert_eq!(ask(&[present, None], &new), refused(EDITION, 0));
            assert_eq!(ask(&[present, None], &Rule { rank: 65_536, ..new }), refused(RULE, 0));
            assert_eq!(ask(&[present, None], &Rule { id: 0, ..new }), refused(RULE, 0));
        }
        assert_eq!(ask(&[present, None], &rule(1, 20, "1")), refused(EDITION, 0)); // before 6
        assert_eq!(ask(&[present, None], &rule(2, 30, "1")), refused(EDITION, 0)); // before a replacement
        assert_eq!(ask(&[present, None], &rule(2, 30, "11")), refused(EDITION, 0)); // before 8
        assert_eq!(ask(&[present], &rule(2, 20, "1")), refused(EDITION, 0)); // before 9
        let crossed = [Some(rule(2, 3, "10")), Some(rule(1, 9, "11")), None];
        assert_eq!(ask(&crossed, &rule(3, 5, "1")), refused(EDITION, 0)); // before 10
        let record = rule(2, 20, "1").record(width);
        let words = words_of(&[present, None], width);
        assert_eq!(plan_insert(&words, width, COUNTED, &record, edition, 0), refused(EDITION, 0)); // before 11
        assert_eq!(ask(&[Some(rule(1, 65_536, "1")), None], &rule(2, 20, "1")), refused(RECORD, 0));
        assert_eq!(ask(&[present, present], &rule(2, 20, "1")), refused(TWICE, 1));
        assert_eq!(ask(&[present, Some(rule(3, 30, "1"))], &rule(2, 20, "1")), refused(ORDER, 1));
        assert_eq!(plan_insert(&[0; 7], width, COUNTED, &record, edition, 0), refused(SHAPE, 0));
    }
}

/// Every write of [1/30 `1`, –, 2/20 `0`] that is asked for under editions that there are not, then the plan that is finished.
#[test]
fn carrying_out_asks_for_the_edition_where_a_rule_is_put_in() {
    for (width, edition) in WIDTHS.into_iter().flat_map(|width| OTHER_EDITIONS.map(|edition| (width, edition))) {
        let words = words_of(&[Some(rule(1, 30, "1")), None, Some(rule(2, 20, "0"))], width);
        let carried = |write: u32, new: &Rule, done: u32| {
            let (mut after, mut progress) = (words.clone(), Progress { done, total: 1 });
            let answer = carry_out(&mut after, width, &new.record(width), edition, &[write], &mut progress);
            let wrote = answer == Ok(Carried::Wrote);
            assert_eq!((after != words, progress.done), (wrote, done + u32::from(wrote)));
            answer
        };
        let (new, unsound) = (rule(3, 10, "1"), rule(3, 65_536, "1"));
        assert_eq!(carried(write_word(0, 1), &new, 0), Ok(Carried::Wrote));
        assert_eq!(carried(write_word(EMPTYING, 0), &new, 0), Ok(Carried::Wrote));
        assert_eq!(carried(write_word(0, 1), &unsound, 0), Ok(Carried::Wrote));
        assert_eq!(carried(put(1), &new, 0), refused(EDITION, 0));
        assert_eq!(carried(put(0), &new, 0), refused(EDITION, 0)); // it doesn't fit
        assert_eq!(carried(put(9), &new, 0), refused(EDITION, 0)); // nor this one
        assert_eq!(carried(put(1), &unsound, 0), refused(RULE, 0));
        assert_eq!(carried(put(0), &unsound, 0), refused(RULE, 0));
        assert_eq!(carried(write_word(0, 2), &new, 0), refused(WRITE, 0));
        assert_eq!(carried(put(1), &new, 1), Ok(Carried::Finished));
        assert_eq!(carried(put(1), &new, 2), refused(WRITE, 2));
    }
}

#[test]
fn carrying_out_stores_the_rank() {
    for width in WIDTHS {
        let stored = |new: &Rule, edition: u32| {
            let mut words = vec![0; record_words(width)];
            let mut progress = Progress { done: 0, total: 1 };
            carry_out(&mut words, width, &new.record(width), edition, &[put(0)], &mut progress).unwrap();
            words[2 * width + 1]
        };
        assert_eq!(stored(&exact(width, 1, 7), EDITION_10), 65_536);
        assert_eq!(stored(&exact(width, 1, 7), EDITION_13), 7);
        for place in places(width) {
            assert_eq!(stored(&but_one_bit(width, 1, 7, place), EDITION_10), 7);
        }
        assert_eq!(stored(&rule(1, 7, ""), EDITION_10), 7);
    }
}

#[test]
fn images_keep_the_rank() {
    for width in WIDTHS {
        let slots = [None, Some(exact(width, 1, 65_536)), Some(exact(width, 2, 7))];
        let words = words_of(&slots, width);
        let image = save(&words, width, 1000).unwrap();
        let numbers = |place: usize| body_offset(width, 2, place) + 16 * width;
        assert_eq!(image[numbers(0)..numbers(0) + 4], [0, 1, 0, 0]);
        assert_eq!(image[numbers(1)..numbers(1) + 4], [0, 0, 0, 7]);
        assert_eq!(load(&image, words.len(), width), Ok(words));
    }
}

#[test]
fn images_that_load_declines_at_a_body() {
    for width in WIDTHS {
        let loaded = |second: Rule| {
            let slots = [Some(exact(width, 1, 65_536)), Some(second), None];
            load(&image_of(&slots, width), 3 * record_words(width), width).map(drop)
        };
        let body = body_offset(width, 2, 1) as u64;
        let apart = |rank: u64| Rule { value: Bits::at(0), ..exact(width, 2, rank) };
        assert_eq!(loaded(apart(65_536)), Ok(()));
        for rank in [65_537, 2 * 65_536, u64::from(u32::MAX)] {
            assert_eq!(loaded(apart(rank)), refused(IMAGE, body));
        }
        for place in places(width).filter(|&place| place != 0) {
            assert_eq!(loaded(Rule { value: Bits::at(0), ..but_one_bit(width, 2, 65_536, place) }), refused(IMAGE, body));
            assert_eq!(loaded(but_one_bit(width, 2, 65_535, place)), Ok(()));
        }
        assert_eq!(loaded(exact(width, 2, 65_536)), refused(ORDER, 1)); // a tie at 65,536
        assert_eq!(loaded(exact(width, 1, 65_536)), refused(TWICE, 1));
    }
}
