// Document 02's 2026-09 on the reference: the worked table at five words, other widths, and other numbers of words of rule and key.
// Patterns of edge_test stand at the highest bits; the last bit of the fifth word is set apart.

use crate::bits::Bits;
use crate::carry::{carry_out, Carried, Progress};
use crate::edge_test::{plan_at, put, refused, rule, uncovered};
use crate::given::EDITION_13;
use crate::image_test::save;
use crate::lookup::{lookup, slot_record, Found};
use crate::plan::{plan_delete, plan_insert, write_word, EMPTYING};
use crate::table::*;

const LAST_BIT: usize = 319;
const WRONG_WIDTHS: [usize; 5] = [0, 1, 3, 4, 6];

/// A rule that cares for the last bit of the fifth word alone.
fn last_bit_rule(id: u32, rank: u64, is_set: bool, action: u32) -> Rule {
    let value = if is_set { Bits::at(LAST_BIT) } else { Bits::NONE };
    Rule { id, rank, value, mask: Bits::at(LAST_BIT), action }
}

fn slots() -> [Slot; 3] {
    [Some(Rule { action: 7, ..rule(1, 30, "11") }), Some(Rule { action: 8, ..rule(2, 20, "") }), None]
}

fn new_rule() -> Rule {
    last_bit_rule(3, 25, true, 9)
}

fn words_with_new_rule() -> Vec<u64> {
    let mut words = words_of(&slots(), 5);
    let plan = plan_insert(&words, 5, COUNTED, &new_rule().record(5), EDITION_13, 3).unwrap().writes;
    let mut progress = Progress { done: 0, total: 2 };
    while carry_out(&mut words, 5, &new_rule().record(5), EDITION_13, &plan, &mut progress) == Ok(Carried::Wrote) {}
    words
}

#[test]
fn the_last_bit_of_the_fifth_word_decides() {
    let planned = plan_at(5, COUNTED, &slots(), &new_rule(), EDITION_13).map(|(plan, _)| plan);
    assert_eq!(planned, Ok(vec![write_word(1, 2), put(1)]));
    let words = words_with_new_rule();
    let top = 1 << 63;
    assert_eq!(lookup(&words, 5, &[top, 0, 0, 0, 1]), Ok(Found::Hit { slot: 1, id: 3, action: 9 }));
    assert_eq!(lookup(&words, 5, &[top, 0, 0, 0, 0]), Ok(Found::Hit { slot: 2, id: 2, action: 8 }));
    assert_eq!(slot_record(&words, 5, 1), 12..24);
    assert_eq!(words[12..24], [0, 0, 0, 0, 1, 0, 0, 0, 0, 1, (3 << 32) + 9, 25]);
}

#[test]
fn rules_apart_by_the_last_bit_do_not_tie() {
    let words = words_with_new_rule();
    let apart = last_bit_rule(4, 25, false, 9).record(5);
    assert_eq!(plan_insert(&words, 5, COUNTED, &apart, EDITION_13, 3), refused(FULL, 0));
    let equal = last_bit_rule(4, 25, true, 9).record(5);
    assert_eq!(plan_insert(&words, 5, COUNTED, &equal, EDITION_13, 3), uncovered(vec![put(1)]));
    let mut overlapping = last_bit_rule(4, 25, true, 9);
    overlapping.mask |= Bits::at(0);
    assert_eq!(plan_insert(&words, 5, COUNTED, &overlapping.record(5), EDITION_13, 3), refused(TIE, 1));
}

#[test]
fn the_same_words_at_the_other_width() {
    let words = words_with_new_rule();
    assert_eq!(words.len(), 36);
    let record = rule(4, 25, "1").record(2);
    assert_eq!(plan_insert(&words, 2, COUNTED, &record, EDITION_13, 6), refused(RECORD, 0));
    assert_eq!(lookup(&words, 2, &[0, 0]), refused(RECORD, 0));
    assert_eq!(slot_record(&words, 2, 1), 0..0);
    assert_eq!(plan_insert(&[0; 36], 2, COUNTED, &record, EDITION_13, 6), uncovered(vec![put(0)]));
    let two_words = words_of(&[Some(rule(1, 30, "11")), None], 2);
    assert_eq!(lookup(&two_words, 5, &[0; 5]), refused(RECORD, 0));
    // three slots of two words are no whole number of slots of five
    assert_eq!(lookup(&[0; 18], 5, &[0; 5]), refused(SHAPE, 0));
}

/// Twelve words that are two rules at two words and one at five.
#[test]
fn words_that_are_sound_at_both_widths() {
    let words = [0, 1, 0, 3, 4 << 32, 5, 6, u64::MAX, 6, u64::MAX, 8 << 32, 9];
    assert_eq!(lookup(&words, 2, &[0, 5]), Ok(Found::Hit { slot: 0, id: 4, action: 0 }));
    assert_eq!(lookup(&words, 2, &[6, u64::MAX]), Ok(Found::Hit { slot: 1, id: 8, action: 0 }));
    assert_eq!(lookup(&words, 5, &[8, 1, 0, 1, 4 << 32]), refused(RECORD, 0));
    let words = [0, 1, 0, 3, 4 << 32, 5, 7, 6, 7, u64::MAX, 8 << 32, 9];
    assert_eq!(lookup(&words, 2, &[0, 5]), Ok(Found::Hit { slot: 0, id: 4, action: 0 }));
    assert_eq!(lookup(&words, 5, &[8, 9, 1, 11, 4 << 32]), Ok(Found::Hit { slot: 0, id: 8, action: 0 }));
    assert_eq!(lookup(&words, 5, &[1, 9, 1, 11, 4 << 32]), Ok(Found::Miss));
}

#[test]
fn widths_that_no_table_has() {
    let words = words_of(&slots(), 5);
    for width in WRONG_WIDTHS.into_iter().chain([7, 65_538, u32::MAX as usize]) {
        let (key, record) = (vec![0; width.min(6)], vec![0; record_words(width.min(6))]);
        assert_eq!(lookup(&words, width, &key), refused(SHAPE, 0));
        assert_eq!(slot_record(&words, width, 0), 0..0);
        assert_eq!(plan_insert(&words, width, COUNTED, &record, EDITION_13, 3), refused(SHAPE, 0));
        assert_eq!(plan_delete(&words, width, COUNTED, 1, 3), refused(SHAPE, 0));
        assert_eq!(save(&words, width, 1000), refused(SHAPE, 0));
        let mut progress = Progress { done: 0, total: 0 };
        assert_eq!(carry_out(&mut words.clone(), width, &record, EDITION_13, &[], &mut progress), refused(SHAPE, 0));
    }
}

#[test]
fn keys_and_rules_of_another_number_of_words() {
    let words = words_of(&slots(), 5);
    let unsound = vec![1; 36];
    for count in [0, 2, 4, 6, 12] {
        assert_eq!(lookup(&words, 5, &vec![0; count]), refused(SHAPE, 0));
        assert_eq!(lookup(&unsound, 5, &vec![0; count]), refused(SHAPE, 0));
    }
    for count in [0, 1, 6, 11, 13, 24] {
        assert_eq!(plan_insert(&words, 5, COUNTED, &vec![0; count], EDITION_13, 3), refused(SHAPE, 0));
        assert_eq!(plan_insert(&unsound, 5, COUNTED, &vec![0; count], EDITION_13, 3), refused(SHAPE, 0));
    }
    assert_eq!(plan_insert(&words, 5, COUNTED, &[0; 12], EDITION_13, 3), refused(RULE, 0));
}

#[test]
fn carrying_out_asks_for_the_words_of_a_rule_in_every_write() {
    let plan = [write_word(EMPTYING, 1), write_word(0, 2), put(2)];
    for done in 0..=3 {
        for count in [0, 6, 11, 13] {
            let (mut words, mut progress) = (words_of(&slots(), 5), Progress { done, total: 3 });
            assert_eq!(carry_out(&mut words, 5, &vec![0; count], EDITION_13, &plan, &mut progress), refused(SHAPE, 0));
            assert_eq!((words, progress.done), (words_of(&slots(), 5), done));
        }
    }
    let with_zeros = |done: u32| {
        let mut progress = Progress { done, total: 3 };
        carry_out(&mut words_of(&slots(), 5), 5, &[0; 12], EDITION_13, &plan, &mut progress)
    };
    assert_eq!([0, 1, 2, 3].map(with_zeros), [Ok(Carried::Wrote), Ok(Carried::Wrote), refused(RULE, 0), Ok(Carried::Finished)]);
}

#[test]
fn the_largest_table_of_five_words() {
    let record = rule(1, 1, "1").record(5);
    assert_eq!(plan_insert(&[0; 12 * 1024], 5, COUNTED, &record, EDITION_13, 1), uncovered(vec![put(0)]));
    assert_eq!(plan_insert(&[0; 12 * 1025], 5, COUNTED, &record, EDITION_13, 1), refused(SHAPE, 0));
    // 1,024 slots of five words are 2,048 of two
    assert_eq!(plan_insert(&[0; 12 * 1024], 2, COUNTED, &rule(1, 1, "1").record(2), EDITION_13, 1), refused(SHAPE, 0));
}
