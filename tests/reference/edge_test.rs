// Document 01's tables at the edge and its traps, and tables for requests of document 02, on the reference.
// Tables are written as lists of slots with rules by id, rank and pattern. Each is asked at both widths, under both editions, counted
// and uncounted, with the same answer: no rule here has every mask bit set, so that a rule given has its priority for its rank, and no
// two rules have one action, so that all overlapping pairs are ordered.

use crate::bits::{Bits, WIDTHS};
use crate::carry::{carry_out, Carried, Progress};
use crate::given::{EDITION_10, EDITION_13};
use crate::lookup::{lookup, slot_record, Found};
use crate::plan::{plan_delete, plan_insert, write_word, Planned, EMPTYING, PUT_IN};
use crate::table::*;

/// A pattern is of `0 1 *`, highest bit first, the rest uncared for.
pub fn rule(id: u32, rank: u64, pattern: &str) -> Rule {
    let bits = |wanted: &str| {
        let is_wanted = |place: &usize| wanted.contains(&pattern[*place..place + 1]);
        (0..pattern.len()).filter(is_wanted).fold(Bits::NONE, |bits, place| bits | Bits::at(place))
    };
    Rule { id, rank, value: bits("1"), mask: bits("01"), action: id + 100 }
}

pub fn refused<T>(number: u32, spot: u64) -> Result<T, Refusal> {
    Err(Refusal { number, spot })
}

pub fn put(to: usize) -> u32 {
    write_word(PUT_IN, to)
}

/// What is told of an insert of a rule that no higher one covers.
pub fn uncovered(writes: Vec<u32>) -> Result<Planned, Refusal> {
    Ok(Planned { writes, covered: None })
}

/// What is the same at each width.
pub fn at_each_width<T: PartialEq + std::fmt::Debug>(answer: impl Fn(usize) -> T) -> T {
    let answers = WIDTHS.map(answer);
    assert_eq!(answers[0], answers[1], "at two words and at five");
    answers.into_iter().next().unwrap()
}

/// The same, under each edition.
pub fn at_each<T: PartialEq + std::fmt::Debug>(answer: impl Fn(usize, u32) -> T) -> T {
    at_each_width(|width| {
        let [under_10, under_13] = [EDITION_10, EDITION_13].map(|edition| answer(width, edition));
        assert_eq!(under_10, under_13, "under 1.0 and under 1.3, at {width} words");
        under_13
    })
}

/// What is the same of a counted table and of an uncounted one.
pub fn of_each_kind<T: PartialEq + std::fmt::Debug>(answer: impl Fn(bool) -> T) -> T {
    let [counted, uncounted] = [COUNTED, UNCOUNTED].map(answer);
    assert_eq!(counted, uncounted, "counted and uncounted");
    counted
}

/// What is told of an insert, with so many words for its plan.
pub fn told(uncounted: bool, slots: &[Slot], new: &Rule, room: usize) -> Result<Planned, Refusal> {
    at_each(|width, edition| plan_insert(&words_of(slots, width), width, uncounted, &new.record(width), edition, room))
}

/// The plan for `new`, carried out, with order tested after each write.
fn plan_of(slots: &[Slot], new: &Rule) -> Result<Vec<u32>, Refusal> {
    of_each_kind(|uncounted| at_each(|width, edition| plan_at(width, uncounted, slots, new, edition).map(|(plan, _)| plan)))
}

/// The plan, and the slots once it is carried out.
pub fn plan_at(
    width: usize,
    uncounted: bool,
    slots: &[Slot],
    new: &Rule,
    edition: u32,
) -> Result<(Vec<u32>, Vec<Slot>), Refusal> {
    let (mut words, record) = (words_of(slots, width), new.record(width));
    let plan = plan_insert(&words, width, uncounted, &record, edition, slots.len())?.writes;
    let mut progress = Progress { done: 0, total: plan.len() as u32 };
    while carry_out(&mut words, width, &record, edition, &plan, &mut progress)? == Carried::Wrote {
        assert_eq!(first_out_of_order(&read_slots(&words, width).unwrap(), uncounted), None);
    }
    let slots = read_sound_table(&words, width, uncounted).expect("a plan leaves a sound table");
    Ok((plan, slots))
}

fn checks_of(slots: &[Slot]) -> Result<Vec<Slot>, Refusal> {
    of_each_kind(|uncounted| at_each_width(|width| read_sound_table(&words_of(slots, width), width, uncounted)))
}

fn looked_up(slots: &[Slot], key: Bits) -> Result<Found, Refusal> {
    at_each_width(|width| lookup(&words_of(slots, width), width, (key & Bits::all(width)).words(width)))
}

#[test]
fn one_slot() {
    assert_eq!(plan_of(&[None], &rule(1, 5, "1")), Ok(vec![put(0)]));
    assert_eq!(plan_of(&[Some(rule(1, 5, "1"))], &rule(2, 6, "1")), refused(FULL, 0));
}

#[test]
fn displaced_rule_may_pass_its_near_neighbour() {
    let a = rule(1, 40, "*0*");
    let other = rule(2, 10, "01*");
    let c = rule(3, 30, "1**");
    let d = rule(4, 20, "11*");
    let slots = [Some(a), Some(other), Some(c), Some(d), None];
    assert_eq!(plan_of(&slots, &rule(5, 50, "00*")), Ok(vec![write_word(1, 4), write_word(0, 1), put(0)]));
}

#[test]
fn upward_chain_and_tie_of_directions() {
    let a = rule(1, 30, "1");
    let b = rule(2, 10, "1");
    let new = rule(3, 20, "1");
    assert_eq!(plan_of(&[None, Some(a), Some(b)], &new), Ok(vec![write_word(1, 0), put(1)]));
    assert_eq!(plan_of(&[None, Some(a), Some(b), None], &new), Ok(vec![write_word(2, 3), put(2)]));
}

#[test]
fn slot_of_the_nearest_dependant_is_used() {
    let a = rule(1, 30, "1");
    let b = rule(2, 20, "1");
    let new = rule(3, 40, "1");
    assert_eq!(plan_of(&[Some(a), Some(b), None], &new), Ok(vec![write_word(1, 2), write_word(0, 1), put(0)]));
}

#[test]
fn priorities_of_apart_rules_are_not_compared() {
    let low = rule(1, 1, "0");
    let high = rule(2, 60_000, "1");
    assert!(checks_of(&[Some(low), Some(high)]).is_ok());
    assert_eq!(plan_of(&[Some(low), None, Some(high)], &rule(3, 30_000, "0")), Ok(vec![write_word(0, 1), put(0)]));
}

#[test]
fn short_buffer() {
    let slots = [None, Some(rule(1, 30, "1")), Some(rule(2, 10, "1"))];
    let new = rule(3, 20, "1");
    assert_eq!(of_each_kind(|uncounted| told(uncounted, &slots, &new, 1)), refused(SHORT, 2));
    let planned = |uncounted: bool| at_each_width(|width| plan_delete(&words_of(&slots, width), width, uncounted, 2, 0));
    assert_eq!(of_each_kind(planned), refused(SHORT, 1));
}

#[test]
fn deletes() {
    let slots = [None, Some(rule(1, 30, "1"))];
    let planned =
        |id: u32| of_each_kind(|uncounted| at_each_width(|width| plan_delete(&words_of(&slots, width), width, uncounted, id, 5)));
    assert_eq!(planned(1), Ok(vec![write_word(EMPTYING, 1)]));
    assert_eq!(planned(9), refused(UNKNOWN, 0));
    assert_eq!(planned(0), refused(RULE, 0));
}

#[test]
fn slot_counts() {
    for (width, slot_words) in [(2, 6), (5, 12)] {
        let record = rule(1, 1, "1").record(width);
        let planned =
            |words: usize| of_each_kind(|uncounted| plan_insert(&vec![0; words], width, uncounted, &record, EDITION_13, 1));
        assert_eq!(planned(slot_words * 1024), uncovered(vec![put(0)]));
        for count in [0, 1, slot_words - 1, slot_words + 1, slot_words * 1025] {
            assert_eq!(planned(count), refused(SHAPE, 0));
            assert_eq!(lookup(&vec![0; count], width, &vec![0; width]), refused(SHAPE, 0));
        }
    }
}

#[test]
fn priorities_at_the_edge() {
    assert_eq!(plan_of(&[None], &rule(1, 65_535, "1")), Ok(vec![put(0)]));
    assert_eq!(plan_of(&[None], &rule(1, 65_536, "1")), refused(RULE, 0));
    assert_eq!(plan_of(&[None], &rule(1, 1 << 32, "1")), refused(RULE, 0));
    assert!(checks_of(&[None, Some(rule(1, 65_535, "1"))]).is_ok());
    assert_eq!(checks_of(&[None, Some(rule(1, 65_536, "1"))]), refused(RECORD, 1));
}

#[test]
fn mask_of_zero_overlaps_every_rule() {
    let all = rule(1, 5, "");
    for pattern in ["", "0", "1", "*1*0"] {
        assert!(all.overlaps(&rule(2, 5, pattern)) && rule(2, 5, pattern).overlaps(&all));
    }
    assert!(all.matches(Bits::NONE) && all.matches(Bits::all(5)));
}

#[test]
fn unsound_rules() {
    let mut outside = rule(1, 5, "10");
    outside.value |= Bits::at(127);
    assert_eq!(plan_of(&[None], &outside), refused(RULE, 0));
    assert_eq!(plan_of(&[None], &rule(0, 5, "1")), refused(RULE, 0));
}

#[test]
fn table_checks_name_the_lowest_slot_of_the_first_check() {
    let twice = [Some(rule(1, 9, "1")), Some(rule(2, 9, "1")), Some(rule(1, 5, "0"))];
    assert_eq!(checks_of(&twice), refused(TWICE, 2));
    let order = [Some(rule(1, 9, "1")), Some(rule(2, 9, "1")), Some(rule(3, 99, "1"))];
    assert_eq!(checks_of(&order), refused(ORDER, 1));
    let id_zero = Rule { id: 0, ..rule(1, 9, "1") };
    assert_eq!(checks_of(&[Some(id_zero), twice[1], twice[2]]), refused(RECORD, 0));
}

#[test]
fn known_tie_crossed() {
    let high = rule(1, 9, "11");
    let low = rule(2, 3, "10");
    assert_eq!(plan_of(&[Some(low), Some(high), None], &rule(2, 5, "1")), refused(KNOWN, 0));
    assert_eq!(plan_of(&[Some(low), Some(high), None], &rule(3, 3, "1")), refused(TIE, 0));
    assert_eq!(plan_of(&[Some(low), Some(high), None], &rule(3, 5, "1")), refused(CROSSED, 1));
    assert_eq!(plan_of(&[Some(low), Some(high)], &rule(3, 5, "1")), refused(FULL, 0));
}

#[test]
fn an_empty_slot_matches_no_key() {
    let every_key = Rule { action: 7, ..rule(1, 5, "") };
    let slots = [None, Some(every_key)];
    assert_eq!(looked_up(&slots, Bits::NONE), Ok(Found::Hit { slot: 1, id: 1, action: 7 }));
    assert_eq!(looked_up(&slots, Bits::all(5)), Ok(Found::Hit { slot: 1, id: 1, action: 7 }));
    assert_eq!(looked_up(&slots[..1], Bits::NONE), Ok(Found::Miss));
}

#[test]
fn lookup_takes_the_lowest_slot_even_out_of_order() {
    let slots = [None, Some(rule(1, 3, "1")), Some(rule(2, 9, "1"))];
    assert_eq!(looked_up(&slots, Bits::at(0)), Ok(Found::Hit { slot: 1, id: 1, action: 101 }));
    assert_eq!(looked_up(&slots, Bits::NONE), Ok(Found::Miss));
    for (width, part) in [(2, 6..12), (5, 12..24)] {
        let words = words_of(&slots, width);
        assert_eq!(slot_record(&words, width, 1), part);
        assert_eq!(slot_record(&words, width, 0), 0..0);
        assert_eq!(slot_record(&words, width, 3), 0..0);
        assert_eq!(slot_record(&words[1..], width, 1), 0..0);
    }
}

/// One call of carrying out, with what it answers, the slots after it and how far it gets.
pub fn carried(slots: &[Slot], plan: &[u32], new: &Rule, done: u32, total: u32) -> (Result<Carried, Refusal>, Vec<Slot>, u32) {
    at_each(|width, edition| {
        let mut words = words_of(slots, width);
        let mut progress = Progress { done, total };
        let answer = carry_out(&mut words, width, &new.record(width), edition, plan, &mut progress);
        (answer, read_slots(&words, width).expect("the records stay sound"), progress.done)
    })
}

#[test]
fn progress_is_tested_before_the_write() {
    let slots = [Some(rule(1, 3, "1")), None];
    let new = rule(2, 2, "1");
    let same = slots.to_vec();
    assert_eq!(carried(&slots, &[0], &new, 2, 1), (refused(WRITE, 2), same.clone(), 2));
    assert_eq!(carried(&slots, &[0], &new, 0, 2), (refused(WRITE, 0), same.clone(), 0));
    assert_eq!(carried(&slots, &[9, 9], &new, 1, 1), (Ok(Carried::Finished), same, 1));
}

#[test]
fn writes_that_fit_and_that_do_not() {
    let one = rule(1, 3, "1");
    let two = rule(2, 4, "0");
    let slots = [Some(one), None, Some(two), Some(one)];
    let new = rule(3, 2, "1");
    let answer = |write: u32| carried(&slots, &[write], &new, 0, 1).0;
    for fits in [write_word(0, 1), write_word(2, 1), write_word(0, 3), write_word(2, 0), put(1), put(0), write_word(EMPTYING, 2)]
    {
        assert_eq!(answer(fits), Ok(Carried::Wrote));
    }
    let beyond = [write_word(0, 4), write_word(4, 1), write_word(65_533, 1), put(4), write_word(EMPTYING, 4)];
    let others = [write_word(0, 0), write_word(1, 0), write_word(0, 2), put(2), write_word(EMPTYING, 1)];
    for does_not in beyond.into_iter().chain(others) {
        assert_eq!(answer(does_not), refused(WRITE, 0));
    }
}

#[test]
fn an_unsound_rule_counts_only_where_it_is_put_in() {
    let slots = [Some(rule(1, 3, "1")), None];
    let unsound = rule(0, 3, "1");
    assert_eq!(carried(&slots, &[put(9)], &unsound, 0, 1).0, refused(RULE, 0));
    assert_eq!(carried(&slots, &[write_word(0, 1)], &unsound, 0, 1).0, Ok(Carried::Wrote));
}

#[test]
fn moving_the_near_rule_first_is_declined() {
    let slots = [Some(rule(1, 30, "1")), Some(rule(2, 20, "1")), None];
    let near_first = [write_word(0, 1), write_word(1, 2), put(0)];
    assert_eq!(carried(&slots, &near_first, &rule(3, 40, "1"), 0, 3).0, refused(WRITE, 0));
}
