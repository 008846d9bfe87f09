// Document 02's 2026-11 on the reference: tables without counters. Only overlapping rules of different actions are ordered in them.
// Each table is asked at both widths and under both editions, with the same answer; no rule here has every mask bit set.

use crate::bits::Bits;
use crate::carry::{carry_out, Carried, Progress};
use crate::edge_test::{at_each, at_each_width, carried, plan_at, put, refused, rule, told};
use crate::given::EDITION_13;
use crate::image::{load, save};
use crate::lookup::{is_promised, lookup, Found};
use crate::plan::{plan_delete, plan_insert, write_word, EMPTYING};
use crate::table::*;

/// A rule by id, rank, pattern and action.
fn with_action(id: u32, rank: u64, pattern: &str, action: u32) -> Rule {
    Rule { action, ..rule(id, rank, pattern) }
}

/// The plan, which is carried out with order tested after each write.
fn planned(uncounted: bool, slots: &[Slot], new: &Rule) -> Result<Vec<u32>, Refusal> {
    after(uncounted, slots, new).map(|(plan, _)| plan)
}

/// The plan, and the slots once it is carried out.
fn after(uncounted: bool, slots: &[Slot], new: &Rule) -> Result<(Vec<u32>, Vec<Slot>), Refusal> {
    at_each(|width, edition| plan_at(width, uncounted, slots, new, edition))
}

/// The key of a pattern's ones, all other bits 0.
fn key_of(ones: &str) -> Bits {
    rule(1, 0, ones).value
}

fn looked_up(slots: &[Slot], key: Bits) -> Result<Found, Refusal> {
    at_each_width(|width| lookup(&words_of(slots, width), width, key.words(width)))
}

/// What a key finds before a plan and after each of its writes: what the old rules promise until the last, and then the new ones.
fn replies(slots: &[Slot], new: &Rule, key: Bits) -> Vec<Found> {
    let (plan, last) = after(UNCOUNTED, slots, new).expect("a plan");
    let [old_rules, new_rules] = [slots, &last].map(|slots| slots.iter().flatten().copied().collect::<Vec<Rule>>());
    at_each(|width, edition| {
        let (mut words, record) = (words_of(slots, width), new.record(width));
        let mut progress = Progress { done: 0, total: plan.len() as u32 };
        let mut found = Vec::new();
        loop {
            let rules = if progress.done < progress.total { &old_rules } else { &new_rules };
            let one = lookup(&words, width, key.words(width)).expect("sound records");
            assert!(is_promised(one.reply(), rules, key, UNCOUNTED), "after {} writes", progress.done);
            found.push(one);
            if carry_out(&mut words, width, &record, edition, &plan, &mut progress) != Ok(Carried::Wrote) {
                return found;
            }
        }
    })
}

/// [1/20 `1*` a7, 2/30 `*1` a7, –]: the higher rank stands lower.
fn against_rank() -> [Slot; 3] {
    [Some(with_action(1, 20, "1*", 7)), Some(with_action(2, 30, "*1", 7)), None]
}

#[test]
fn rules_of_one_action_are_not_ordered() {
    let new = with_action(9, 5, "0", 9);
    assert_eq!(planned(COUNTED, &against_rank(), &new), refused(ORDER, 1));
    assert_eq!(planned(UNCOUNTED, &against_rank(), &new), Ok(vec![put(2)]));
    assert_eq!(looked_up(&against_rank(), key_of("11")), Ok(Found::Hit { slot: 0, id: 1, action: 7 }));
    assert_eq!(replies(&against_rank(), &new, key_of("11")), [Found::Hit { slot: 0, id: 1, action: 7 }; 2]);
    let other_action = [against_rank()[0], Some(with_action(2, 30, "*1", 8)), None];
    assert_eq!(planned(UNCOUNTED, &other_action, &new), refused(ORDER, 1));
    let tied = [against_rank()[0], Some(with_action(2, 20, "*1", 7)), None];
    assert_eq!(planned(UNCOUNTED, &tied, &new), Ok(vec![put(2)]));
    assert_eq!(planned(COUNTED, &tied, &new), refused(ORDER, 1));
}

#[test]
fn every_call_that_compares_rules_asks_for_the_flag() {
    at_each_width(|width| {
        let words = words_of(&against_rank(), width);
        assert_eq!(plan_delete(&words, width, COUNTED, 1, 1), refused(ORDER, 1));
        assert_eq!(plan_delete(&words, width, UNCOUNTED, 1, 1), Ok(vec![write_word(EMPTYING, 0)]));
        assert_eq!(save(&words, width, COUNTED, 1000), refused(ORDER, 1));
        let image = save(&words, width, UNCOUNTED, 1000).expect("in order, uncounted");
        assert_eq!(load(&image, words.len(), width, COUNTED), refused(ORDER, 1));
        assert_eq!(load(&image, words.len(), width, UNCOUNTED), Ok(words));
    });
}

/// The flag doesn't come before any other check: an id that stands twice, and an unsound record.
#[test]
fn other_checks_are_as_before() {
    let new = with_action(9, 5, "0", 9);
    let twice = [against_rank()[0], against_rank()[0], None];
    assert_eq!(planned(UNCOUNTED, &twice, &new), refused(TWICE, 1));
    let unsound = [against_rank()[0], Some(with_action(2, 65_536, "*1", 7)), None];
    assert_eq!(planned(UNCOUNTED, &unsound, &new), refused(RECORD, 1));
    assert_eq!(planned(UNCOUNTED, &against_rank(), &with_action(1, 5, "0", 7)), refused(KNOWN, 0));
    assert_eq!(planned(UNCOUNTED, &against_rank()[..2], &new), refused(FULL, 0));
    let words = words_of(&against_rank(), 2);
    assert_eq!(plan_insert(&words, 2, UNCOUNTED, &new.record(2), EDITION_13, 0), refused(SHORT, 1));
    assert_eq!(plan_insert(&words, 2, UNCOUNTED, &new.record(2), 99, 3), refused(EDITION, 0));
}

#[test]
fn fewer_writes_and_an_id_that_changes_on_the_way() {
    let slots = [None, Some(with_action(1, 40, "1*", 7)), Some(with_action(2, 30, "*1", 7))];
    let new = with_action(3, 20, "01", 9);
    assert_eq!(planned(COUNTED, &slots, &new), Ok(vec![write_word(1, 0), write_word(2, 1), put(2)]));
    assert_eq!(planned(UNCOUNTED, &slots, &new), Ok(vec![write_word(2, 0), put(2)]));
    let hit = |slot: usize, id: u32| Found::Hit { slot, id, action: 7 };
    assert_eq!(replies(&slots, &new, key_of("11")), [hit(1, 1), hit(0, 2), hit(0, 2)]);
    assert_eq!(replies(&slots, &new, key_of("01")), [hit(2, 2), hit(0, 2), hit(0, 2)]);
}

/// The mirror: the displaced rule goes toward higher slots, past one of its action that a counted table orders below it.
#[test]
fn fewer_writes_toward_higher_slots() {
    let slots = [Some(with_action(1, 40, "1*", 7)), Some(with_action(2, 30, "*1", 7)), None];
    let new = with_action(3, 50, "10", 9);
    assert_eq!(planned(COUNTED, &slots, &new), Ok(vec![write_word(1, 2), write_word(0, 1), put(0)]));
    assert_eq!(planned(UNCOUNTED, &slots, &new), Ok(vec![write_word(0, 2), put(0)]));
    let hit = |slot: usize, id: u32| Found::Hit { slot, id, action: 7 };
    assert_eq!(replies(&slots, &new, key_of("11")), [hit(0, 1), hit(0, 1), hit(1, 2)]);
    assert_eq!(replies(&slots, &new, key_of("1"))[2], Found::Hit { slot: 0, id: 3, action: 9 });
}

/// [1/20 `1` a7, 2/20 `1` a7, –]: no counted table has two equal rules.
fn two_equal() -> [Slot; 3] {
    [Some(with_action(1, 20, "1", 7)), Some(with_action(2, 20, "1", 7)), None]
}

#[test]
fn a_rule_sent_again_replaces_the_lowest_equal_one_of_its_action() {
    assert_eq!(planned(COUNTED, &two_equal(), &with_action(9, 20, "1", 7)), refused(ORDER, 1));
    assert_eq!(planned(UNCOUNTED, &two_equal(), &with_action(9, 20, "1", 8)), refused(TIE, 0));
    let new = with_action(9, 20, "1", 7);
    let one_replaced = vec![Some(new), two_equal()[1], None];
    assert_eq!(after(UNCOUNTED, &two_equal(), &new), Ok((vec![put(0)], one_replaced)));
    // in a full table too, and with the lowest of them further on
    let full = [Some(with_action(5, 9, "0", 3)), two_equal()[0], two_equal()[1], Some(with_action(6, 8, "0", 3))];
    let one_replaced = vec![full[0], Some(new), full[2], full[3]];
    assert_eq!(after(UNCOUNTED, &full, &new), Ok((vec![put(1)], one_replaced)));
    assert_eq!(planned(UNCOUNTED, &full, &with_action(9, 20, "1", 8)), refused(TIE, 1));
    assert_eq!(planned(UNCOUNTED, &full, &with_action(2, 20, "1", 7)), refused(KNOWN, 2));
    assert_eq!(told(UNCOUNTED, &full, &new, 0), refused(SHORT, 1));
}

/// Sent once more, the lowest equal one is the rule that replaced the first: the others stay.
#[test]
fn several_equal_rules_may_stand() {
    let mut slots = vec![None, two_equal()[0], Some(with_action(3, 10, "1", 8)), two_equal()[1], None];
    // the third, of another action, is below the first and stands above the second
    assert_eq!(planned(UNCOUNTED, &slots, &with_action(9, 20, "1", 7)), refused(ORDER, 3));
    slots.swap(2, 3);
    for id in [9, 10, 11] {
        let new = with_action(id, 20, "1", 7);
        slots[1] = Some(new);
        let before: Vec<Slot> = [&[None, Some(with_action(id - 1, 20, "1", 7))], &slots[2..]].concat();
        assert_eq!(after(UNCOUNTED, &before, &new), Ok((vec![put(1)], slots.clone())));
        assert_eq!(replies(&before, &new, key_of("1"))[1], Found::Hit { slot: 1, id, action: 7 });
    }
    // a delete leaves the equal one, and the key its action
    let words = words_of(&slots, 2);
    assert_eq!(plan_delete(&words, 2, UNCOUNTED, 11, 1), Ok(vec![write_word(EMPTYING, 1)]));
    slots[1] = None;
    assert_eq!(looked_up(&slots, key_of("1")), Ok(Found::Hit { slot: 2, id: 2, action: 7 }));
}

/// What a counted table declines or replaces, by the rule's action, in [1/30 `11` a7, 2/20 `1` a8, –].
#[test]
fn ties_only_between_different_actions() {
    let slots = [Some(with_action(1, 30, "11", 7)), Some(with_action(2, 20, "1", 8)), None];
    let ask = |uncounted: bool, action: u32, pattern: &str| planned(uncounted, &slots, &with_action(9, 20, pattern, action));
    for action in [7, 8, 9] {
        assert_eq!(ask(COUNTED, action, "10"), refused(TIE, 1));
        assert_eq!(ask(COUNTED, action, "1"), Ok(vec![put(1)]));
    }
    assert_eq!(ask(UNCOUNTED, 8, "10"), Ok(vec![put(2)]));
    assert_eq!(ask(UNCOUNTED, 8, "1"), Ok(vec![put(1)]));
    for action in [7, 9] {
        assert_eq!(ask(UNCOUNTED, action, "10"), refused(TIE, 1));
        assert_eq!(ask(UNCOUNTED, action, "1"), refused(TIE, 1));
    }
}

#[test]
fn crossed_only_between_different_actions() {
    let slots = [Some(with_action(5, 10, "00", 1)), Some(with_action(6, 40, "01", 2)), None];
    let ask = |uncounted: bool, action: u32| planned(uncounted, &slots, &with_action(7, 20, "0", action));
    for action in [1, 2, 3] {
        assert_eq!(ask(COUNTED, action), refused(CROSSED, 1));
    }
    assert_eq!(ask(UNCOUNTED, 1), Ok(vec![put(2)]));
    assert_eq!(ask(UNCOUNTED, 2), Ok(vec![write_word(0, 2), put(0)]));
    assert_eq!(ask(UNCOUNTED, 3), refused(CROSSED, 1));
}

/// "A table once named as uncounted is named so in every later call": what an uncounted call leaves a counted one may decline.
#[test]
fn what_is_in_order_counted_is_so_uncounted() {
    let slots = [Some(with_action(1, 30, "1", 7)), Some(with_action(2, 20, "1", 7)), Some(with_action(3, 10, "1", 8)), None];
    for uncounted in [COUNTED, UNCOUNTED] {
        assert_eq!(at_each_width(|width| read_sound_table(&words_of(&slots, width), width, uncounted)), Ok(slots.to_vec()));
    }
    let (plan, left) = after(UNCOUNTED, &slots, &with_action(4, 30, "1*0", 7)).unwrap();
    assert_eq!(plan, [write_word(2, 3), put(2)]);
    assert_eq!(at_each_width(|width| read_sound_table(&words_of(&left, width), width, COUNTED)), refused(ORDER, 2));
}

/// Carrying out takes no flag: a put-in over an equal rule fits whatever its action.
#[test]
fn put_ins_over_equal_rules_of_any_action() {
    for action in [7, 8] {
        let new = with_action(9, 20, "1", action);
        for slot in [0, 1] {
            let mut slots = two_equal().to_vec();
            slots[slot] = Some(new);
            assert_eq!(carried(&two_equal(), &[put(slot)], &new, 0, 1), (Ok(Carried::Wrote), slots, 1));
        }
    }
}

/// The promise to a key can fail: another action, a miss, an id that does not match or that has another action.
#[test]
fn what_is_promised_to_a_key() {
    let rules = [with_action(1, 30, "1", 7), with_action(2, 20, "11", 7), with_action(3, 10, "1", 8), with_action(4, 40, "0", 7)];
    let is_kept = |reply: Option<(u32, u32)>, uncounted: bool| is_promised(reply, &rules, key_of("11"), uncounted);
    assert!(is_kept(Some((1, 7)), COUNTED) && is_kept(Some((1, 7)), UNCOUNTED));
    assert!(!is_kept(Some((2, 7)), COUNTED) && is_kept(Some((2, 7)), UNCOUNTED));
    for reply in [None, Some((3, 8)), Some((3, 7)), Some((4, 7)), Some((9, 7)), Some((1, 8))] {
        assert!(!is_kept(reply, COUNTED) && !is_kept(reply, UNCOUNTED), "{reply:?}");
    }
    let two_actions = [with_action(1, 30, "1", 7), with_action(2, 30, "11", 8)];
    assert!(!is_promised(Some((1, 7)), &two_actions, key_of("11"), UNCOUNTED));
    assert!(is_promised(None, &rules[..3], Bits::NONE, UNCOUNTED));
    assert!(!is_promised(Some((1, 7)), &rules[..3], Bits::NONE, UNCOUNTED));
}
