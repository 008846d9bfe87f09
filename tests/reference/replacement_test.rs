// Document 02's 2026-03 on the reference: a rule sent again, its plan and its carrying out, and rules that are nearly equal.
// But where editions or widths are told apart, each table is asked at both widths and under both editions, with the same answer.

use crate::bits::{Bits, WIDTHS};
use crate::carry::Carried;
use crate::edge_test::{at_each, carried, plan_at, put, refused, rule, told, uncovered};
use crate::given::{EDITION_10, EDITION_13};
use crate::lookup::{lookup, Found};
use crate::plan::{write_word, Planned, EMPTYING};
use crate::table::*;

/// [1/30 `11` a7, 2/20 `1` a8], which is full.
fn full_table() -> [Slot; 2] {
    [Some(Rule { action: 7, ..rule(1, 30, "11") }), Some(Rule { action: 8, ..rule(2, 20, "1") })]
}

/// The second rule of that table, sent again.
fn sent_again() -> Rule {
    Rule { action: 5, ..rule(9, 20, "1") }
}

fn planned(slots: &[Slot], new: &Rule, room: usize) -> Result<Planned, Refusal> {
    told(COUNTED, slots, new, room)
}

#[test]
fn a_rule_sent_again_replaces_the_one_present() {
    assert_eq!(planned(&full_table(), &sent_again(), 2), uncovered(vec![put(1)]));
    assert_eq!(planned(&full_table(), &sent_again(), 1), uncovered(vec![put(1)]));
    assert_eq!(planned(&full_table(), &sent_again(), 0), refused(SHORT, 1));
    let (slots, reply) = at_each(|width, edition| {
        let (_, slots) = plan_at(width, COUNTED, &full_table(), &sent_again(), edition).unwrap();
        let reply = lookup(&words_of(&slots, width), width, Bits::at(0).words(width));
        (slots, reply)
    });
    assert_eq!(slots, [full_table()[0], Some(sent_again())]);
    assert_eq!(reply, Ok(Found::Hit { slot: 1, id: 9, action: 5 }));
}

#[test]
fn what_is_not_equal_is_declined_as_before() {
    assert_eq!(planned(&full_table(), &rule(2, 20, "1"), 2), refused(KNOWN, 1));
    assert_eq!(planned(&full_table(), &rule(1, 20, "1"), 2), refused(KNOWN, 0));
    assert_eq!(planned(&full_table(), &rule(9, 20, "10"), 2), refused(TIE, 1));
    assert_eq!(planned(&full_table(), &rule(9, 20, ""), 2), refused(TIE, 1));
    assert_eq!(planned(&full_table(), &rule(9, 25, "1"), 2), refused(FULL, 0));
    assert_eq!(planned(&full_table(), &rule(9, 20, "0"), 2), refused(FULL, 0));
}

#[test]
fn an_empty_slot_is_equal_to_nothing() {
    assert_eq!(planned(&[None, None], &rule(9, 0, ""), 2), uncovered(vec![put(0)]));
    let present = Some(rule(1, 0, ""));
    assert_eq!(planned(&[None, present], &rule(9, 0, ""), 2), uncovered(vec![put(1)]));
    assert_eq!(carried(&[None, present], &[put(0)], &rule(9, 0, ""), 0, 1).0, Ok(Carried::Wrote));
}

#[test]
fn every_bit_of_value_and_mask_is_compared() {
    for width in WIDTHS {
        let all = Rule { id: 1, rank: 7, value: Bits::NONE, mask: Bits::all(width), action: 1 };
        let ask = |new: &Rule| plan_at(width, COUNTED, &[None, Some(all)], new, EDITION_13).map(|(plan, _)| plan);
        assert_eq!(ask(&Rule { id: 2, ..all }), Ok(vec![put(1)]));
        for place in 0..64 * width {
            assert_eq!(ask(&Rule { id: 2, mask: all.mask ^ Bits::at(place), ..all }), refused(TIE, 1), "mask {place}");
            assert_eq!(ask(&Rule { id: 2, value: Bits::at(place), ..all }), Ok(vec![put(0)]), "value {place}");
        }
    }
}

/// [1/65,536 E, –, –], E as in editions_test: the rank decides, which the edition gives.
#[test]
fn ranks_are_compared_and_not_priorities() {
    for width in WIDTHS {
        let exact = |id: u32, rank: u64| Rule { id, rank, value: Bits::NONE, mask: Bits::all(width), action: id };
        let ask = |present: Rule, new: &Rule, edition: u32| plan_at(width, COUNTED, &[Some(present), None, None], new, edition);
        let replaced = (vec![put(0)], vec![Some(exact(3, 65_536)), None, None]);
        assert_eq!(ask(exact(1, 65_536), &exact(3, 500), EDITION_10), Ok(replaced));
        let below = (vec![put(1)], vec![Some(exact(1, 65_536)), Some(exact(3, 500)), None]);
        assert_eq!(ask(exact(1, 65_536), &exact(3, 500), EDITION_13), Ok(below));
        let replaced = (vec![put(0)], vec![Some(exact(3, 500)), None, None]);
        assert_eq!(ask(exact(1, 500), &exact(3, 500), EDITION_13), Ok(replaced));
        let above = (vec![write_word(0, 1), put(0)], vec![Some(exact(3, 65_536)), Some(exact(1, 500)), None]);
        assert_eq!(ask(exact(1, 500), &exact(3, 500), EDITION_10), Ok(above));
    }
}

#[test]
fn put_ins_over_equal_rules() {
    let (slots, new) = (full_table(), sent_again());
    assert_eq!(carried(&slots, &[put(1)], &new, 0, 1), (Ok(Carried::Wrote), vec![slots[0], Some(new)], 1));
    // the same rule, and one whose id stands in another slot
    assert_eq!(carried(&slots, &[put(1)], &slots[1].unwrap(), 0, 1).0, Ok(Carried::Wrote));
    assert_eq!(carried(&slots, &[put(1)], &Rule { id: 1, ..new }, 0, 1).0, Ok(Carried::Wrote));
    for near in [rule(9, 21, "1"), rule(9, 19, "1"), rule(9, 20, "10"), rule(9, 20, "0"), rule(9, 20, "")] {
        assert_eq!(carried(&slots, &[put(1)], &near, 0, 1), (refused(WRITE, 0), slots.to_vec(), 0));
    }
    assert_eq!(carried(&slots, &[put(0)], &new, 0, 1), (refused(WRITE, 0), slots.to_vec(), 0));
    assert_eq!(carried(&slots, &[put(2)], &new, 0, 1), (refused(WRITE, 0), slots.to_vec(), 0));
    assert_eq!(carried(&slots, &[put(1)], &Rule { id: 0, ..new }, 0, 1).0, refused(RULE, 0));
}

/// Only a put-in may: a copy over an equal rule of another id is declined, as any other that would lose a rule.
#[test]
fn copies_over_equal_rules_are_declined() {
    let equal = Some(rule(3, 20, "1"));
    let slots = [full_table()[0], full_table()[1], equal];
    for write in [write_word(0, 1), write_word(1, 2), write_word(2, 1)] {
        assert_eq!(carried(&slots, &[write], &sent_again(), 0, 1), (refused(WRITE, 0), slots.to_vec(), 0));
    }
    let after = vec![slots[0], None, equal];
    assert_eq!(carried(&slots, &[write_word(EMPTYING, 1)], &sent_again(), 0, 1), (Ok(Carried::Wrote), after, 1));
}
