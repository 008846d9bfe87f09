// Document 02's 2026-01 on the reference: tables with crossed rules worked out by hand, cleared until the insert is planned, and the
// order of the checks. But where it is told otherwise, each table is asked at both widths, under both editions, counted and uncounted,
// with the same answer: no rule here has every mask bit set, and no two have one action.

use crate::bits::{Bits, WIDTHS};
use crate::carry::{carry_out, Carried, Progress};
use crate::clearing::*;
use crate::edge_test::{at_each, at_each_width, of_each_kind, plan_at, put, refused, rule, told, uncovered};
use crate::given::{EDITION_10, EDITION_13};
use crate::listed::list_of;
use crate::lookup::{is_promised, lookup, Found};
use crate::plan::{write_word, EMPTYING};
use crate::table::*;

/// Rules by pattern and rank, each of its slot's number and one as its id; rank 0 is an empty slot.
fn table(rules: &[(&str, u64)]) -> Vec<Slot> {
    let slot_of = |(slot, &(pattern, rank)): (usize, &(&str, u64))| (rank != 0).then(|| rule(slot as u32 + 1, rank, pattern));
    rules.iter().enumerate().map(slot_of).collect()
}

const EMPTY: (&str, u64) = ("", 0);

fn new_rule(pattern: &str, rank: u64) -> Rule {
    rule(99, rank, pattern)
}

/// Copies, then the slot that is emptied.
fn writes(copies: &[(u32, usize)], emptied: usize) -> Vec<u32> {
    copies.iter().map(|&(from, to)| write_word(from, to)).chain([write_word(EMPTYING, emptied)]).collect()
}

/// What the call answers, with so many words for its plan.
fn answer(uncounted: bool, slots: &[Slot], new: &Rule, room: usize) -> Result<Vec<u32>, Refusal> {
    at_each(|width, edition| plan_clearing(&words_of(slots, width), width, uncounted, &new.record(width), edition, room))
}

fn of_either(slots: &[Slot], new: &Rule, room: usize) -> Result<Vec<u32>, Refusal> {
    of_each_kind(|uncounted| answer(uncounted, slots, new, room))
}

/// A clearing carried out, and the slots then. Before each write and after the last the table is in order, and every key over the first
/// three bits has what the rules promise; the last table is sound and has fewer blockers.
fn cleared(uncounted: bool, slots: &[Slot], new: &Rule) -> (Vec<u32>, Vec<Slot>) {
    let plan = answer(uncounted, slots, new, slots.len()).expect("a clearing");
    let rules: Vec<Rule> = slots.iter().flatten().copied().collect();
    let after = at_each(|width, edition| {
        let (mut words, record) = (words_of(slots, width), new.record(width));
        let mut progress = Progress { done: 0, total: plan.len() as u32 };
        loop {
            assert_eq!(first_out_of_order(&read_slots(&words, width).unwrap(), uncounted), None);
            for key in (0..8).map(|number| Bits::number(0, 3, number)) {
                let reply = lookup(&words, width, key.words(width)).unwrap().reply();
                assert!(is_promised(reply, &rules, key, uncounted), "after {} writes", progress.done);
            }
            if carry_out(&mut words, width, &record, edition, &plan, &mut progress).expect("a write that fits")
                == Carried::Finished
            {
                return read_sound_table(&words, width, uncounted).expect("a clearing leaves a sound table");
            }
        }
    });
    assert!(blockers(&after, new, uncounted).len() < blockers(slots, new, uncounted).len());
    assert!(rules.iter().all(|rule| after.contains(&Some(*rule))));
    (plan, after)
}

/// The clearings until the rule is not crossed, each in turn, and then the insert; the call answers 15 then.
fn cleared_away(uncounted: bool, slots: &[Slot], new: &Rule) -> (Vec<Vec<u32>>, Vec<u32>) {
    let (mut slots, mut plans) = (slots.to_vec(), Vec::new());
    while !blockers(&slots, new, uncounted).is_empty() {
        let (plan, after) = cleared(uncounted, &slots, new);
        plans.push(plan);
        slots = after;
    }
    assert_eq!(answer(uncounted, &slots, new, 0), refused(UNCROSSED, 0));
    let insert = at_each(|width, edition| plan_at(width, uncounted, &slots, new, edition)).expect("an insert").0;
    (plans, insert)
}

/// Asserts what clears a rule away, and the insert then.
fn assert_cleared(rules: &[(&str, u64)], new: Rule, plans: &[Vec<u32>], insert: &[u32]) {
    let (seen, seen_insert) = of_each_kind(|uncounted| cleared_away(uncounted, &table(rules), &new));
    assert_eq!((&seen[..], &seen_insert[..]), (plans, insert));
}

/// Document 01's script before its crossed insert.
const SCRIPT: [(&str, u64); 6] = [("11", 30), ("1*1", 25), ("1", 20), ("00", 10), ("01", 40), EMPTY];

#[test]
fn the_crossing_of_the_script() {
    let new = new_rule("0", 20);
    assert_eq!(of_each_kind(|uncounted| told(uncounted, &table(&SCRIPT), &new, 6)), refused(CROSSED, 4));
    assert_eq!(of_either(&table(&SCRIPT), &new, 6), Ok(vec![196_613, 4_294_836_227]));
    assert_eq!(of_either(&table(&SCRIPT), &new, 2), Ok(writes(&[(3, 5)], 3)));
    assert_eq!(of_either(&table(&SCRIPT), &new, 1), refused(SHORT, 2));
    assert_eq!(of_either(&table(&SCRIPT), &new, 0), refused(SHORT, 2));
    let (_, after) = of_each_kind(|uncounted| cleared(uncounted, &table(&SCRIPT), &new));
    assert_eq!(of_either(&after, &new, 6), refused(UNCROSSED, 0));
    assert_cleared(&SCRIPT, new, &[writes(&[(3, 5)], 3)], &[write_word(4, 3), put(4)]);
}

/// Were upward chains to start anywhere before the blocker's nearest dependant, `3→1, 0→3, E0` would leave one blocker for ever.
#[test]
fn an_upward_chain_starts_at_a() {
    let rules = [("00*", 1), EMPTY, ("01*", 9), ("1**", 1)];
    let (new, plan) = (new_rule("***", 5), writes(&[(2, 1), (0, 2)], 0));
    assert_eq!(of_either(&table(&rules), &new, 3), Ok(plan.clone()));
    assert_eq!(of_either(&table(&rules), &new, 2), refused(SHORT, 3));
    assert_cleared(&rules, new, &[plan], &[write_word(1, 0), put(1)]);
}

#[test]
fn the_chain_moves_the_blocker_itself() {
    let rules = [EMPTY, ("*10", 9), ("00*", 1), ("*1*", 7)];
    let (new, plan) = (new_rule("***", 5), writes(&[(2, 0), (3, 2), (0, 3)], 0));
    assert_eq!(of_either(&table(&rules), &new, 4), Ok(plan.clone()));
    assert_eq!(of_either(&table(&rules), &new, 3), refused(SHORT, 4));
    let (_, after) = of_each_kind(|uncounted| cleared(uncounted, &table(&rules), &new));
    assert_eq!(after, [None, Some(rule(2, 9, "*10")), Some(rule(4, 7, "*1*")), Some(rule(3, 1, "00*"))]);
    assert_cleared(&rules, new, &[plan], &[write_word(1, 0), write_word(2, 1), put(2)]);
}

/// The first blocker depends on the new rule through the second one only.
#[test]
fn blockers_through_others() {
    let rules = [("0*", 4), ("*1", 2), ("10", 9), EMPTY];
    let (new, slots) = (new_rule("*0", 5), table(&rules));
    assert_eq!(of_each_kind(|uncounted| blockers(&slots, &new, uncounted)), [0, 1]);
    assert!(!slots[1].unwrap().overlaps(&new));
    let plans = [writes(&[(1, 3)], 1), writes(&[(2, 1), (0, 2)], 0)];
    assert_cleared(&rules, new, &plans, &[write_word(1, 0), put(1)]);
}

/// The passes end at the last of a row of rules of which each depends on the one before, wherever their slots are.
#[test]
fn a_row_of_dependants() {
    let rules = [("00**", 8), ("0*0*", 6), ("*10*", 4), ("*1*1", 2), ("1*11", 1), ("1000", 99)];
    let (new, mut slots) = (new_rule("*000", 9), table(&rules));
    assert_eq!(of_each_kind(|uncounted| blockers(&slots, &new, uncounted)), [0, 1, 2, 3, 4]);
    slots[..5].reverse();
    assert_eq!(of_each_kind(|uncounted| blockers(&slots, &new, uncounted)), [0, 1, 2, 3, 4]);
    slots[1] = None;
    assert_eq!(of_each_kind(|uncounted| blockers(&slots, &new, uncounted)), [2, 3, 4]);
}

/// Rules after A, and such as stand before A and don't depend on the new one, are no blockers.
#[test]
fn what_is_no_blocker() {
    let rules = [("00", 3), ("*11", 2), ("01", 9), ("0*0", 2), EMPTY];
    let new = new_rule("0*0", 5);
    assert_eq!(of_each_kind(|uncounted| blockers(&table(&rules), &new, uncounted)), [0]);
    assert_eq!(of_each_kind(|uncounted| blockers(&table(&rules[2..]), &new, uncounted)), []);
    assert_eq!(of_each_kind(|uncounted| blockers(&table(&rules[..2]), &new, uncounted)), []);
}

/// A downward chain: the blocker's nearest dependant makes room, and the slot that it leaves is the one used.
#[test]
fn a_downward_chain() {
    let rules = [("00", 3), ("01", 9), ("0*", 2), EMPTY];
    let new = new_rule("0", 5);
    assert_eq!(of_either(&table(&rules), &new, 4), Ok(writes(&[(2, 3), (0, 2)], 0)));
    let further = [("00", 3), ("01", 9), ("11", 2), ("0*", 1), EMPTY];
    assert_eq!(of_either(&table(&further), &new, 5), Ok(writes(&[(2, 4), (0, 2)], 0)));
    let both_ways = [EMPTY, ("00", 3), ("01", 9), ("0*", 2), EMPTY];
    assert_eq!(of_either(&table(&both_ways), &new, 5), Ok(writes(&[(3, 4), (1, 3)], 1)));
}

/// [3/0 `**` a1, –, 1/4 `*0` a1, 2/2 `*0` a1] and 9/3 `00` a0: key 00 moves from id 3 to id 1, its action stays.
#[test]
fn ids_in_an_uncounted_table() {
    let with_action = |id: u32, rank: u64, pattern: &str, action: u32| Rule { action, ..rule(id, rank, pattern) };
    let slots = [Some(with_action(3, 0, "**", 1)), None, Some(with_action(1, 4, "*0", 1)), Some(with_action(2, 2, "*0", 1))];
    let new = with_action(9, 3, "00", 0);
    assert_eq!(blockers(&slots, &new, UNCOUNTED), [0]);
    let (plan, after) = cleared(UNCOUNTED, &slots, &new);
    assert_eq!(plan, writes(&[(2, 1), (0, 2)], 0));
    let found = |slots: &[Slot]| at_each_width(|width| lookup(&words_of(slots, width), width, Bits::NONE.words(width)));
    assert_eq!(found(&slots), Ok(Found::Hit { slot: 0, id: 3, action: 1 }));
    assert_eq!(found(&after), Ok(Found::Hit { slot: 1, id: 1, action: 1 }));
    assert_eq!(cleared_away(UNCOUNTED, &slots, &new), (vec![plan], vec![write_word(1, 0), put(1)]));
    assert_eq!(answer(COUNTED, &slots, &new, 4), refused(ORDER, 2));
}

/// Rules of the new one's action are neither A nor in the way, and dependants of one action don't lead on to each other.
#[test]
fn actions_in_an_uncounted_table() {
    let (mut slots, new) = (table(&SCRIPT), new_rule("0", 20));
    slots[3].as_mut().unwrap().action = new.action;
    assert_eq!(answer(COUNTED, &slots, &new, 6), Ok(writes(&[(3, 5)], 3)));
    assert_eq!(answer(UNCOUNTED, &slots, &new, 6), refused(UNCROSSED, 0));
    let mut slots = table(&[("0*", 4), ("*1", 2), ("10", 9), EMPTY]);
    slots[1].as_mut().unwrap().action = slots[0].unwrap().action;
    let new = new_rule("*0", 5);
    assert_eq!(answer(COUNTED, &slots, &new, 4), Ok(writes(&[(1, 3)], 1)));
    assert_eq!(answer(UNCOUNTED, &slots, &new, 4), Ok(writes(&[(0, 3)], 0)));
}

/// 15 is tested after 9 and before 11.
#[test]
fn the_order_of_the_checks() {
    let (low, high) = (rule(1, 3, "10"), rule(2, 9, "11"));
    let full = [Some(low), Some(high)];
    let with_room = [Some(low), Some(high), None];
    assert_eq!(of_either(&with_room, &new_rule("1", 5), 0), refused(SHORT, 2));
    assert_eq!(of_either(&with_room, &new_rule("11", 5), 0), refused(UNCROSSED, 0));
    assert_eq!(of_either(&[None], &new_rule("1", 5), 0), refused(UNCROSSED, 0));
    assert_eq!(of_either(&full, &new_rule("1", 5), 0), refused(FULL, 0));
    assert_eq!(of_either(&full, &new_rule("0", 5), 0), refused(FULL, 0));
    assert_eq!(of_either(&full, &new_rule("1", 3), 0), refused(TIE, 0));
    assert_eq!(of_either(&full, &new_rule("11*1", 9), 0), refused(TIE, 1));
    assert_eq!(of_either(&full, &rule(2, 9, "1"), 0), refused(KNOWN, 1));
    assert_eq!(of_either(&full, &rule(2, 65_536, "1"), 0), refused(RULE, 0));
    assert_eq!(of_either(&[Some(high), Some(rule(3, 9, "1"))], &rule(2, 65_536, "1"), 0), refused(ORDER, 1));
    assert_eq!(of_either(&[], &new_rule("1", 5), 0), refused(SHAPE, 0));
}

/// A replacement passes 8 and 9, on a full table too.
#[test]
fn a_replacement_is_not_crossed() {
    let full = [Some(rule(1, 3, "10")), Some(rule(2, 9, "11"))];
    for (slots, room) in [(&full[..], 0), (&full[..], 2), (&[full[0], full[1], None][..], 3)] {
        assert_eq!(answer(COUNTED, slots, &new_rule("10", 3), room), refused(UNCROSSED, 0));
        let same_action = Rule { action: 102, ..new_rule("11", 9) };
        assert_eq!(of_either(slots, &same_action, room), refused(UNCROSSED, 0));
        assert_eq!(answer(UNCOUNTED, slots, &new_rule("11", 9), room), refused(TIE, 1));
    }
    assert_eq!(
        of_each_kind(|uncounted| told(uncounted, &full, &Rule { action: 102, ..new_rule("11", 9) }, 1)),
        uncovered(vec![put(1)])
    );
}

/// 18 comes after 5 and before 6.
#[test]
fn other_editions() {
    for width in WIDTHS {
        let (words, new) = (words_of(&table(&SCRIPT), width), new_rule("0", 20));
        let asked = |rule: &Rule, edition: u32| plan_clearing(&words, width, COUNTED, &rule.record(width), edition, 6);
        for other in [0, 9, 11, 12, 14, u32::MAX] {
            assert_eq!(asked(&new, other), refused(EDITION, 0));
            assert_eq!(asked(&Rule { id: 4, ..new }, other), refused(EDITION, 0));
            assert_eq!(asked(&Rule { id: 0, ..new }, other), refused(RULE, 0));
        }
    }
}

/// Nothing precedes an exact rule under 1.0, so that it isn't crossed. Under 1.3 it is only where two rules of one action stand against
/// their ranks, since all rules that it overlaps have a key in common.
#[test]
fn exact_rules() {
    for width in WIDTHS {
        let with_action = |id: u32, rank: u64, pattern: &str| Some(Rule { action: 7, ..rule(id, rank, pattern) });
        let words = words_of(&[with_action(1, 1, "*0"), with_action(2, 9, "0"), None], width);
        let exact = Rule { mask: Bits::all(width), ..rule(9, 5, "") }.record(width);
        let asked = |uncounted: bool, edition: u32| plan_clearing(&words, width, uncounted, &exact, edition, 3);
        assert_eq!(asked(UNCOUNTED, EDITION_13), Ok(writes(&[(0, 2)], 0)));
        assert_eq!(asked(UNCOUNTED, EDITION_10), refused(UNCROSSED, 0));
        assert_eq!(asked(COUNTED, EDITION_13), refused(ORDER, 1));
    }
}

/// The list is made the table's where a clearing is planned, and left alone where it is declined.
#[test]
fn a_clearing_with_a_list() {
    let (slots, new) = (table(&SCRIPT), new_rule("0", 20));
    of_each_kind(|uncounted| {
        at_each(|width, edition| {
            let (words, record) = (words_of(&slots, width), new.record(width));
            let right = list_of(&words, width, uncounted).unwrap();
            let planned = |lent: &[u16], room: usize| {
                let mut list = lent.to_vec();
                (plan_clearing_listed(&words, width, uncounted, &record, edition, &mut list, room), list)
            };
            let expected = |refreshed: bool| Ok(ListedClearing { writes: writes(&[(3, 5)], 3), refreshed });
            assert_eq!(planned(&right, 2), (expected(false), right.clone()));
            for place in 0..right.len() {
                let mut wrong = right.clone();
                wrong[place] ^= 1;
                assert_eq!(planned(&wrong, 2), (expected(true), right.clone()));
                assert_eq!(planned(&wrong, 1), (refused(SHORT, 2), wrong));
            }
            for numbers in [0, 1, 6, 11, 13, 24] {
                assert_eq!(planned(&vec![7; numbers], 2), (refused(SHAPE, 0), vec![7; numbers]));
            }
        })
    });
}
