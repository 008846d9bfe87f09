// Document 02's 2026-10 on the reference: lists worked out by hand, of tables in order and not, and what the two calls leave of a list.

use crate::bits::WIDTHS;
use crate::carry::{carry_out, Progress};
use crate::edge_test::{at_each, of_each_kind, put, refused, rule};
use crate::given::{EDITION_10, EDITION_13};
use crate::listed::*;
use crate::plan::{plan_insert, write_word, Planned, EMPTYING};
use crate::table::*;

const NO: u16 = NO_NEIGHBOUR;

/// Rules by id, rank and pattern; id 0 is an empty slot.
fn table(rules: &[(u32, u64, &str)]) -> Vec<Slot> {
    rules.iter().map(|&(id, rank, pattern)| (id != 0).then(|| rule(id, rank, pattern))).collect()
}

/// The list, which is that of the words at each width too.
fn list(slots: &[Slot], uncounted: bool) -> Vec<u16> {
    let list = neighbour_list(slots, uncounted);
    assert!(WIDTHS.iter().all(|&width| list_of(&words_of(slots, width), width, uncounted) == Ok(list.clone())));
    list
}

/// The list of a table in which no two rules have one action.
fn of_either(rules: &[(u32, u64, &str)]) -> Vec<u16> {
    of_each_kind(|uncounted| list(&table(rules), uncounted))
}

/// [1/40 `*0*`, 2/10 `01*`, 3/30 `1**`, 4/20 `11*`, –].
const CHAIN: [(u32, u64, &str); 5] = [(1, 40, "*0*"), (2, 10, "01*"), (3, 30, "1**"), (4, 20, "11*"), (0, 0, "")];
const CHAIN_LIST: [u16; 10] = [2, NO, NO, NO, 3, 0, NO, 2, NO, NO];

#[test]
fn lists_by_hand() {
    assert_eq!(of_either(&CHAIN), CHAIN_LIST);
    assert_eq!(of_either(&[(0, 0, "")]), [NO, NO]);
    assert_eq!(of_either(&[(7, 5, "1")]), [NO, NO]);
    assert_eq!(of_either(&[(1, 30, ""), (0, 0, ""), (2, 20, ""), (3, 10, "")]), [2, NO, NO, NO, 3, 0, NO, 2]);
}

/// The nearest is told, not the highest or the lowest rank; a rule that is further on, or apart, is not.
#[test]
fn the_nearest_of_several() {
    let rules = [(1, 50, ""), (2, 40, "1"), (3, 30, "0"), (4, 20, ""), (5, 10, "0")];
    assert_eq!(of_either(&rules), [1, NO, 3, 0, 3, 0, 4, 2, NO, 3]);
}

/// Out of order, a rule that precedes a slot's may stand after it, and is no neighbour; ties are neither.
#[test]
fn tables_out_of_order_and_ties() {
    assert_eq!(of_either(&[(1, 20, "1"), (2, 20, "1"), (3, 30, "1"), (4, 10, "1")]), [3, NO, 3, NO, 3, NO, NO, 2]);
    assert_eq!(of_either(&[(1, 10, ""), (2, 20, "")]), [NO, NO, NO, NO]);
    assert_eq!(of_either(&[(1, 20, ""), (2, 10, ""), (3, 30, ""), (4, 15, "")]), [1, NO, NO, 0, 3, NO, NO, 2]);
}

/// An id in several slots: its copies are skipped, equal or not, and compared with all other rules.
#[test]
fn copies_of_one_id() {
    assert_eq!(of_either(&[(1, 30, "1"), (1, 20, "1"), (2, 10, "1"), (0, 0, "")]), [2, NO, 2, NO, NO, 1, NO, NO]);
    assert_eq!(of_either(&[(1, 30, ""), (1, 20, ""), (1, 10, "")]), [NO; 6]);
    let thrice = [(1, 30, ""), (2, 25, "0"), (1, 20, ""), (3, 15, "1"), (1, 10, "")];
    assert_eq!(of_either(&thrice), [1, NO, 2, 0, 3, 1, 4, 2, NO, 3]);
}

#[test]
fn actions_in_an_uncounted_table() {
    let mut slots = table(&[(1, 30, ""), (2, 20, ""), (3, 10, "")]);
    slots[1].as_mut().unwrap().action = 101;
    assert_eq!(list(&slots, COUNTED), [1, NO, 2, 0, NO, 1]);
    assert_eq!(list(&slots, UNCOUNTED), [2, NO, 2, NO, NO, 1]);
}

#[test]
fn ranks_of_both_editions() {
    for width in WIDTHS {
        let exact = |id: u32, rank: u64| Some(Rule { mask: crate::bits::Bits::all(width), ..rule(id, rank, "") });
        let slots = [exact(1, EXACT_RANK), Some(rule(2, 65_535, "")), exact(3, 7)];
        assert_eq!(list_of(&words_of(&slots, width), width, COUNTED), Ok(vec![1, NO, 2, 0, NO, 1]));
    }
}

/// The insert of 5/50 `00*`, with a list and room for so many words: the answer and the list afterwards.
fn planned(lent: &[u16], room: usize) -> (Result<ListedPlan, Refusal>, Vec<u16>) {
    of_each_kind(|uncounted| {
        at_each(|width, edition| {
            let (words, mut list) = (words_of(&table(&CHAIN), width), lent.to_vec());
            let new = rule(5, 50, "00*").record(width);
            let answer = plan_insert_listed(&words, width, uncounted, &new, edition, &mut list, room);
            (answer, list)
        })
    })
}

fn chain_plan(refreshed: bool) -> Result<ListedPlan, Refusal> {
    let writes = vec![write_word(1, 4), write_word(0, 1), put(0)];
    Ok(ListedPlan { planned: Planned { writes, covered: None }, refreshed })
}

#[test]
fn an_insert_with_a_list() {
    assert_eq!(planned(&CHAIN_LIST, 5), (chain_plan(false), CHAIN_LIST.to_vec()));
    for place in 0..10 {
        let mut wrong = CHAIN_LIST;
        wrong[place] ^= 1;
        assert_eq!(planned(&wrong, 5), (chain_plan(true), CHAIN_LIST.to_vec()));
        assert_eq!(planned(&wrong, 2), (refused(SHORT, 3), wrong.to_vec()));
    }
    let mut last_is_0 = CHAIN_LIST;
    last_is_0[9] = 0;
    assert_eq!(planned(&last_is_0, 3), (chain_plan(true), CHAIN_LIST.to_vec()));
    for numbers in [0, 1, 5, 8, 9, 11, 12, 20] {
        let other = vec![7; numbers];
        assert_eq!(planned(&other, 5), (refused(SHAPE, 0), other));
    }
}

/// After each write of a plan the list is brought up to date, and is refreshed only where it was another's.
#[test]
fn a_plan_carried_out_with_a_list() {
    let lists = [
        CHAIN_LIST,
        [2, NO, NO, NO, 3, 0, NO, 2, NO, NO],
        [2, NO, 2, NO, 3, 1, NO, 2, NO, NO],
        [1, NO, 2, 0, 3, 1, NO, 2, NO, NO],
    ];
    let plan = chain_plan(false).unwrap().planned.writes;
    of_each_kind(|uncounted| {
        at_each(|width, edition| {
            let (mut words, new) = (words_of(&table(&CHAIN), width), rule(5, 50, "00*").record(width));
            let (mut list, mut progress) = (CHAIN_LIST.to_vec(), Progress { done: 0, total: 3 });
            for after in &lists[1..] {
                let step = |list: &mut [u16], words: &mut [u64], progress: &mut Progress| {
                    carry_out_listed(words, width, uncounted, &new, edition, list, &plan, progress)
                };
                let (mut stale, mut again, mut at) = (vec![9; 10], words.clone(), progress);
                assert_eq!(step(&mut stale, &mut again, &mut at), Ok(ListedCarried::Wrote { refreshed: true }));
                assert_eq!(step(&mut list, &mut words, &mut progress), Ok(ListedCarried::Wrote { refreshed: false }));
                assert_eq!((&list[..], &stale[..], &again), (&after[..], &after[..], &words));
            }
            let finished = carry_out_listed(&mut words, width, uncounted, &new, edition, &mut [1; 10], &plan, &mut progress);
            assert_eq!(finished, Ok(ListedCarried::Finished));
        })
    });
}

/// Table, answer and progress are those of the calls without a list; a call that declines leaves the list.
#[test]
fn all_else_is_as_without_a_list() {
    let slots = table(&[(1, 20, "1"), (1, 30, "1"), (2, 10, "0"), (0, 0, ""), (3, 40, "")]);
    for width in WIDTHS {
        let new = rule(9, 25, "11").record(width);
        let froms = [0, 1, 2, 3, 4, 5, EMPTYING, 65_535];
        for (from, to) in froms.into_iter().flat_map(|from| (0..6).map(move |to| (from, to))) {
            let plan = [write_word(from, to)];
            let (mut words, mut again, mut list) = (words_of(&slots, width), words_of(&slots, width), vec![4; 10]);
            let (mut progress, mut at) = (Progress { done: 0, total: 1 }, Progress { done: 0, total: 1 });
            let listed = carry_out_listed(&mut words, width, COUNTED, &new, EDITION_13, &mut list, &plan, &mut progress);
            let plain = carry_out(&mut again, width, &new, EDITION_13, &plan, &mut at);
            assert_eq!((listed.map(|_| ()), words.clone(), progress), (plain.map(|_| ()), again, at));
            let after = if listed.is_ok() { list_of(&words, width, COUNTED).unwrap() } else { vec![4; 10] };
            assert_eq!(list, after);
        }
        let declined = plan_insert_listed(&words_of(&slots, width), width, COUNTED, &new, EDITION_10, &mut [4; 10], 5);
        let plain = plan_insert(&words_of(&slots, width), width, COUNTED, &new, EDITION_10, 5);
        assert_eq!(declined.unwrap_err(), plain.unwrap_err());
    }
}
