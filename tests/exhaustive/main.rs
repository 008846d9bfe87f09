// The exhaustive small check: the planned count against the shortest sequence of document 01's comparison class, at both widths, and
// what every key is answered at every write; and the rule that is told to cover the new one, against the keys of both.
// Counted: all tables of up to four slots over two bits and four priorities, all of up to three with exact rules under both editions, and
// seeded tables of five and six over three bits. Uncounted, where the class keeps the looser order, with two actions: all tables of up to
// three slots and three priorities, all of four with two priorities and an empty slot, all of up to two with exact rules, and seeded ones.
// An insert that replaces a rule is none of the class: it is checked by itself. Plans are also carried out with a neighbour list, which is
// compared with a fresh one after each copy, and after the last write of every other plan; and so is every write on every table of up to
// three slots over one bit, in order or not, with ids in several slots.

mod asked;
mod disordered;
mod shortest;
mod tables;

use crate::asked::{check_table, Counts};
use crate::disordered::{check_disordered, Writes};
use crate::tables::{each_table, seeded_rules, seeded_tables, New, Others, Space};
use reference::given::{EDITION_10, EDITION_13};
use reference::table::{COUNTED, UNCOUNTED};
use std::time::Instant;
use support::random::Random;

const SEEDED_TABLES: u64 = 60_000;
const SEED: u64 = 1;

fn main() {
    let start = Instant::now();
    check_counted();
    check_uncounted();
    check_lists_of_disordered();
    println!("exhaustive: {} s", start.elapsed().as_secs());
}

/// The sums are of all there are: a run that leaves some out does not pass.
fn check_counted() {
    let all = Space {
        slots: 1..=4,
        empty_least: 0,
        others: Others::Uncared,
        uncounted: COUNTED,
        ranks: &[2, 4, 6, 8],
        editions: &[EDITION_13],
    };
    let counts = check_every_table(&all);
    counts.print("every table of one to four slots over two bits");
    assert_eq!(counts.sums(), (206_965, 3_736_462, 748_864, 1_274_955));
    let exact = Space { slots: 1..=3, others: Others::Cared, editions: &[EDITION_10, EDITION_13], ..all };
    let counts = check_every_table(&exact);
    counts.print("every table of one to three slots over two bits, all others cared for, under both editions");
    assert_eq!(counts.sums(), (23_735, 475_414, 162_272, 82_324));
    check_seeded(COUNTED).print("seeded tables of five and six slots over three bits");
}

fn check_uncounted() {
    let all = Space {
        slots: 1..=3,
        empty_least: 0,
        others: Others::Uncared,
        uncounted: UNCOUNTED,
        ranks: &[2, 4, 6],
        editions: &[EDITION_13],
    };
    let counts = check_every_table(&all);
    counts.print("uncounted, two actions: every table of one to three slots over two bits");
    assert_eq!(counts.sums(), (46_907, 599_262, 132_306, 161_874));
    let with_room = Space { slots: 4..=4, empty_least: 1, ranks: &[2, 4], ..all };
    let counts = check_every_table(&with_room);
    counts.print("uncounted, two actions: every table of four slots over two bits with an empty slot");
    assert_eq!(counts.sums(), (49_071, 5_182_397, 138_208, 1_494_522));
    let exact = Space { slots: 1..=2, others: Others::Cared, editions: &[EDITION_10, EDITION_13], ..all };
    let counts = check_every_table(&exact);
    counts.print(
        "uncounted, two actions: every table of one or two slots over two bits, all others cared for, under both editions",
    );
    assert_eq!(counts.sums(), (1_671, 22_956, 7_360, 2_346));
    check_seeded(UNCOUNTED).print("uncounted, three actions: seeded tables of five and six slots over three bits");
}

/// Every write with a list on tables of which planning declines many; the sums are of all there are.
fn check_lists_of_disordered() {
    let kinds = [
        ("every table of one to three slots", COUNTED, (2_379, 92_634, 38_900)),
        ("uncounted, two actions: every table of one to three slots", UNCOUNTED, (16_275, 657_210, 256_340)),
    ];
    for (what, uncounted, sums) in kinds {
        let mut all = Writes::default();
        (1..=3).for_each(|slots| check_disordered(slots, uncounted, &mut all));
        println!("exhaustive: {what} over one bit, in order or not, ids in several slots: {} tables", all.tables);
        println!("  writes with a list: {} made, {} declined", all.made, all.declined);
        assert_eq!((all.tables, all.made, all.declined), sums);
    }
}

/// Every table of a space, with every new rule under each of the editions.
fn check_every_table(space: &Space) -> Counts {
    let mut counts = Counts::default();
    let new_rules = space.new_rules();
    for slots in space.slots.clone() {
        let mut tables = [vec![None; slots], vec![None; slots]];
        each_table(&mut tables, 0, space, &mut |tables| check_table(tables, &new_rules, space.uncounted, &mut counts));
    }
    counts
}

fn check_seeded(uncounted: bool) -> Counts {
    let mut counts = Counts::default();
    for number in 0..SEEDED_TABLES {
        let mut random = Random::new(SEED, number);
        let slots = random.between(5, 6);
        let tables = seeded_tables(&mut random, slots, uncounted);
        let new_rules: Vec<New> = (0..4).map(|_| New::of(seeded_rules(&mut random, 99), 3, EDITION_13)).collect();
        check_table(&tables, &new_rules, uncounted, &mut counts);
    }
    assert_eq!(counts.tables, SEEDED_TABLES);
    assert_ne!(counts.covered, 0);
    counts
}
