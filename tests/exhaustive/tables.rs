// The tables and new rules of the exhaustive check, at both widths: all of a space, and seeded ones.

use reference::bits::{Bits, WIDTHS};
use reference::given::Given;
use reference::table::{first_out_of_order, Rule, Slot, COUNTED, EXACT_RANK, UNCOUNTED};
use support::random::Random;

/// The same at each width.
pub type Both<T> = [T; WIDTHS.len()];

/// A new rule as it is given, with its edition, and as it then stands in the table, at each width.
pub struct New {
    pub edition: u32,
    /// The bits of its pattern, and of those in the tables.
    pub bits: usize,
    pub records: Both<Vec<u64>>,
    pub rules: Both<Rule>,
}

impl New {
    /// The ranks told are given as priorities.
    pub fn of(rules: Both<Rule>, bits: usize, edition: u32) -> New {
        let records = [0, 1].map(|at| rules[at].record(WIDTHS[at]));
        let ranked = |at: usize| Given::of_record(&records[at], WIDTHS[at]).ranked(WIDTHS[at], edition);
        New { edition, bits, rules: [0, 1].map(|at| ranked(at).expect("a sound rule")), records }
    }
}

/// What the rules of a table have at the bits that their patterns don't tell.
#[derive(Clone, Copy, PartialEq)]
pub enum Others {
    Uncared,
    /// 0, cared for: a rule whose pattern has no uncared bit is exact.
    Cared,
}

/// Which tables there are, over two bits, and under which editions every new rule is asked for.
pub struct Space {
    pub slots: std::ops::RangeInclusive<usize>,
    /// How many slots are empty at least.
    pub empty_least: usize,
    pub others: Others,
    pub uncounted: bool,
    /// Even: priorities of new rules are any up to one above the highest, so that there is room between two of them. An exact rule
    /// may also have rank 65,536.
    pub ranks: &'static [u64],
    pub editions: &'static [u32],
}

impl Space {
    /// The actions that a rule may have after the rules told. The first rule of an uncounted table has the first of two, since a table
    /// with the two exchanged is as good; in counted tables, where actions play no part, some pairs have one and others not.
    fn actions(&self, before: &[Slot]) -> std::ops::RangeInclusive<u32> {
        match self.uncounted {
            COUNTED => before.len() as u32 % 2..=before.len() as u32 % 2,
            UNCOUNTED if before.iter().all(|entry| entry.is_none()) => 0..=0,
            UNCOUNTED => 0..=1,
        }
    }

    /// New rules of every pattern and of every priority at, between and beside those of the tables; in uncounted tables of each action,
    /// and of one more.
    pub fn new_rules(&self) -> Vec<New> {
        let actions = if self.uncounted { 0..3 } else { 0..1 };
        let priorities = 1..=self.ranks[self.ranks.len() - 1] + 1;
        let mut new_rules = Vec::new();
        for (&edition, action) in self.editions.iter().flat_map(|edition| actions.clone().map(move |action| (edition, action))) {
            for (pattern, priority) in (0..9).flat_map(|pattern| priorities.clone().map(move |priority| (pattern, priority))) {
                let rules = rules_of(Parts { id: 99, rank: priority, pattern, action }, 2, self.others);
                new_rules.push(New::of(rules, 2, edition));
            }
        }
        new_rules
    }
}

/// Where a bit of the patterns stands: the first in the first word of the value, the last in its last word.
pub fn place_of(width: usize, bit: usize, bits: usize) -> Bits {
    Bits::at(64 * ((width - 1) * bit).div_ceil(bits - 1) + bit)
}

/// What a rule is made of; the pattern's digits to base 3 say 0, 1 or uncared for at each of the bits.
pub struct Parts {
    pub id: u32,
    pub rank: u64,
    pub pattern: usize,
    pub action: u32,
}

pub fn rules_of(Parts { id, rank, pattern, action }: Parts, bits: usize, others: Others) -> Both<Rule> {
    WIDTHS.map(|width| {
        let mut rule = Rule { id, rank, value: Bits::NONE, mask: Bits::NONE, action };
        let mut told = Bits::NONE;
        for bit in 0..bits {
            let place = place_of(width, bit, bits);
            let digit = pattern / 3usize.pow(bit as u32) % 3;
            told |= place;
            rule.mask |= if digit < 2 { place } else { Bits::NONE };
            rule.value |= if digit == 1 { place } else { Bits::NONE };
        }
        if others == Others::Cared {
            rule.mask |= Bits::all(width) ^ told;
        }
        rule
    })
}

fn set(tables: &mut Both<Vec<Slot>>, slot: usize, rules: Both<Rule>) {
    tables.iter_mut().zip(rules).for_each(|(table, rule)| table[slot] = Some(rule));
}

fn empty(tables: &mut Both<Vec<Slot>>, slot: usize) {
    tables.iter_mut().for_each(|table| table[slot] = None);
}

/// Every sound table of a space that agrees with `tables` below `slot`; the rule in slot k has id k + 1.
pub fn each_table(tables: &mut Both<Vec<Slot>>, slot: usize, space: &Space, check: &mut dyn FnMut(&Both<Vec<Slot>>)) {
    if slot == tables[0].len() {
        return check(tables);
    }
    let empty_so_far = tables[0][..slot].iter().filter(|entry| entry.is_none()).count();
    empty(tables, slot);
    each_table(tables, slot + 1, space, check);
    if empty_so_far + tables[0].len() - slot - 1 < space.empty_least {
        return;
    }
    let actions = space.actions(&tables[0][..slot]);
    for (pattern, action) in (0..9).flat_map(|pattern| actions.clone().map(move |action| (pattern, action))) {
        for &rank in space.ranks.iter().chain(&[EXACT_RANK]) {
            let rules = rules_of(Parts { id: slot as u32 + 1, rank, pattern, action }, 2, space.others);
            set(tables, slot, rules);
            if rules[0].is_sound(WIDTHS[0]) && first_out_of_order(&tables[0][..=slot], space.uncounted).is_none() {
                each_table(tables, slot + 1, space, check);
            }
        }
    }
    empty(tables, slot);
}

pub fn seeded_rules(random: &mut Random, id: u32) -> Both<Rule> {
    let parts = Parts { id, rank: random.between(0, 16) as u64, pattern: random.below(27), action: random.below(3) as u32 };
    rules_of(parts, 3, Others::Uncared)
}

/// Patterns and actions at random, ranks from the last slot to the first; one or two slots are empty.
pub fn seeded_tables(random: &mut Random, slots: usize, uncounted: bool) -> Both<Vec<Slot>> {
    let mut tables = [vec![None; slots], vec![None; slots]];
    let empty = [random.below(slots), random.below(slots)];
    for slot in (0..slots).rev().filter(|slot| !empty.contains(slot)) {
        let mut rules = seeded_rules(random, slot as u32 + 1);
        let is_below = |later: &&Rule| later.is_ordered_with(&rules[0], uncounted);
        let later = tables[0][slot + 1..].iter().flatten().filter(is_below);
        let least = later.map(|later| later.rank + 1).max().unwrap_or(1);
        let rank = least + random.below(3) as u64;
        rules.iter_mut().for_each(|rule| rule.rank = rank);
        set(&mut tables, slot, rules);
    }
    tables
}
