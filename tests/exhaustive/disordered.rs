// Every write with a neighbour list, on every small table that passes checks 1 and 2: in order or not, with ties, and with ids in several
// slots whose rules differ. The library beside the reference: the answer, the table, and the list, which is that of the table afterwards.

use crate::tables::{rules_of, Others, Parts};
use reference::bits::WIDTHS;
use reference::carry::Progress;
use reference::given::EDITION_13;
use reference::listed::{self, neighbour_list, ListedCarried};
use reference::plan::{write_word, EMPTYING, PUT_IN};
use reference::table::{words_of, Refusal, Rule, Slot};

const RANKS: [u64; 2] = [2, 4];
const IDS: [u32; 2] = [1, 2];

/// The patterns over one bit, as digits to base 3; the second bit is uncared for.
const PATTERNS: [usize; 3] = [6, 7, 8];

#[derive(Default)]
pub struct Writes {
    pub tables: u64,
    /// Writes that are made, and those that are declined.
    pub made: u64,
    pub declined: u64,
}

/// Every table of so many slots, in an uncounted one of each of two actions, at one of the widths in turn.
pub fn check_disordered(slots: usize, uncounted: bool, writes: &mut Writes) {
    let every: Vec<Vec<Slot>> = WIDTHS.iter().enumerate().map(|(at, _)| every_slot(at, uncounted)).collect();
    let new_rules: Vec<Vec<Rule>> = WIDTHS.iter().enumerate().map(|(at, _)| every_new(at)).collect();
    for number in 0..every[0].len().pow(slots as u32) {
        let at = number % WIDTHS.len();
        let digit = |slot: usize| number / every[at].len().pow(slot as u32) % every[at].len();
        let table: Vec<Slot> = (0..slots).map(|slot| every[at][digit(slot)]).collect();
        check_table(&table, WIDTHS[at], uncounted, &new_rules[at], writes);
    }
}

/// What a slot may hold.
fn every_slot(at: usize, uncounted: bool) -> Vec<Slot> {
    let actions: &[u32] = if uncounted { &[0, 1] } else { &[0] };
    let mut slots = vec![None];
    for (&pattern, &rank) in PATTERNS.iter().flat_map(|pattern| RANKS.iter().map(move |rank| (pattern, rank))) {
        for (&id, &action) in IDS.iter().flat_map(|id| actions.iter().map(move |action| (id, action))) {
            slots.push(Some(rules_of(Parts { id, rank, pattern, action }, 2, Others::Uncared)[at]));
        }
    }
    slots
}

/// New rules, of ranks at, between and beside those of the tables.
fn every_new(at: usize) -> Vec<Rule> {
    let ranks = 1..=RANKS[1] + 1;
    let parts = PATTERNS.iter().flat_map(|&pattern| ranks.clone().map(move |rank| Parts { id: 9, rank, pattern, action: 1 }));
    parts.map(|parts| rules_of(parts, 2, Others::Uncared)[at]).collect()
}

fn check_table(table: &[Slot], width: usize, uncounted: bool, new_rules: &[Rule], writes: &mut Writes) {
    let (words, list) = (words_of(table, width), neighbour_list(table, uncounted));
    let asked = Asked { words, list, width, uncounted };
    writes.tables += 1;
    let slots = table.len();
    for to in 0..slots {
        for from in (0..slots as u32).chain([EMPTYING]) {
            asked.check(write_word(from, to), &new_rules[0], writes);
        }
        for new in new_rules {
            asked.check(write_word(PUT_IN, to), new, writes);
        }
    }
}

struct Asked {
    words: Vec<u64>,
    list: Vec<u16>,
    width: usize,
    uncounted: bool,
}

type Answer = Result<ListedCarried, Refusal>;

/// All that is seen of a call.
type Seen = (Answer, Vec<u64>, Vec<u16>, Progress);

/// The call, the library's or the reference's.
type CarryOut = fn(&mut [u64], usize, bool, &[u64], u32, &mut [u16], &[u32], &mut Progress) -> Answer;

impl Asked {
    /// One write on both sides. The list is right every other time, else one of its numbers is another.
    fn check(&self, write: u32, new: &Rule, writes: &mut Writes) {
        let turn = (writes.made + writes.declined) as usize;
        let (mut list, wrong) = (self.list.clone(), turn % (2 * self.list.len()));
        if wrong < list.len() {
            list[wrong] ^= 1;
        }
        let library = self.seen(write, new, &list, |words, width, uncounted, rule, edition, list, plan, progress| {
            match support::calls::carry_out_listed(words, width, uncounted, rule, edition, list, plan, progress) {
                (0, Some(refreshed)) => Ok(ListedCarried::Wrote { refreshed }),
                (result, _) => Err(Refusal { number: result as u32, spot: result >> 32 }),
            }
        });
        let reference = self.seen(write, new, &list, listed::carry_out_listed);
        if library != reference {
            println!("exhaustive: MISMATCH: the write {write:x} with the list {list:?} of {:x?}", self.words);
            println!("  width {}, uncounted {}, new rule {new:x?}", self.width, self.uncounted);
            println!("  library:   {library:x?}");
            println!("  reference: {reference:x?}");
            std::process::exit(1);
        }
        writes.made += u64::from(library.0.is_ok());
        writes.declined += u64::from(library.0.is_err());
    }

    /// One write as one of them makes it.
    fn seen(&self, write: u32, new: &Rule, list: &[u16], carry_out: CarryOut) -> Seen {
        let (mut words, mut list, mut progress) = (self.words.clone(), list.to_vec(), Progress { done: 0, total: 1 });
        let (record, plan) = (new.record(self.width), [write]);
        let answer = carry_out(&mut words, self.width, self.uncounted, &record, EDITION_13, &mut list, &plan, &mut progress);
        (answer, words, list, progress)
    }
}
