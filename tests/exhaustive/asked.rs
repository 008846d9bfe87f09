// What is checked of one table with new rules: the library's answer beside the reference's, the plan's length beside the search, what
// every key is answered at every write, and the rule that covers the new one by its keys. Beside it what a run has counted.

use crate::shortest::shortest_sequence;
use crate::tables::{place_of, Both, New};
use reference::bits::{Bits, WIDTHS};
use reference::carry::{fits, Progress};
use reference::listed::{neighbour_list, ListedPlan};
use reference::lookup::is_promised;
use reference::plan::{replaced_slot, write_word, Planned, PUT_IN};
use reference::table::{check_ids_and_order, first_out_of_order, record_words, words_of, Rule, Slot};
use std::collections::BTreeMap;
use support::calls::{carry_out_listed, plan_insert_listed};

#[derive(Default)]
pub struct Counts {
    pub tables: u64,
    /// Planned inserts by their number of writes, those that replace a rule apart.
    pub planned: BTreeMap<usize, u64>,
    /// Those, and how many of them are in tables without an empty slot, and in tables in which another equal rule stays.
    pub replacements: u64,
    pub replacements_in_full: u64,
    pub replacements_of_several: u64,
    /// Inserts, of all that are planned, whose rule another covers.
    pub covered: u64,
    /// Refused inserts by the refusal's number.
    pub refused: BTreeMap<u32, u64>,
}

impl Counts {
    /// Tables, inserts that were compared with the search, replacements, and of both those whose rule another covers.
    pub fn sums(&self) -> (u64, u64, u64, u64) {
        (self.tables, self.planned.values().sum(), self.replacements, self.covered)
    }

    pub fn print(&self, what: &str) {
        println!("exhaustive: {what}: {} tables, each of two words and of five", self.tables);
        println!("  inserts planned at each width, by writes, each as short as the search: {:?}", self.planned);
        println!(
            "  inserts that replace an equal rule, each checked by itself: {}, of them {} in full tables, {} beside equal ones",
            self.replacements, self.replacements_in_full, self.replacements_of_several
        );
        println!("  of both, rules that another covers, by all keys: {}", self.covered);
        println!("  inserts refused, by number: {:?}", self.refused);
    }
}

/// The library is asked at each width. The reference is asked, and carries out, at one of them in turn: since the patterns are
/// the same but for their places, so is the answer. Where nothing is planned for want of an empty slot, the library is asked at that
/// one.
pub fn check_table(tables: &Both<Vec<Slot>>, new_rules: &[New], uncounted: bool, counts: &mut Counts) {
    let at = counts.tables as usize % WIDTHS.len();
    counts.tables += 1;
    let words = [0, 1].map(|at| words_of(&tables[at], WIDTHS[at]));
    let keys = every_key(WIDTHS[at], new_rules[0].bits);
    let list = neighbour_list(&tables[at], uncounted);
    let asked = Asked { slots: &tables[at], words: &words[at], at, uncounted, keys, list };
    let mut before_last = asked.start();
    for (place, new) in new_rules.iter().enumerate() {
        let turn = counts.tables as usize + place;
        let replaced = replaced_slot(asked.slots, &new.rules[at], uncounted);
        let is_planned = asked.has_empty_slot() || replaced.is_some();
        let (width, room) = (WIDTHS[at], asked.slots.len());
        let expected = reference::plan::plan_insert(asked.words, width, uncounted, &new.records[at], new.edition, room);
        for (place, width) in WIDTHS.into_iter().enumerate().filter(|(place, _)| is_planned || *place == at) {
            let planned = support::calls::plan_insert(&words[place], width, uncounted, &new.records[place], new.edition);
            if planned != expected {
                asked.fail(new, &format!("the library says {planned:x?} at width {width}, the reference {expected:x?}"));
            }
        }
        let checked = match expected {
            Err(_) if replaced.is_some() => Err("the reference declines a replacement".to_string()),
            Err(refusal) => {
                *counts.refused.entry(refusal.number).or_default() += 1;
                Ok(())
            }
            Ok(planned) => {
                let checked = match replaced {
                    Some(slot) => asked.check_replacement(new, slot, &planned.writes, counts),
                    None => asked.check_plan(new, &planned.writes, counts),
                };
                checked
                    .and_then(|()| asked.check_cover(new, &planned, counts))
                    .and_then(|()| asked.check_lists(new, &planned, &mut before_last, turn))
            }
        };
        checked.unwrap_or_else(|what| asked.fail(new, &what));
    }
}

/// One insert of so many is planned with a list too.
const PLANNED_WITH_LIST: usize = 16;

/// A table after so many copies of a plan, and its list, as the library has left them.
struct Carried {
    copies: Vec<u32>,
    slots: Vec<Slot>,
    words: Vec<u64>,
    list: Vec<u16>,
}

impl Carried {
    /// The words of a slot as they were: a put-in goes to an empty slot, or to one whose rule `slots` has still.
    fn take_back(&mut self, slot: usize, width: usize) {
        let words = &mut self.words[slot * record_words(width)..][..record_words(width)];
        match self.slots[slot] {
            Some(rule) => words.copy_from_slice(&rule.record(width)),
            None => words.fill(0),
        }
    }
}

/// A write of a plan, which puts the rule in or copies one.
fn make(slots: &mut [Slot], write: u32, rule: Rule) {
    slots[write as usize % 65_536] = match write / 65_536 {
        PUT_IN => Some(rule),
        from => slots[from as usize],
    };
}

/// Every key over the bits of the patterns.
fn every_key(width: usize, bits: usize) -> Vec<Bits> {
    let key_of = |number: usize| {
        let is_set = |bit: &usize| number >> bit & 1 == 1;
        (0..bits).filter(is_set).fold(Bits::NONE, |key, bit| key | place_of(width, bit, bits))
    };
    (0..1 << bits).map(key_of).collect()
}

/// A table that new rules are planned for, at one of the widths, and the keys that are watched.
struct Asked<'a> {
    slots: &'a [Slot],
    words: &'a [u64],
    at: usize,
    uncounted: bool,
    keys: Vec<Bits>,
    list: Vec<u16>,
}

impl Asked<'_> {
    fn has_empty_slot(&self) -> bool {
        self.slots.contains(&None)
    }

    /// An insert that adds a rule: as short as the search, and every key answered at every write.
    fn check_plan(&self, new: &New, plan: &[u32], counts: &mut Counts) -> Result<(), String> {
        let shortest = shortest_sequence(self.slots, &new.rules[self.at], self.uncounted);
        if shortest != plan.len() {
            return Err(format!("planned {} writes, the search found {shortest}", plan.len()));
        }
        let rules: Vec<Rule> = self.slots.iter().flatten().copied().collect();
        self.check_writes(new, plan, &rules, &[&rules[..], &[new.rules[self.at]]].concat())?;
        *counts.planned.entry(plan.len()).or_default() += 1;
        Ok(())
    }

    /// A replacement: one put-in at the slot of the equal rule, the lowest of several, which the library too carries out.
    fn check_replacement(&self, new: &New, slot: usize, plan: &[u32], counts: &mut Counts) -> Result<(), String> {
        let (width, rule) = (WIDTHS[self.at], new.rules[self.at]);
        let mut after = self.slots.to_vec();
        after[slot] = Some(rule);
        let mut carried = self.words.to_vec();
        let mut progress = Progress { done: 0, total: 1 };
        let wrote = support::calls::carry_out(&mut carried, width, &new.records[self.at], new.edition, plan, &mut progress);
        if plan != [write_word(PUT_IN, slot)] {
            return Err("the plan is not one put-in over the equal rule".to_string());
        }
        if wrote != 0 || carried != words_of(&after, width) || progress.done != 1 {
            return Err("the library carries the replacement out in another way".to_string());
        }
        let rules_of = |slots: &[Slot]| slots.iter().flatten().copied().collect::<Vec<Rule>>();
        self.check_writes(new, plan, &rules_of(self.slots), &rules_of(&after))?;
        counts.replacements += 1;
        counts.replacements_in_full += u64::from(!self.has_empty_slot());
        counts.replacements_of_several += u64::from(self.slots.iter().flatten().filter(|other| other.equals(&rule)).count() > 1);
        Ok(())
    }

    /// The plan made write by write, as the reference says: each write fits and leaves the table in order, and the last table is sound.
    /// Before the last write every key is answered by the old rules, and after it by the new ones.
    fn check_writes(&self, new: &New, plan: &[u32], old_rules: &[Rule], new_rules: &[Rule]) -> Result<(), String> {
        let (mut slots, rule) = (self.slots.to_vec(), new.rules[self.at]);
        for done in 0..=plan.len() {
            let rules = if done < plan.len() { old_rules } else { new_rules };
            if first_out_of_order(&slots, self.uncounted).is_some() {
                return Err(format!("the plan {plan:x?} leaves the order after {done} writes"));
            }
            if !self.has_replies_of(&slots, rules) {
                return Err(format!("a key has another reply after {done} writes of {plan:x?}"));
            }
            let Some(&write) = plan.get(done) else { break };
            if !fits(&slots, write, Some(&rule)) {
                return Err(format!("write {done} of the plan {plan:x?} does not fit"));
            }
            make(&mut slots, write, rule);
        }
        check_ids_and_order(&slots, self.uncounted).map_err(|refusal| format!("{refusal:?} after the plan {plan:x?}"))
    }

    /// The slot that is told is the lowest of a higher-ranked rule that every key of the new one matches. In a counted table no key
    /// is answered by the new rule then, whatever write of the plan is the last.
    fn check_cover(&self, new: &New, planned: &Planned, counts: &mut Counts) -> Result<(), String> {
        let rule = new.rules[self.at];
        let covers = |other: &Rule| self.keys.iter().filter(|key| rule.matches(**key)).all(|key| other.matches(*key));
        let obscures = |entry: &Slot| entry.is_some_and(|other| other.rank > rule.rank && covers(&other));
        if planned.covered != self.slots.iter().position(obscures) {
            return Err(format!("by all keys another slot than {:?} covers the new rule", planned.covered));
        }
        let Some(covering) = planned.covered.and_then(|slot| self.slots[slot]) else { return Ok(()) };
        counts.covered += 1;
        let mut slots = self.slots.to_vec();
        for &write in &planned.writes {
            make(&mut slots, write, rule);
            let is_answered = |key: &Bits| slots.iter().flatten().find(|other| other.matches(*key)) == Some(&rule);
            if !self.uncounted && slots.contains(&Some(covering)) && self.keys.iter().any(is_answered) {
                return Err(format!("a key is answered by the new rule, which slot {:?} covers", planned.covered));
            }
        }
        Ok(())
    }

    /// The plan carried out by the library with a list. Its copies are made again only where they are others than those of the plan before,
    /// from which `before` is left; the last write is made and taken back. Some inserts are planned with a list too, and the table that they
    /// leave is compared.
    fn check_lists(&self, new: &New, planned: &Planned, before: &mut Carried, turn: usize) -> Result<(), String> {
        let is_planned = turn % PLANNED_WITH_LIST == 0;
        if is_planned {
            self.check_listed_plan(new, planned, turn / PLANNED_WITH_LIST)?;
        }
        let copies = planned.writes.len() - 1;
        if before.copies != planned.writes[..copies] {
            *before = self.start();
            (0..copies).try_for_each(|done| self.write_with_list(new, &planned.writes, done, before))?;
            before.copies = planned.writes[..copies].to_vec();
        }
        let to = planned.writes[copies] as usize % 65_536;
        let (slot, list) = (before.slots[to], before.list.clone());
        self.write_with_list(new, &planned.writes, copies, before)?;
        if is_planned && before.words != words_of(&before.slots, WIDTHS[self.at]) {
            return Err("with a list the library carries the plan out in another way".to_string());
        }
        (before.slots[to], before.list) = (slot, list);
        before.take_back(to, WIDTHS[self.at]);
        Ok(())
    }

    /// The table as it is before a plan.
    fn start(&self) -> Carried {
        let (slots, words) = (self.slots.to_vec(), self.words.to_vec());
        Carried { copies: Vec::new(), slots, words, list: self.list.clone() }
    }

    /// One write with a list: the list is right before it, and that of the table after it, worked out from the whole of it.
    fn write_with_list(&self, new: &New, plan: &[u32], done: usize, carried: &mut Carried) -> Result<(), String> {
        let (width, record) = (WIDTHS[self.at], &new.records[self.at]);
        let Carried { slots, words, list, .. } = carried;
        let mut progress = Progress { done: done as u32, total: plan.len() as u32 };
        make(slots, plan[done], new.rules[self.at]);
        let told = carry_out_listed(words, width, self.uncounted, record, new.edition, list, plan, &mut progress);
        if told != (0, Some(false)) || *list != neighbour_list(slots, self.uncounted) {
            return Err(format!("{told:?} and the list {list:?} after {} writes of {plan:x?}", progress.done));
        }
        Ok(())
    }

    /// The plan is the same with a list, and the list is that of the table then.
    fn check_listed_plan(&self, new: &New, planned: &Planned, turn: usize) -> Result<(), String> {
        let (mut list, wrong) = (self.list.clone(), turn % (2 * self.list.len()));
        let refreshed = wrong < list.len();
        if refreshed {
            list[wrong] ^= 1;
        }
        let record = &new.records[self.at];
        let listed = plan_insert_listed(self.words, WIDTHS[self.at], self.uncounted, record, new.edition, &mut list);
        if listed != Ok(ListedPlan { planned: planned.clone(), refreshed }) || list != self.list {
            return Err(format!("with a list the library says {listed:x?} and leaves {list:?}"));
        }
        Ok(())
    }

    /// Whether every key has a reply that the rules promise, which is the lowest matching slot's.
    fn has_replies_of(&self, slots: &[Slot], rules: &[Rule]) -> bool {
        self.keys.iter().all(|&key| {
            let found = slots.iter().flatten().find(|rule| rule.matches(key));
            is_promised(found.map(|rule| (rule.id, rule.action)), rules, key, self.uncounted)
        })
    }

    fn fail(&self, new: &New, what: &str) -> ! {
        println!("exhaustive: MISMATCH: {what}");
        println!("  the table is {}", if self.uncounted { "uncounted" } else { "counted" });
        for (slot, entry) in self.slots.iter().enumerate() {
            println!("  slot {slot}: {entry:x?}");
        }
        println!("  new rule, given under edition {}: {:x?}", new.edition, new.rules[self.at]);
        std::process::exit(1)
    }
}
