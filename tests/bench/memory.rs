// A planner's memory, a counted table: which rule stands in which slot, and how a chain of slots is written into it.
// The lowest slot wins, as in document 01; documents 000 and 001 let the highest address win, so their addresses run the other way.

use reference::table::{record_words, words_of, Rule, COUNTED};

/// All that a planner asks of patterns is which of them overlap: two words tell as much as five.
pub const WIDTH: usize = 2;

/// Why a planner has no plan for an insert.
#[derive(Clone, Copy, Debug, PartialEq, Eq)]
pub enum NoPlan {
    /// A rule that depends on the new one stands before one that precedes it.
    Crossed,
    /// No empty slot on the side to which the planner moves rules.
    NoRoom,
}

/// The slots that are written: the new rule's first, then that of the rule it displaces, and so on to an empty slot.
/// There are as many writes as slots.
pub type Chain = Vec<usize>;

#[derive(Clone)]
pub struct Memory {
    pub slots: Vec<Option<Rule>>,
    /// The same as words, for the library.
    pub words: Vec<u64>,
}

impl Memory {
    pub fn new(slots: usize) -> Memory {
        Memory { slots: vec![None; slots], words: vec![0; slots * record_words(WIDTH)] }
    }

    pub fn set(&mut self, slot: usize, entry: Option<Rule>) {
        self.slots[slot] = entry;
        let first = slot * record_words(WIDTH);
        self.words[first..first + record_words(WIDTH)].copy_from_slice(&words_of(&[entry], WIDTH));
    }

    /// Every rule of the chain goes one place on, the far end first, and the new rule to the chain's start.
    pub fn write_chain(&mut self, chain: &[usize], new: &Rule) {
        assert!(self.slots[*chain.last().unwrap()].is_none(), "a chain ends at an empty slot");
        for link in (1..chain.len()).rev() {
            let moved = self.slots[chain[link - 1]];
            assert!(moved.is_some(), "only the end of a chain is empty");
            self.set(chain[link], moved);
        }
        self.set(chain[0], Some(*new));
    }

    /// The slot that is emptied, and its rule.
    pub fn delete(&mut self, id: u32) -> (usize, Rule) {
        let is_there = |slot: &usize| self.slots[*slot].is_some_and(|rule| rule.id == id);
        let slot = (0..self.slots.len()).find(is_there).expect("the rule is there");
        let rule = self.slots[slot].expect("it was found");
        self.set(slot, None);
        (slot, rule)
    }

    /// A of document 01: the highest slot of a rule that precedes the new one.
    pub fn highest_preceding(&self, new: &Rule) -> Option<usize> {
        (0..self.slots.len()).rev().find(|&slot| self.slots[slot].is_some_and(|rule| rule.precedes(new, COUNTED)))
    }

    /// B of document 01: the lowest slot of a rule that depends on the new one.
    pub fn lowest_dependant(&self, new: &Rule) -> Option<usize> {
        (0..self.slots.len()).find(|&slot| self.slots[slot].is_some_and(|rule| rule.depends_on(new, COUNTED)))
    }

    /// The nearest slot before `slot` with a rule that precedes the one in it.
    pub fn nearest_preceding(&self, slot: usize) -> Option<usize> {
        let rule = self.slots[slot].as_ref()?;
        (0..slot).rev().find(|&before| self.slots[before].is_some_and(|other| other.precedes(rule, COUNTED)))
    }

    /// The nearest slot after `slot` with a rule that depends on the one in it.
    pub fn nearest_dependant(&self, slot: usize) -> Option<usize> {
        let rule = self.slots[slot].as_ref()?;
        (slot + 1..self.slots.len()).find(|&after| self.slots[after].is_some_and(|other| other.depends_on(rule, COUNTED)))
    }
}
