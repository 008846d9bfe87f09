// Rules, slot records, and the checks 1 to 4 of a table, with the refusal each gives.
// A table is the lent words themselves; the checks read it, at the width told, into a list of slots.

use crate::bits::{Bits, WIDTHS};

pub const SLOTS_MOST: usize = 1024;
pub const PRIORITY_MOST: u64 = 65_535;
/// The rank above all priorities, of rules with every mask bit set.
pub const EXACT_RANK: u64 = 65_536;

pub const SHAPE: u32 = 1;
pub const RECORD: u32 = 2;
pub const TWICE: u32 = 3;
pub const ORDER: u32 = 4;
pub const RULE: u32 = 5;
pub const KNOWN: u32 = 6;
pub const UNKNOWN: u32 = 7;
pub const TIE: u32 = 8;
pub const FULL: u32 = 9;
pub const CROSSED: u32 = 10;
pub const SHORT: u32 = 11;
pub const WRITE: u32 = 12;
pub const LINE: u32 = 13;
pub const IMAGE: u32 = 14;
pub const EDITION: u32 = 18;

/// Why a call declines: document 01's number, and the spot it names (0 where none is named).
#[derive(Clone, Copy, Debug, PartialEq, Eq)]
pub struct Refusal {
    pub number: u32,
    pub spot: u64,
}

pub fn refuse<T>(number: u32, spot: usize) -> Result<T, Refusal> {
    Err(Refusal { number, spot: spot as u64 })
}

/// "A record has twice the words of a value plus two more."
pub fn record_words(width: usize) -> usize {
    2 * width + 2
}

/// Whether a table is "named as uncounted in the call", as a call is told.
pub const COUNTED: bool = false;
pub const UNCOUNTED: bool = true;

/// A rule as it stands in a slot: "the record and the image keep the rank".
#[derive(Clone, Copy, Debug, PartialEq, Eq)]
pub struct Rule {
    pub id: u32,
    pub rank: u64,
    pub value: Bits,
    pub mask: Bits,
    pub action: u32,
}

impl Rule {
    /// "Both allow 65,536 where every mask bit is set", which is every bit of the width.
    pub fn is_sound(&self, width: usize) -> bool {
        let is_allowed = self.rank <= PRIORITY_MOST || self.rank == EXACT_RANK && self.mask == Bits::all(width);
        self.id != 0 && is_allowed && (self.value & !self.mask).is_none()
    }

    /// "A key matches when it equals the value at all bits cared for."
    pub fn matches(&self, key: Bits) -> bool {
        ((key ^ self.value) & self.mask).is_none()
    }

    /// "Two rules overlap when no bit position is cared for by both with different values."
    pub fn overlaps(&self, other: &Rule) -> bool {
        let cared_for_by_both = self.mask & other.mask;
        let different = self.value ^ other.value;
        (cared_for_by_both & different).is_none()
    }

    /// Whether the two are one of the pairs that order is about: "a table named as uncounted in the call orders only overlapping pairs
    /// whose actions differ, and only in such a pair does one rule precede or depend on the other".
    pub fn is_ordered_with(&self, other: &Rule, uncounted: bool) -> bool {
        self.overlaps(other) && !(uncounted && self.action == other.action)
    }

    /// "The higher of an overlapping pair precedes the other", and "wherever two rules' priorities were compared, ranks are".
    pub fn precedes(&self, other: &Rule, uncounted: bool) -> bool {
        self.is_ordered_with(other, uncounted) && self.rank > other.rank
    }

    pub fn depends_on(&self, other: &Rule, uncounted: bool) -> bool {
        other.precedes(self, uncounted)
    }

    /// "Equal ranks decline only there."
    pub fn ties_with(&self, other: &Rule, uncounted: bool) -> bool {
        self.is_ordered_with(other, uncounted) && self.rank == other.rank
    }

    /// "A present rule's value, mask and priority", which is the rank: ids and actions aren't looked at.
    pub fn equals(&self, other: &Rule) -> bool {
        self.value == other.value && self.mask == other.mask && self.rank == other.rank
    }

    /// In an uncounted table "a rule sent again replaces the lowest equal one if its action is the same".
    pub fn is_replaced_by(&self, new: &Rule, uncounted: bool) -> bool {
        self.equals(new) && !(uncounted && self.action != new.action)
    }

    pub fn record(&self, width: usize) -> Vec<u64> {
        words_of(&[Some(*self)], width)
    }
}

/// The rule that the words of a record stand for, sound or not.
pub fn rule_of(record: &[u64], width: usize) -> Rule {
    let (value, rest) = record.split_at(width);
    let (mask, rest) = rest.split_at(width);
    Rule {
        id: (rest[0] >> 32) as u32,
        rank: rest[1],
        value: Bits::of_words(value),
        mask: Bits::of_words(mask),
        action: rest[0] as u32,
    }
}

/// What a slot holds; `None` is an empty slot.
pub type Slot = Option<Rule>;

/// Check 1 for a table: one of the two widths, and the words of 1 to 1,024 slots, whose number is given back.
pub fn check_shape(table_words: usize, width: usize) -> Result<usize, Refusal> {
    if !WIDTHS.contains(&width) || table_words % record_words(width) != 0 {
        return refuse(SHAPE, 0);
    }
    let slots = table_words / record_words(width);
    if slots < 1 || slots > SLOTS_MOST {
        return refuse(SHAPE, 0);
    }
    Ok(slots)
}

/// Check 1 for a key or a rule that is lent beside a table of a shape that passed: it has as many words as the width asks for.
pub fn check_words(lent: &[u64], wanted: usize) -> Result<(), Refusal> {
    if lent.len() == wanted {
        Ok(())
    } else {
        refuse(SHAPE, 0)
    }
}

/// Checks 1 and 2: the slots of a table whose words have the shape and whose records are empty or sound.
pub fn read_slots(words: &[u64], width: usize) -> Result<Vec<Slot>, Refusal> {
    check_shape(words.len(), width)?;
    let mut slots = Vec::with_capacity(words.len() / record_words(width));
    for (slot, record) in words.chunks(record_words(width)).enumerate() {
        if record.iter().all(|&word| word == 0) {
            slots.push(None);
            continue;
        }
        let rule = rule_of(record, width);
        if !rule.is_sound(width) {
            return refuse(RECORD, slot);
        }
        slots.push(Some(rule));
    }
    Ok(slots)
}

/// Checks 3 and 4, each over the whole table.
pub fn check_ids_and_order(slots: &[Slot], uncounted: bool) -> Result<(), Refusal> {
    for (slot, entry) in slots.iter().enumerate() {
        if let Some(rule) = entry {
            if slots[..slot].iter().flatten().any(|earlier| earlier.id == rule.id) {
                return refuse(TWICE, slot);
            }
        }
    }
    match first_out_of_order(slots, uncounted) {
        Some(slot) => refuse(ORDER, slot),
        None => Ok(()),
    }
}

/// The lowest slot that has an earlier rule of no higher rank that it is ordered with; copies of one id aren't compared.
pub fn first_out_of_order(slots: &[Slot], uncounted: bool) -> Option<usize> {
    for (slot, entry) in slots.iter().enumerate() {
        if let Some(rule) = entry {
            for earlier in slots[..slot].iter().flatten() {
                if earlier.id != rule.id && earlier.is_ordered_with(rule, uncounted) && earlier.rank <= rule.rank {
                    return Some(slot);
                }
            }
        }
    }
    None
}

/// Checks 1 to 4: "a table that passes 1 to 4 is sound".
pub fn read_sound_table(words: &[u64], width: usize, uncounted: bool) -> Result<Vec<Slot>, Refusal> {
    let slots = read_slots(words, width)?;
    check_ids_and_order(&slots, uncounted)?;
    Ok(slots)
}

pub fn words_of(slots: &[Slot], width: usize) -> Vec<u64> {
    let mut words = Vec::with_capacity(slots.len() * record_words(width));
    for slot in slots {
        match slot {
            Some(rule) => {
                words.extend_from_slice(rule.value.words(width));
                words.extend_from_slice(rule.mask.words(width));
                words.extend([u64::from(rule.id) << 32 | u64::from(rule.action), rule.rank]);
            }
            None => words.resize(words.len() + record_words(width), 0),
        }
    }
    words
}
