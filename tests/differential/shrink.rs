// Makes a failing input smaller as long as it still fails: two words for five, edition 1.3 for another, a counted table for an uncounted
// one, no list or the table's own, fewer slots, zeroed slots, fewer bits, smaller numbers.
// Each change is tried in turn and kept if the input still fails; rounds go on until one keeps nothing.

use crate::input::{Call, Input};
use crate::lists::right_list;
use reference::bits::WIDTHS;
use reference::given::{EDITION_10, EDITION_13};
use reference::table::record_words;
use std::time::{Duration, Instant};

const TIME_MOST: Duration = Duration::from_secs(120);

struct Shrinker<F: Fn(&Input) -> bool> {
    input: Input,
    fails: F,
    end: Instant,
}

pub fn shrink(input: Input, fails: impl Fn(&Input) -> bool) -> Input {
    let mut shrinker = Shrinker { input, fails, end: Instant::now() + TIME_MOST };
    loop {
        let before = shrinker.input.clone();
        shrinker.keep(narrow);
        shrinker.plain_edition();
        shrinker.lessen(|input| u64::from(input.uncounted), |input, number| input.uncounted = number as u32);
        shrinker.plain_list();
        shrinker.drop_slots();
        shrinker.zero_slots();
        shrinker.drop_plan_words();
        shrinker.drop_keys();
        shrinker.drop_words();
        shrinker.clear_bits();
        shrinker.lessen_numbers();
        if shrinker.input == before || Instant::now() > shrinker.end {
            return shrinker.input;
        }
    }
}

impl<F: Fn(&Input) -> bool> Shrinker<F> {
    /// Keeps a change if it changes something and the input still fails.
    fn keep(&mut self, change: impl Fn(&mut Input)) -> bool {
        let mut smaller = self.input.clone();
        change(&mut smaller);
        let kept = smaller != self.input && Instant::now() <= self.end && (self.fails)(&smaller);
        if kept {
            self.input = smaller;
        }
        kept
    }

    /// 1.3 if it fails so too, else 1.0; where neither fails, a smaller number that is none of the two.
    fn plain_edition(&mut self) {
        let told = self.input.edition;
        if told == EDITION_13 || self.keep(|smaller| smaller.edition = EDITION_13) {
            return;
        }
        if told != EDITION_10 && !self.keep(|smaller| smaller.edition = EDITION_10) {
            self.lessen(|input| u64::from(input.edition), |input, number| input.edition = number as u32);
        }
    }

    /// No list, or the table's own if it fails so too.
    fn plain_list(&mut self) {
        if !self.keep(|smaller| smaller.list = None) && self.input.list.is_some() {
            self.keep(|smaller| smaller.list = right_list(smaller).or(smaller.list.take()));
        }
        self.lessen(|input| u64::from(input.list_left_out), |input, number| input.list_left_out = number as u32);
    }

    fn slot_words(&self) -> usize {
        record_words(words_of_a_value(&self.input))
    }

    fn slots(&self) -> usize {
        self.input.table.len() / self.slot_words()
    }

    /// Blocks of slots, large ones first; the slot numbers of a plan and of a list and the slots that an image tells follow, or stay if
    /// that fails.
    fn drop_slots(&mut self) {
        let mut block = self.slots().div_ceil(2);
        while block > 0 {
            let mut first = 0;
            while first + block <= self.slots() {
                let slots = self.slots();
                let words = self.slot_words() * first..self.slot_words() * (first + block);
                let dropped = self.keep(|smaller| {
                    smaller.table.drain(words.clone());
                    smaller.plan.iter_mut().for_each(|word| *word = without_slots(*word, first, block, slots));
                    drop_listed(&mut smaller.list, first, block, slots);
                    if let Some(count) = smaller.image.get_mut(..2) {
                        count.copy_from_slice(&((slots - block) as u16).to_be_bytes());
                    }
                });
                if !dropped && !self.keep(|smaller| drop(smaller.table.drain(words.clone()))) {
                    first += 1;
                }
            }
            block /= 2;
        }
    }

    fn zero_slots(&mut self) {
        for slot in 0..self.slots() {
            let words = self.slot_words() * slot..self.slot_words() * (slot + 1);
            self.keep(|smaller| smaller.table[words.clone()].fill(0));
        }
    }

    fn drop_plan_words(&mut self) {
        for place in (0..self.input.plan.len()).rev() {
            let dropped = self.keep(|smaller| {
                smaller.plan.remove(place);
                smaller.total = smaller.total.saturating_sub(1);
                smaller.done = smaller.done.saturating_sub(u32::from((place as u32) < smaller.done));
            });
            if !dropped {
                self.keep(|smaller| drop(smaller.plan.drain(place..place + 1)));
            }
        }
    }

    fn drop_keys(&mut self) {
        for place in (0..self.input.keys.len()).rev() {
            self.keep(|smaller| drop(smaller.keys.drain(place..place + 1)));
        }
    }

    /// Words at the end of the table, of the rule and of the keys; where a plan is carried out in full, these have to fit.
    fn drop_words(&mut self) {
        if matches!(self.input.call, Call::InsertInFull | Call::DeleteInFull) {
            return;
        }
        self.lessen(|input| input.table.len() as u64, |input, length| input.table.truncate(length as usize));
        self.lessen(|input| input.rule.len() as u64, |input, length| input.rule.truncate(length as usize));
        for place in 0..self.input.keys.len() {
            self.lessen(|input| input.keys[place].len() as u64, |input, length| input.keys[place].truncate(length as usize));
        }
    }

    fn clear_bits(&mut self) {
        for place in 0..64 * words_of_a_value(&self.input) {
            self.keep(|smaller| clear_bit(smaller, place));
        }
    }

    fn lessen_numbers(&mut self) {
        for place in 0..self.input.table.len() {
            self.lessen(|input| input.table[place], |input, word| input.table[place] = word);
        }
        for place in 0..self.input.plan.len() {
            self.lessen(|input| u64::from(input.plan[place]), |input, word| input.plan[place] = word as u32);
        }
        self.lessen(|input| input.image.len() as u64, |input, length| input.image.truncate(length as usize));
        for place in 0..self.input.image.len() {
            self.lessen(|input| u64::from(input.image[place]), |input, byte| input.image[place] = byte as u8);
        }
        for place in 0..self.input.rule.len() {
            self.lessen(|input| input.rule[place], |input, word| input.rule[place] = word);
        }
        for place in 0..self.input.list.as_ref().map_or(0, |list| list.len()) {
            let get = |input: &Input| input.list.as_ref().map_or(0, |list| u64::from(list[place]));
            self.lessen(get, |input, number| input.list.iter_mut().for_each(|list| list[place] = number as u16));
        }
        self.lessen(|input| u64::from(input.id), |input, number| input.id = number as u32);
        self.lessen(|input| u64::from(input.slot), |input, number| input.slot = number as u32);
        self.lessen(|input| input.room as u64, |input, number| input.room = number as usize);
        self.lessen(|input| u64::from(input.done), |input, number| input.done = number as u32);
        self.lessen(|input| u64::from(input.total), |input, number| input.total = number as u32);
    }

    /// One number as small as it gets.
    fn lessen(&mut self, get: impl Fn(&Input) -> u64, set: impl Fn(&mut Input, u64)) {
        while smaller_numbers(get(&self.input)).into_iter().any(|number| self.keep(|smaller| set(smaller, number))) {}
    }
}

/// Numbers below a number, the smallest first; the two halves of a word also apart, for id and action.
fn smaller_numbers(number: u64) -> Vec<u64> {
    let (high, low) = (number >> 32, number & 0xffff_ffff);
    let mut list = vec![0, 1, number / 2, number & number.wrapping_sub(1), number.wrapping_sub(1)];
    list.extend([high << 32, ((high / 2) << 32) | low, (high.saturating_sub(1) << 32) | low, (high << 32) | (low / 2)]);
    list.retain(|&smaller| smaller < number);
    list
}

/// A slot's number in a table that lacks `count` slots from `first` on.
fn moved(number: u32, first: usize, count: usize, slots: usize) -> u32 {
    if (first + count..slots).contains(&(number as usize)) {
        number - count as u32
    } else {
        number
    }
}

/// A plan word that means the same in such a table.
fn without_slots(word: u32, first: usize, count: usize, slots: usize) -> u32 {
    moved(word / 65_536, first, count, slots) * 65_536 + moved(word % 65_536, first, count, slots)
}

/// The list without the numbers of these slots, where it has them; the others name the same slots.
fn drop_listed(list: &mut Option<Vec<u16>>, first: usize, count: usize, slots: usize) {
    let Some(list) = list else { return };
    if 2 * (first + count) <= list.len() {
        list.drain(2 * first..2 * (first + count));
    }
    list.iter_mut().for_each(|number| *number = moved(u32::from(*number), first, count, slots) as u16);
}

/// The words of a value by which records are told apart; where no table has the width told, five: two such records are also one of these.
fn words_of_a_value(input: &Input) -> usize {
    if WIDTHS.contains(&input.width) {
        input.width
    } else {
        WIDTHS[1]
    }
}

/// The input at two words, without the further words of values, masks and keys. It is kept if it fails so too.
fn narrow(input: &mut Input) {
    let (width, wide) = (WIDTHS[0], WIDTHS[1]);
    if input.width != wide {
        return;
    }
    let narrowed = |words: &[u64]| -> Vec<u64> {
        let is_kept = |place: usize| place >= 2 * wide || place % wide < width;
        let kept =
            words.chunks(record_words(wide)).flat_map(|record| record.iter().enumerate().filter(|(place, _)| is_kept(*place)));
        kept.map(|(_, &word)| word).collect()
    };
    input.width = width;
    input.table = narrowed(&input.table);
    input.rule = narrowed(&input.rule);
    input.keys.iter_mut().for_each(|key| key.truncate(width));
}

/// Takes one bit position out of every value, mask and key.
fn clear_bit(input: &mut Input, place: usize) {
    let (width, word, others) = (words_of_a_value(input), place / 64, !(1 << (63 - place % 64)));
    let records = input.table.chunks_exact_mut(record_words(width)).chain(input.rule.chunks_exact_mut(record_words(width)));
    for record in records {
        record[word] &= others;
        record[width + word] &= others;
    }
    input.keys.iter_mut().filter_map(|key| key.get_mut(word)).for_each(|word| *word &= others);
}
