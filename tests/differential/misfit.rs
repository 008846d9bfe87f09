// Inputs whose words and width don't fit each other: other widths, and other numbers of words of the rule and the keys.
// Beside them words that fit either width, so that only the width told says what they are.

use crate::guarded::{RECORD_WORDS_MOST, TABLE_WORDS_MOST};
use crate::input::{Call, Input};
use crate::tally::OTHER_WIDTHS;
use reference::bits::WIDTHS;
use reference::image::image_of;
use reference::table::{read_slots, record_words, rule_of, Rule, Slot, SLOTS_MOST};
use support::random::Random;

/// Widths that would pass for 2 or 5 where only a part of the number is looked at, the editions, and others.
const FAR_WIDTHS: [usize; 12] = [7, 8, 10, 12, 13, 258, 261, 65_538, 65_541, 0x8000_0002, 0x8000_0005, 0xffff_ffff];

pub fn misfit(random: &mut Random, input: &mut Input, table: &[Slot]) {
    match (random.below(4), input.call) {
        (0, _) => tell(random, input, other_width(input.width)),
        (1, Call::Lookup) => misfit_keys(random, input),
        (1 | 2, Call::PlanInsert | Call::CarryOut) => misfit_rule(random, input),
        _ => {
            let wrong = if random.one_in(3) { random.pick(&FAR_WIDTHS) } else { random.pick(&OTHER_WIDTHS) };
            if record_words(wrong) <= RECORD_WORDS_MOST && random.one_in(2) {
                fit_table(input, table, wrong);
            }
            tell(random, input, wrong);
        }
    }
}

fn other_width(width: usize) -> usize {
    if width == WIDTHS[0] {
        WIDTHS[1]
    } else {
        WIDTHS[0]
    }
}

/// Tells another width, often with the rule and the keys that it asks for.
fn tell(random: &mut Random, input: &mut Input, width: usize) {
    if record_words(width) <= RECORD_WORDS_MOST && random.one_in(2) {
        input.rule = record_at(&rule_of(&input.rule, input.width), width);
        input.keys.iter_mut().for_each(|key| key.resize(width, 0));
    }
    input.width = width;
}

/// The table's rules at another width, as far as there is room, so that nothing but the width is wrong; and an image of no rules.
fn fit_table(input: &mut Input, table: &[Slot], width: usize) {
    let table = &table[..table.len().min(TABLE_WORDS_MOST / record_words(width))];
    let record = |entry: &Slot| entry.map_or(vec![0; record_words(width)], |rule| record_at(&rule, width));
    input.table = table.iter().flat_map(record).collect();
    if !input.image.is_empty() {
        input.image = image_of(&vec![None; table.len()], width);
    }
}

/// A record at any width: words of value and mask are left out, or are 0.
fn record_at(rule: &Rule, width: usize) -> Vec<u64> {
    let resized = |words: &[u64]| {
        let mut words = words.to_vec();
        words.resize(width, 0);
        words
    };
    let widest = WIDTHS[1];
    let numbers = &rule.record(widest)[2 * widest..];
    [&resized(rule.value.words(widest))[..], &resized(rule.mask.words(widest)), numbers].concat()
}

fn misfit_rule(random: &mut Random, input: &mut Input) {
    let (width, words) = (input.width, record_words(input.width));
    let other = record_words(other_width(width));
    input.rule.resize(random.pick(&[0, 1, width, words - 1, words + 1, other, 2 * words]), 0);
}

fn misfit_keys(random: &mut Random, input: &mut Input) {
    let width = input.width;
    for key in &mut input.keys {
        key.resize(random.pick(&[0, 1, width - 1, width + 1, other_width(width), 2 * width]), 0);
    }
}

/// A table whose words are sound records at either width: one of five words is two of two. It need not be in order.
pub fn either_width(random: &mut Random, width: usize, slots: usize) -> Vec<Slot> {
    let wanted = if width == WIDTHS[0] { slots / 2 } else { slots };
    let words: Vec<u64> = (0..wanted.clamp(1, SLOTS_MOST / 2)).flat_map(|_| either_record(random)).collect();
    assert!(WIDTHS.iter().all(|&width| read_slots(&words, width).is_ok()));
    read_slots(&words, width).expect("sound at either width")
}

/// At five words the first five are the value and the next five the mask. At two, words 2 and 3 are the mask of words 0 and 1,
/// word 4 has an id and word 5 is a rank; words 8 and 9 are the mask of words 6 and 7.
fn either_record(random: &mut Random) -> [u64; 12] {
    let mut few = || random.word() & random.word() & random.word() & random.word();
    let (first, second, more_first, more_second) = (few(), few(), few(), few());
    let rank = random.below(65_536) as u64;
    let id = (random.between(1, 40) as u64) << 32 | 7;
    let value = [first & rank, second & random.word(), first, second, id];
    let (third, fourth) = (value[1] | more_first, first | more_second);
    let last = (random.between(1, 40) as u64) << 32 | random.below(9) as u64;
    let mask = [rank, third, fourth, third | second, fourth | id];
    [&value[..], &mask, &[last, random.below(65_536) as u64]].concat().try_into().expect("twelve words")
}
