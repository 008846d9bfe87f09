// Edits of accepted inputs, so that each refusal of each call is reached.
// An edit changes one or two things; many inputs stay accepted.

use crate::inputs::{occupied_slots, Input};
use reference::bits::Bits;
use reference::image::{body_offset, image_bytes};
use reference::table::record_words;
use support::random::Random;

/// Widths that are given: those that tables have, and others.
const WIDTHS_GIVEN: [u32; 10] = [2, 5, 2, 5, 0, 1, 3, 4, 6, u32::MAX];
/// Editions that are given: those that there are, and others.
const EDITIONS_GIVEN: [u32; 12] = [10, 13, 10, 13, 0, 9, 11, 12, 14, 99, 10 + (1 << 16), u32::MAX];
/// Numbers by which a table is named as uncounted; 0 as counted.
const FLAGS_GIVEN: [u32; 6] = [0, 1, 1, 2, 1 << 16, u32::MAX];
/// Ranks and priorities on both sides of the highest that there are.
const RANKS_AT_THE_EDGE: [u64; 4] = [65_535, 65_536, 65_536, 65_537];

pub fn edit(input: &Input, random: &mut Random) -> Input {
    let mut edited = input.clone();
    for _ in 0..random.between(1, 2) {
        match random.below(17) {
            0..=2 => edit_table(&mut edited.table, edited.width, random),
            3 | 4 => edit_rule(&mut edited, random),
            5 => edit_key(&mut edited, random),
            6 => edited.room = random.below(edited.room + 1) * random.below(2),
            7 => edit_id(&mut edited, random),
            8 | 9 => edit_plan(&mut edited, random),
            10 | 11 => edit_image(&mut edited.image, edited.width, random),
            12 | 13 => edited.edition = random.pick(&EDITIONS_GIVEN),
            14 => edited.uncounted = random.pick(&FLAGS_GIVEN),
            15 => edit_actions(&mut edited, random),
            _ => edit_shape(&mut edited, random),
        }
    }
    edited
}

/// Few actions in the table and one of them in the rule, the table uncounted: so that rules of one action and of others overlap. Then
/// the ranks of some rules are exchanged.
fn edit_actions(input: &mut Input, random: &mut Random) {
    let (width, words) = (input.width, record_words(input.width));
    let actions = random.between(1, 3);
    input.uncounted = random.pick(&FLAGS_GIVEN[1..]);
    for slot in occupied_slots(&input.table, width) {
        let owner = &mut input.table[words * slot..][2 * width];
        *owner = *owner >> 32 << 32 | random.below(actions) as u64;
    }
    if input.rule.len() == words {
        input.rule[2 * width] = input.rule[2 * width] >> 32 << 32 | random.below(actions) as u64;
    }
    let slots = input.table.len() / words;
    for _ in 0..random.below(3).min(slots) {
        let (one, other) = (words * random.below(slots) + words - 1, words * random.below(slots) + words - 1);
        if input.table[one] != 0 && input.table[other] != 0 {
            input.table.swap(one, other);
        }
    }
}

/// Another width given, or another number of words of a rule or a key.
fn edit_shape(input: &mut Input, random: &mut Random) {
    match random.below(3) {
        0 => input.given = random.pick(&WIDTHS_GIVEN),
        1 => input.rule.resize(random.below(14), 0),
        _ => input.key.resize(random.below(7), 0),
    }
}

fn edit_table(table: &mut Vec<u64>, width: usize, random: &mut Random) {
    let words = record_words(width);
    let slots = table.len() / words;
    if slots == 0 {
        return;
    }
    let (one, other) = (random.below(slots), random.below(slots));
    match random.below(7) {
        0 => table[random.below(words * slots)] = random.any_word(),
        1 => table.copy_within(words * one..words * (one + 1), words * other),
        2 => (0..words).for_each(|word| table.swap(words * one + word, words * other + word)),
        3 => copy_pattern(table, width, one, other),
        4 => table.truncate(random.below(table.len())),
        5 => widen(&mut table[words * one..words * (one + 1)], width, random),
        _ => fill_empty_slots(table, width),
    }
}

/// All bits, or all but one.
fn wide_mask(width: usize, random: &mut Random) -> Bits {
    let all = Bits::all(width);
    if random.one_in(3) {
        return all ^ Bits::at(random.below(64 * width));
    }
    all
}

/// Gives a record, of a slot or of a rule that is given, a mask of all bits or nearly all and a rank at the edge.
fn widen(record: &mut [u64], width: usize, random: &mut Random) {
    let mask = wide_mask(width, random);
    for (word, &mask) in mask.words(width).iter().enumerate() {
        record[word] &= mask;
        record[width + word] = mask;
    }
    record[2 * width + 1] = random.pick(&RANKS_AT_THE_EDGE);
}

/// The other slot gets the one's words, but an id of its own.
fn copy_pattern(table: &mut [u64], width: usize, one: usize, other: usize) {
    let words = record_words(width);
    let owner = table[words * other + 2 * width];
    table.copy_within(words * one..words * (one + 1), words * other);
    table[words * other + 2 * width] = owner;
}

/// Puts a rule of the lowest priority, apart from the others where they care for the second word, into each empty slot.
fn fill_empty_slots(table: &mut [u64], width: usize) {
    let occupied = occupied_slots(table, width);
    for (slot, record) in table.chunks_exact_mut(record_words(width)).enumerate() {
        if !occupied.contains(&slot) {
            record[..2 * width].fill(u64::MAX);
            record[1] = slot as u64;
            record[2 * width] = (slot as u64 + 1) << 32;
        }
    }
}

fn edit_rule(input: &mut Input, random: &mut Random) {
    let width = input.width;
    if input.rule.len() != record_words(width) {
        return;
    }
    let occupied = occupied_slots(&input.table, width);
    let (owner, rank) = (2 * width, 2 * width + 1);
    match random.below(7) {
        0 => input.rule[owner] &= 0xffff_ffff,
        1 => input.rule[rank] = random.pick(&[65_535, 65_536, 65_537, 1 << 32, u64::MAX]),
        6 => widen(&mut input.rule, width, random),
        2 => input.rule[random.below(width)] |= 1 << random.below(64),
        3 | 4 if !occupied.is_empty() => {
            let record = &input.table[record_words(width) * random.pick(&occupied)..][..record_words(width)];
            let own = input.rule[owner];
            input.rule.copy_from_slice(record);
            if !random.one_in(3) {
                input.rule[owner] = own;
            }
            nearly(&mut input.rule, width, random);
        }
        _ => {
            input.rule[..owner].fill(0);
            input.rule[rank] = random.below(65_536) as u64;
        }
    }
}

/// Leaves a rule as it is, or gives it the next rank, or one mask bit less, or the rank before: the first is sent again, the third ties,
/// and the last is covered by the rule that it was, unless it has a mask bit less too.
fn nearly(rule: &mut [u64], width: usize, random: &mut Random) {
    let rank = 2 * width + 1;
    match random.below(4) {
        0 => rule[rank] = (rule[rank] + 1) & 0xffff_ffff,
        1 => drop_bit(rule, width, random),
        2 => {
            rule[rank] = rule[rank].saturating_sub(1);
            match random.below(3) {
                0 => drop_bit(rule, width, random),
                1 => rule[width + random.below(width)] |= 1 << random.below(64),
                _ => {}
            }
        }
        _ => {}
    }
}

/// The lowest mask bit of some word less, if it has one.
fn drop_bit(rule: &mut [u64], width: usize, random: &mut Random) {
    let word = random.below(width);
    rule[width + word] &= rule[width + word].saturating_sub(1);
    rule[word] &= rule[width + word];
}

fn edit_key(input: &mut Input, random: &mut Random) {
    input.key.iter_mut().for_each(|word| *word = random.word());
    let slots = input.table.len() / record_words(input.width);
    input.slot = if random.one_in(4) { u32::MAX } else { random.below(slots + 2) as u32 };
}

fn edit_id(input: &mut Input, random: &mut Random) {
    input.id = if random.one_in(2) { 0 } else { random.word() as u32 };
}

fn edit_plan(input: &mut Input, random: &mut Random) {
    let slots = input.table.len() / record_words(input.width) + 1;
    match random.below(6) {
        0 => input.total = input.done,
        1 => input.done = input.total + random.below(2) as u32,
        2 => input.total = input.plan.len() as u32 + random.below(2) as u32,
        3 if input.rule.len() == record_words(input.width) && slots > 1 => put_over(input, random.below(slots - 1), random),
        _ => {
            let slot = random.below(slots) as u32;
            let from = random.pick(&[65_535, 65_534, slot, slot]);
            input.plan = vec![from << 16 | random.below(slots) as u32];
            (input.done, input.total) = (0, 1);
        }
    }
}

/// Puts the rule in over that of a slot, as which it is given with its own id, or nearly.
fn put_over(input: &mut Input, slot: usize, random: &mut Random) {
    let (words, owner) = (record_words(input.width), 2 * input.width);
    let own = input.rule[owner];
    input.rule.copy_from_slice(&input.table[words * slot..words * (slot + 1)]);
    input.rule[owner] = own;
    nearly(&mut input.rule, input.width, random);
    input.plan = vec![65_535 << 16 | slot as u32];
    (input.done, input.total) = (0, 1);
}

fn edit_image(image: &mut Vec<u8>, width: usize, random: &mut Random) {
    if image.len() < 4 {
        return;
    }
    let rules = (image.len() - 4) / (image_bytes(width, 1) - 4);
    match random.below(6) {
        0 => image.truncate(random.below(image.len())),
        1 => image.push(0),
        2 if rules > 0 => {
            let (one, other) = (random.below(rules), random.below(rules));
            image.copy_within(4 + 10 * one..8 + 10 * one, 4 + 10 * other);
        }
        3 if rules > 0 => {
            let (one, other) = (random.below(rules), random.below(rules));
            let body = |place: usize| body_offset(width, rules, place);
            image.copy_within(body(one)..body(one + 1), body(other));
        }
        4 if rules > 0 => widen_body(&mut image[body_offset(width, rules, random.below(rules))..], width, random),
        _ => {
            let place = random.below(image.len());
            image[place] = random.any_word() as u8;
        }
    }
}

/// The same as for a record, for the body that the bytes start with.
fn widen_body(body: &mut [u8], width: usize, random: &mut Random) {
    let mask: Vec<u8> = wide_mask(width, random).words(width).iter().flat_map(|word| word.to_be_bytes()).collect();
    for (place, &mask) in mask.iter().enumerate() {
        body[place] &= mask;
        body[8 * width + place] = mask;
    }
    let rank = random.pick(&RANKS_AT_THE_EDGE) as u32;
    body[16 * width..16 * width + 4].copy_from_slice(&rank.to_be_bytes());
}
