// The saved image: save gives its bytes, load gives the words of the table meant.
// Big-endian throughout; each rule has an entry of the contents and a body, whose length is the width's.

use crate::bits::Bits;
use crate::table::{
    check_ids_and_order, check_shape, read_slots, read_sound_table, refuse, words_of, Refusal, Rule, Slot, IMAGE, SHORT,
};

const HEAD_BYTES: usize = 4;
const CONTENTS_BYTES: usize = 10;

/// "An image body 16 bytes per word of a value plus 8."
fn body_bytes(width: usize) -> usize {
    16 * width + 8
}

pub fn image_bytes(width: usize, rules: usize) -> usize {
    HEAD_BYTES + (CONTENTS_BYTES + body_bytes(width)) * rules
}

/// Checks 1 to 4, then 11; `room` is the length of the lent image buffer, in bytes.
pub fn save(words: &[u64], width: usize, uncounted: bool, room: usize) -> Result<Vec<u8>, Refusal> {
    let image = image_of(&read_sound_table(words, width, uncounted)?, width);
    if image.len() > room {
        return refuse(SHORT, image.len());
    }
    Ok(image)
}

/// The bytes of an image of these slots; where these are no sound table, what they would be.
pub fn image_of(slots: &[Slot], width: usize) -> Vec<u8> {
    let rules: Vec<(usize, Rule)> = slots.iter().enumerate().filter_map(|(slot, entry)| entry.map(|rule| (slot, rule))).collect();
    let mut image = Vec::new();
    image.extend((slots.len() as u16).to_be_bytes());
    image.extend((rules.len() as u16).to_be_bytes());
    for (place, (slot, rule)) in rules.iter().enumerate() {
        image.extend(rule.id.to_be_bytes());
        image.extend((*slot as u16).to_be_bytes());
        image.extend((body_offset(width, rules.len(), place) as u32).to_be_bytes());
    }
    for (_, rule) in &rules {
        for word in rule.value.words(width).iter().chain(rule.mask.words(width)) {
            image.extend(word.to_be_bytes());
        }
        image.extend((rule.rank as u32).to_be_bytes());
        image.extend(rule.action.to_be_bytes());
    }
    image
}

pub fn body_offset(width: usize, rules: usize, place: usize) -> usize {
    HEAD_BYTES + CONTENTS_BYTES * rules + body_bytes(width) * place
}

/// A big-endian number of `count` bytes.
fn number_at(image: &[u8], at: usize, count: usize) -> u64 {
    image[at..at + count].iter().fold(0, |number, &byte| number * 256 + u64::from(byte))
}

/// The words of the table that the image means, for a lent table of `table_words` words; only its length counts. Whether the table
/// is an uncounted one does not stand in the image.
pub fn load(image: &[u8], table_words: usize, width: usize, uncounted: bool) -> Result<Vec<u64>, Refusal> {
    let count = check_shape(table_words, width)?;
    if image.len() < HEAD_BYTES || number_at(image, 0, 2) != count as u64 {
        return refuse(IMAGE, 0);
    }
    let rules = number_at(image, 2, 2) as usize;
    if rules > count || image.len() != image_bytes(width, rules) {
        return refuse(IMAGE, 2);
    }
    let places = read_contents(image, width, count, rules)?;
    let mut slots = vec![None; count];
    for (place, (id, slot)) in places.iter().enumerate() {
        slots[*slot] = Some(read_body(image, width, body_offset(width, rules, place), *id)?);
    }
    check_ids_and_order(&slots, uncounted)?;
    let words = words_of(&slots, width);
    assert!(read_slots(&words, width).is_ok());
    Ok(words)
}

/// Id and slot of each contents entry.
fn read_contents(image: &[u8], width: usize, count: usize, rules: usize) -> Result<Vec<(u32, usize)>, Refusal> {
    let mut places: Vec<(u32, usize)> = Vec::new();
    for place in 0..rules {
        let entry = HEAD_BYTES + CONTENTS_BYTES * place;
        let id = number_at(image, entry, 4) as u32;
        let slot = number_at(image, entry + 4, 2) as usize;
        let offset = number_at(image, entry + 6, 4);
        if id == 0 {
            return refuse(IMAGE, entry);
        }
        let rises = places.last().map_or(true, |(_, before)| slot > *before);
        if slot >= count || !rises {
            return refuse(IMAGE, entry + 4);
        }
        if offset != body_offset(width, rules, place) as u64 {
            return refuse(IMAGE, entry + 6);
        }
        places.push((id, slot));
    }
    Ok(places)
}

/// The rule that a body and its entry's id, which is not 0, mean: one that a slot may hold.
fn read_body(image: &[u8], width: usize, start: usize, id: u32) -> Result<Rule, Refusal> {
    let numbers = start + 16 * width;
    let rule = Rule {
        id,
        value: words_at(image, start, width),
        mask: words_at(image, start + 8 * width, width),
        rank: number_at(image, numbers, 4),
        action: number_at(image, numbers + 4, 4) as u32,
    };
    if !rule.is_sound(width) {
        return refuse(IMAGE, start);
    }
    Ok(rule)
}

fn words_at(image: &[u8], start: usize, width: usize) -> Bits {
    let words: Vec<u64> = (0..width).map(|word| number_at(image, start + 8 * word, 8)).collect();
    Bits::of_words(&words)
}
