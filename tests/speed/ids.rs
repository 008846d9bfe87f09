// Ids of a table drawn in several ways, for check 3, which compares ids only where their last 13 bits are alike.

use crate::inputs::occupied_slots;
use reference::table::record_words;
use support::random::Random;

#[derive(Clone, Copy, Debug, PartialEq, Eq, PartialOrd, Ord)]
pub enum Draw {
    /// 1, 2, 3 and on.
    Rising,
    /// Multiples of an odd number, modulo 2^32: those of all other tables.
    Hashed,
    /// Drawn at random, so that some ids are alike in their last 13 bits.
    Random,
    /// All alike in their last 13 bits: the worst.
    Alike,
}

pub const DRAWS: [Draw; 4] = [Draw::Rising, Draw::Hashed, Draw::Random, Draw::Alike];

impl Draw {
    pub fn name(self) -> &'static str {
        match self {
            Draw::Rising => "rising",
            Draw::Hashed => "hashed",
            Draw::Random => "random",
            Draw::Alike => "alike modulo 8,192",
        }
    }
}

const SEED: u64 = 13;

/// Ids that don't rise with the slots, none of them 0.
pub fn id_of_place(place: usize) -> u32 {
    (place as u32 + 1).wrapping_mul(2_654_435_761)
}

/// A table with other ids, all different.
pub fn draw(way: Draw, table: &[u64], width: usize) -> Vec<u64> {
    let mut drawn = table.to_vec();
    let mut random = Random::new(SEED, way as u64);
    let mut taken = Vec::new();
    for slot in occupied_slots(table, width) {
        let id = loop {
            let id = match way {
                Draw::Rising => slot as u32 + 1,
                Draw::Hashed => id_of_place(slot),
                Draw::Random => random.word() as u32,
                Draw::Alike => 8192 * slot as u32 + 5,
            };
            if id != 0 && !taken.contains(&id) {
                break id;
            }
        };
        taken.push(id);
        put_id(&mut drawn, width, slot, id);
    }
    drawn
}

fn owner(width: usize, slot: usize) -> usize {
    record_words(width) * slot + 2 * width
}

fn put_id(table: &mut [u64], width: usize, slot: usize, id: u32) {
    let word = &mut table[owner(width, slot)];
    *word = u64::from(id) << 32 | *word & 0xffff_ffff;
}

/// The table with the first rule's id in the last rule too: check 3 has then asked all slots.
pub fn repeat_first(mut table: Vec<u64>, width: usize) -> Vec<u64> {
    let occupied = occupied_slots(&table, width);
    let first = (table[owner(width, occupied[0])] >> 32) as u32;
    put_id(&mut table, width, occupied[occupied.len() - 1], first);
    table
}
