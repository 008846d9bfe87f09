// Saving a table as an image and loading an image: entries of ten bytes, bodies of 16 a word and 8.
// A load builds the table meant apart, checks it there, and then copies it.

use crate::answers::{refuse, Record, Refusal, IMAGE, SHORT, SLOTS_MOST};
use crate::checks::{check_pairs, check_table, new_list};
use crate::records::{id_of, rest_is_sound};

type Entry = [u8; 10];

const fn body_bytes(width: usize) -> usize {
    16 * width + 8
}

pub fn save<const W: usize>(table: &[u64], uncounted: bool, image: &mut [u8]) -> Result<u32, Refusal> {
    let records = check_table::<W>(table, uncounted)?;
    let rules = records.iter().filter(|record| id_of(record) != 0).count();
    let bytes = 4 + (10 + body_bytes(W)) * rules;
    if image.len() < bytes {
        return refuse(SHORT, bytes);
    }
    image[..2].copy_from_slice(&(records.len() as u16).to_be_bytes());
    image[2..4].copy_from_slice(&(rules as u16).to_be_bytes());
    let (contents, bodies) = image[4..bytes].split_at_mut(10 * rules);
    let entries = contents.as_chunks_mut::<10>().0.iter_mut();
    let bodies = bodies.chunks_exact_mut(body_bytes(W));
    let occupied = records.iter().enumerate().filter(|(_, record)| id_of(record) != 0);
    let mut offset = 4 + 10 * rules as u32;
    for ((slot, record), (entry, body)) in occupied.zip(entries.zip(bodies)) {
        entry[..4].copy_from_slice(&id_of(record).to_be_bytes());
        entry[4..6].copy_from_slice(&(slot as u16).to_be_bytes());
        entry[6..].copy_from_slice(&offset.to_be_bytes());
        put_body(body, record);
        offset += body_bytes(W) as u32;
    }
    Ok(bytes as u32)
}

fn put_body<const W: usize>(body: &mut [u8], record: &Record<W>) {
    for word in 0..W {
        body[8 * word..8 * word + 8].copy_from_slice(&record.value[word].to_be_bytes());
        body[8 * (W + word)..8 * (W + word) + 8].copy_from_slice(&record.mask[word].to_be_bytes());
    }
    body[16 * W..16 * W + 4].copy_from_slice(&(record.rank as u32).to_be_bytes());
    body[16 * W + 4..].copy_from_slice(&(record.owner as u32).to_be_bytes());
}

pub fn load<const W: usize>(image: &[u8], table: &mut [u64], uncounted: bool) -> Result<(), Refusal> {
    let records = Record::<W>::all_mut(table)?;
    let slots = records.len();
    let (entries, bodies) = split::<W>(image, slots)?;
    check_entries::<W>(entries, slots)?;
    let mut working = [Record::EMPTY; SLOTS_MOST];
    let meant = &mut working[..slots];
    fill(entries, bodies, meant)?;
    check_pairs(meant, uncounted, &mut new_list())?;
    records.copy_from_slice(meant);
    Ok(())
}

/// Entries and bodies of an image of the right length, for a table of so many slots.
fn split<const W: usize>(image: &[u8], slots: usize) -> Result<(&[Entry], &[u8]), Refusal> {
    let Some((head, rest)) = image.split_first_chunk::<4>() else {
        return refuse(IMAGE, 0);
    };
    if usize::from(u16::from_be_bytes([head[0], head[1]])) != slots {
        return refuse(IMAGE, 0);
    }
    let rules = usize::from(u16::from_be_bytes([head[2], head[3]]));
    if rules > slots || rest.len() != (10 + body_bytes(W)) * rules {
        return refuse(IMAGE, 2);
    }
    let (contents, bodies) = rest.split_at(10 * rules);
    Ok((contents.as_chunks::<10>().0, bodies))
}

fn entry_slot(entry: &Entry) -> usize {
    usize::from(u16::from_be_bytes([entry[4], entry[5]]))
}

fn check_entries<const W: usize>(entries: &[Entry], slots: usize) -> Result<(), Refusal> {
    let mut lowest = 0;
    let mut offset = 4 + 10 * entries.len() as u32;
    for (place, entry) in entries.iter().enumerate() {
        let at = 4 + 10 * place;
        if entry[..4] == [0; 4] {
            return refuse(IMAGE, at);
        }
        let slot = entry_slot(entry);
        if slot < lowest || slot >= slots {
            return refuse(IMAGE, at + 4);
        }
        if u32::from_be_bytes([entry[6], entry[7], entry[8], entry[9]]) != offset {
            return refuse(IMAGE, at + 6);
        }
        lowest = slot + 1;
        offset += body_bytes(W) as u32;
    }
    Ok(())
}

/// The records that the bodies mean, each sound, into their slots.
fn fill<const W: usize>(entries: &[Entry], bodies: &[u8], records: &mut [Record<W>]) -> Result<(), Refusal> {
    for (place, (entry, body)) in entries.iter().zip(bodies.chunks_exact(body_bytes(W))).enumerate() {
        let record = record_of_image(entry, body);
        if !rest_is_sound(&record) {
            return refuse(IMAGE, 4 + 10 * entries.len() + body_bytes(W) * place);
        }
        records[entry_slot(entry)] = record;
    }
    Ok(())
}

fn record_of_image<const W: usize>(entry: &Entry, body: &[u8]) -> Record<W> {
    let words = body.as_chunks::<8>().0;
    let word = |place: usize| u64::from_be_bytes(words[place]);
    let last = word(2 * W);
    let id = u64::from(u32::from_be_bytes([entry[0], entry[1], entry[2], entry[3]]));
    Record {
        value: std::array::from_fn(word),
        mask: std::array::from_fn(|place| word(W + place)),
        owner: id << 32 | last & 0xffff_ffff,
        rank: last >> 32,
    }
}
