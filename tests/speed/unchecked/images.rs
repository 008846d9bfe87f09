// Saving a table as an image and loading an image: entries of ten bytes, bodies of 16 a word and 8.
// A load builds the table meant apart, checks it there, and then copies it.

use crate::answers::{refuse, Record, Refusal, IMAGE, SHORT, SLOTS_MOST};
use crate::checks::{check_pairs, check_table};
use crate::records::{id_of, put, rest_is_sound};

const fn body_bytes(width: usize) -> usize {
    16 * width + 8
}

/// Stores a number's bytes at an offset that has room for them.
unsafe fn store<const COUNT: usize>(image: &mut [u8], offset: usize, bytes: [u8; COUNT]) {
    image.as_mut_ptr().add(offset).cast::<[u8; COUNT]>().write(bytes);
}

/// The bytes at an offset that has so many.
unsafe fn bytes_at<const COUNT: usize>(image: &[u8], offset: usize) -> [u8; COUNT] {
    image.as_ptr().add(offset).cast::<[u8; COUNT]>().read()
}

pub fn save<const W: usize>(table: &[u64], uncounted: bool, image: &mut [u8]) -> Result<u32, Refusal> {
    let records = check_table::<W>(table, uncounted)?;
    let rules = records.iter().filter(|record| id_of(record) != 0).count();
    let bytes = 4 + (10 + body_bytes(W)) * rules;
    if image.len() < bytes {
        return refuse(SHORT, bytes);
    }
    unsafe {
        store(image, 0, (records.len() as u16).to_be_bytes());
        store(image, 2, (rules as u16).to_be_bytes());
        put_rules(records, rules, image);
    }
    Ok(bytes as u32)
}

unsafe fn put_rules<const W: usize>(records: &[Record<W>], rules: usize, image: &mut [u8]) {
    let mut entry = 4;
    let mut body = 4 + 10 * rules;
    let mut slot = 0;
    while slot < records.len() {
        let record = records.get_unchecked(slot);
        if id_of(record) != 0 {
            store(image, entry, id_of(record).to_be_bytes());
            store(image, entry + 4, (slot as u16).to_be_bytes());
            store(image, entry + 6, (body as u32).to_be_bytes());
            put_body(record, body, image);
            entry += 10;
            body += body_bytes(W);
        }
        slot += 1;
    }
}

unsafe fn put_body<const W: usize>(record: &Record<W>, body: usize, image: &mut [u8]) {
    for word in 0..W {
        store(image, body + 8 * word, record.value[word].to_be_bytes());
        store(image, body + 8 * (W + word), record.mask[word].to_be_bytes());
    }
    store(image, body + 16 * W, (record.rank as u32).to_be_bytes());
    store(image, body + 16 * W + 4, (record.owner as u32).to_be_bytes());
}

pub fn load<const W: usize>(image: &[u8], table: &mut [u64], uncounted: bool) -> Result<(), Refusal> {
    let records = Record::<W>::all_mut(table)?;
    let slots = records.len();
    let rules = check_head::<W>(image, slots)?;
    let mut working = [Record::EMPTY; SLOTS_MOST];
    unsafe {
        check_entries::<W>(image, slots, rules)?;
        fill(image, rules, &mut working)?;
        let meant = working.get_unchecked(..slots);
        check_pairs(meant, uncounted, &mut [0; 2 * SLOTS_MOST])?;
        std::ptr::copy_nonoverlapping(meant.as_ptr(), records.as_mut_ptr(), slots);
    }
    Ok(())
}

/// The number of rules of an image of the right length, for a table of so many slots.
fn check_head<const W: usize>(image: &[u8], slots: usize) -> Result<usize, Refusal> {
    if image.len() < 4 {
        return refuse(IMAGE, 0);
    }
    if usize::from(u16::from_be_bytes(unsafe { bytes_at(image, 0) })) != slots {
        return refuse(IMAGE, 0);
    }
    let rules = usize::from(u16::from_be_bytes(unsafe { bytes_at(image, 2) }));
    if rules > slots || image.len() != 4 + (10 + body_bytes(W)) * rules {
        return refuse(IMAGE, 2);
    }
    Ok(rules)
}

unsafe fn slot_at(image: &[u8], entry: usize) -> usize {
    usize::from(u16::from_be_bytes(bytes_at(image, entry + 4)))
}

unsafe fn check_entries<const W: usize>(image: &[u8], slots: usize, rules: usize) -> Result<(), Refusal> {
    let mut lowest = 0;
    let mut body = 4 + 10 * rules;
    let mut entry = 4;
    while entry < 4 + 10 * rules {
        if u32::from_be_bytes(bytes_at(image, entry)) == 0 {
            return refuse(IMAGE, entry);
        }
        let slot = slot_at(image, entry);
        if slot < lowest || slot >= slots {
            return refuse(IMAGE, entry + 4);
        }
        if u32::from_be_bytes(bytes_at(image, entry + 6)) as usize != body {
            return refuse(IMAGE, entry + 6);
        }
        lowest = slot + 1;
        body += body_bytes(W);
        entry += 10;
    }
    Ok(())
}

/// The records that the bodies mean, each sound, into their slots.
unsafe fn fill<const W: usize>(image: &[u8], rules: usize, records: &mut [Record<W>; SLOTS_MOST]) -> Result<(), Refusal> {
    let mut place = 0;
    while place < rules {
        let entry = 4 + 10 * place;
        let body = 4 + 10 * rules + body_bytes(W) * place;
        let record = record_at(image, entry, body);
        if !rest_is_sound(&record) {
            return refuse(IMAGE, body);
        }
        put(records, slot_at(image, entry), record);
        place += 1;
    }
    Ok(())
}

unsafe fn record_at<const W: usize>(image: &[u8], entry: usize, body: usize) -> Record<W> {
    let word = |place: usize| u64::from_be_bytes(bytes_at(image, body + 8 * place));
    let id = u64::from(u32::from_be_bytes(bytes_at(image, entry)));
    let last = word(2 * W);
    Record {
        value: std::array::from_fn(word),
        mask: std::array::from_fn(|place| word(W + place)),
        owner: id << 32 | last & 0xffff_ffff,
        rank: last >> 32,
    }
}
