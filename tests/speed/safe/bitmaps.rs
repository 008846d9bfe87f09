// Maps of slots by bit place and value, and the choice of places. A map's bit says that its slot cares for a place with a value;
// a bit that is not set says nothing, so that a poor choice of places costs time only.

use crate::answers::Record;

pub const PLACES_MOST: usize = 64;
/// Row 2 k + v is words 16 (2 k + v) and the 15 after it: the slots that care for place k with value v, a word for each block.
pub const PLACE_WORDS: usize = 32;
pub type Rows = [usize; PLACES_MOST];

/// Chosen places, how many and as bits of words, with the first row of each by its word and bit.
pub struct Spread<const W: usize> {
    count: usize,
    chosen: [u64; W],
    starts: [[usize; 64]; W],
}

impl<const W: usize> Spread<W> {
    pub const NONE: Spread<W> = Spread { count: 0, chosen: [0; W], starts: [[0; 64]; W] };
}

/// The slots of a block that one of the rows has. Two rows a turn: the loop's own instructions are paid once for both.
pub fn apart_in(maps: &[u64], rows: &[usize], block: usize) -> u64 {
    if rows.is_empty() {
        return 0;
    }
    // at the start of a row: its word for the block
    let words = &maps[block..];
    let pairs = rows.chunks_exact(2);
    let last = pairs.remainder().first().map_or(0, |&row| words[row]);
    pairs.fold(last, |apart, pair| apart | words[pair[0]] | words[pair[1]])
}

/// A slot noted in rows.
pub fn note_rows(maps: &mut [u64], own: &[usize], slot: usize) {
    for &row in own {
        maps[row + slot / 64] |= 1 << (slot % 64);
    }
}

/// The rows of the chosen places of one word that a record cares for, after those of the words before it; how many so far.
fn fill_word<const W: usize>(
    record: &Record<W>,
    word: usize,
    spread: &Spread<W>,
    others: &mut Rows,
    own: &mut Rows,
    before: usize,
) -> usize {
    let mut left = record.mask[word] & spread.chosen[word];
    let mut used = before;
    while left != 0 {
        let bit = left.trailing_zeros() as usize;
        let value = (record.value[word] >> bit & 1) as usize;
        let row = spread.starts[word][bit];
        others[used] = row + 16 * (1 - value);
        own[used] = row + 16 * value;
        used += 1;
        left &= left - 1;
    }
    used
}

/// For each chosen place that a record cares for, the row with the other value and the row with its own; how many.
pub fn fill_rows<const W: usize>(record: &Record<W>, spread: &Spread<W>, others: &mut Rows, own: &mut Rows) -> usize {
    if spread.count == 0 {
        return 0;
    }
    (0..W).fold(0, |used, word| fill_word(record, word, spread, others, own, used))
}

/// Counts of the 64 places of a word: bit k of a count stands in plane k, so that 64 counts are added to at once.
type Planes = [u64; 6];

/// The bits of a word added to the counts of its places.
fn count_bits(planes: &mut Planes, word: u64) {
    let mut carry = word;
    for plane in planes {
        (*plane, carry) = (*plane ^ carry, *plane & carry);
    }
}

/// The count of one place.
fn count_at(planes: &Planes, bit: usize) -> u32 {
    (0..6).fold(0, |count, k| count + ((planes[k] >> bit & 1) << k)) as u32
}

/// How well each place of a word tells apart 32 slots: those with value 1 there times those that care with value 0. At most 256.
fn score_word<const W: usize>(records: &[Record<W>], word: usize) -> [u32; 64] {
    let (mut ones, mut zeros) = ([0; 6], [0; 6]);
    for record in records.iter().step_by(records.len() / 32 + 1).take(32) {
        count_bits(&mut ones, record.value[word]);
        count_bits(&mut zeros, record.mask[word] ^ record.value[word]);
    }
    std::array::from_fn(|bit| (count_at(&ones, bit) * count_at(&zeros, bit)).min(256))
}

/// Up to 64 places that tell many of a table's rules apart, those of the highest scores first; how many.
/// They are taken while more than a hundredth of 2^30 pairs is expected to be left together.
pub fn choose_places<const W: usize>(records: &[Record<W>], places: &mut Rows) -> usize {
    let mut scores: [[u32; 64]; W] = std::array::from_fn(|word| score_word(records, word));
    let mut left = 1u32 << 30;
    let mut count = 0;
    for level in [128, 64, 32, 16, 8, 4, 2, 1, 0] {
        if left <= 10_737_418 || count == PLACES_MOST {
            break;
        }
        for (place, score) in scores.as_flattened_mut().iter_mut().enumerate() {
            if *score > level && left > 10_737_418 && count < PLACES_MOST {
                places[count] = place;
                count += 1;
                left -= left / 1024 * (2 * *score);
                *score = 0;
            }
        }
    }
    count
}

pub fn spread_places<const W: usize>(places: &[usize]) -> Spread<W> {
    let mut spread = Spread { count: places.len(), ..Spread::NONE };
    for (k, &place) in places.iter().enumerate() {
        spread.chosen[place / 64] |= 1 << (place % 64);
        spread.starts[place / 64][place % 64] = PLACE_WORDS * k;
    }
    spread
}
