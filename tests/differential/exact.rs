// What the editions of 2026-07 ask for beside the style of a table: masks of all bits and of nearly all, ranks and priorities on both
// sides of 65,535 and 65,536, and editions that there are and are not.

use reference::bits::Bits;
use reference::given::{EDITION_10, EDITION_13};
use support::random::Random;

/// Editions that there are not; a run must have told each of them.
pub const OTHER_EDITIONS: [u32; 8] = [0, 9, 11, 12, 14, 99, 10 + (1 << 16), 13 + (1 << 16)];

/// Such as would pass for 10 or 13 where only a part of the number is looked at, the widths, and others.
const FAR_EDITIONS: [u32; 10] =
    [1, 2, 5, 10 + (1 << 8), 13 + (1 << 8), 10 + (1 << 31), 13 + (1 << 31), 10 << 16, 65_535, u32::MAX];

/// 10 or 13, and once in so many times another.
pub fn edition(random: &mut Random, other_in: usize) -> u32 {
    if !random.one_in(other_in) {
        return random.pick(&[EDITION_10, EDITION_13]);
    }
    let any = random.word() as u32;
    match random.below(8) {
        0 => any,
        1 | 2 => random.pick(&FAR_EDITIONS),
        _ => random.pick(&OTHER_EDITIONS),
    }
}

/// A mask of all bits, or, once in so many times, of all but one, often at the end of a word, of all but a word's, or of the first
/// words' only.
pub fn exact_or_nearly(random: &mut Random, width: usize, nearly_in: usize) -> Bits {
    let all = Bits::all(width);
    if !random.one_in(nearly_in) {
        return all;
    }
    let word = random.below(width);
    let in_word = if random.one_in(2) { random.pick(&[0, 63]) } else { random.below(64) };
    match random.below(4) {
        0 => all ^ Bits::all(word) ^ Bits::all(word + 1),
        1 => Bits::all(random.between(1, width - 1)),
        _ => all ^ Bits::at(64 * word + in_word),
    }
}

/// A mask and a rank of which one or both are at the edge of what a record may have.
pub struct Edged {
    width: usize,
    mask: Bits,
    rank: u64,
}

/// The id of a rule that is made of an empty slot's record: no other table has it.
const SOME_ID: u64 = 0x7fff_fff1;

impl Edged {
    pub fn draw(random: &mut Random, width: usize) -> Edged {
        let rank = random.pick(&[65_535, 65_536, 65_536, 65_536, 65_537]);
        Edged { width, mask: exact_or_nearly(random, width, 2), rank }
    }

    /// Gives a record the mask and the rank, and leaves nothing of its value outside the mask.
    pub fn put_in_record(&self, record: &mut [u64]) {
        let (value, rest) = record.split_at_mut(self.width);
        for (word, mask) in value.iter_mut().zip(self.mask.words(self.width)) {
            *word &= mask;
        }
        rest[..self.width].copy_from_slice(self.mask.words(self.width));
        if rest[self.width] >> 32 == 0 {
            rest[self.width] = SOME_ID << 32;
        }
        rest[self.width + 1] = self.rank;
    }

    /// The same for the body of an image that the bytes start with.
    pub fn put_in_body(&self, body: &mut [u8]) {
        let (values, rest) = body.split_at_mut(8 * self.width);
        let mask_bytes: Vec<u8> = self.mask.words(self.width).iter().flat_map(|word| word.to_be_bytes()).collect();
        for (byte, mask) in values.iter_mut().zip(&mask_bytes) {
            *byte &= mask;
        }
        rest[..8 * self.width].copy_from_slice(&mask_bytes);
        rest[8 * self.width..8 * self.width + 4].copy_from_slice(&(self.rank as u32).to_be_bytes());
    }
}
