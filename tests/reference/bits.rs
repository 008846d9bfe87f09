// Values, masks and keys: up to five words of 64 bits, high word first.
// A bit's place is counted from the highest bit of the first word, which is place 0 at every width.

use std::ops::{BitAnd, BitAndAssign, BitOr, BitOrAssign, BitXor, BitXorAssign, Not};

/// "A table may now have values and masks of five words as well as two."
pub const WIDTHS: [usize; 2] = [2, 5];

const WORDS_MOST: usize = 5;

/// The places that there are at the larger width.
pub const BITS_MOST: usize = 64 * WORDS_MOST;

/// At a smaller width the further words are 0, so that no rule cares for their bits.
#[derive(Clone, Copy, Debug, Default, PartialEq, Eq, Hash)]
pub struct Bits([u64; WORDS_MOST]);

impl Bits {
    pub const NONE: Bits = Bits([0; WORDS_MOST]);

    pub fn of_words(words: &[u64]) -> Bits {
        assert!(words.len() <= WORDS_MOST);
        Bits(std::array::from_fn(|word| words.get(word).copied().unwrap_or(0)))
    }

    pub fn words(&self, width: usize) -> &[u64] {
        &self.0[..width]
    }

    /// The one bit at a place.
    pub fn at(place: usize) -> Bits {
        let mut bits = Bits::NONE;
        bits.0[place / 64] = 1 << (63 - place % 64);
        bits
    }

    pub fn is_set(&self, place: usize) -> bool {
        self.0[place / 64] >> (63 - place % 64) & 1 == 1
    }

    /// All bits of a width.
    pub fn all(width: usize) -> Bits {
        Bits::of_words(&[u64::MAX; WORDS_MOST][..width])
    }

    /// A number of `length` bits whose highest is at `place`.
    pub fn number(place: usize, length: usize, number: usize) -> Bits {
        let is_set = |bit: &usize| number >> (length - 1 - bit) & 1 == 1;
        (0..length).filter(is_set).fold(Bits::NONE, |bits, bit| bits | Bits::at(place + bit))
    }

    pub fn is_none(&self) -> bool {
        self.0.iter().fold(0, |any, word| any | word) == 0
    }
}

/// A number of 128 bits as the first two words, for rules of two words.
impl From<u128> for Bits {
    fn from(number: u128) -> Bits {
        Bits::of_words(&[(number >> 64) as u64, number as u64])
    }
}

impl BitAnd for Bits {
    type Output = Bits;

    fn bitand(self, other: Bits) -> Bits {
        Bits(std::array::from_fn(|word| self.0[word] & other.0[word]))
    }
}

impl BitOr for Bits {
    type Output = Bits;

    fn bitor(self, other: Bits) -> Bits {
        Bits(std::array::from_fn(|word| self.0[word] | other.0[word]))
    }
}

impl BitXor for Bits {
    type Output = Bits;

    fn bitxor(self, other: Bits) -> Bits {
        Bits(std::array::from_fn(|word| self.0[word] ^ other.0[word]))
    }
}

/// Sets the words past the width too: what it is masked with has none there.
impl Not for Bits {
    type Output = Bits;

    fn not(self) -> Bits {
        Bits(self.0.map(|word| !word))
    }
}

impl BitAndAssign for Bits {
    fn bitand_assign(&mut self, other: Bits) {
        *self = *self & other;
    }
}

impl BitOrAssign for Bits {
    fn bitor_assign(&mut self, other: Bits) {
        *self = *self | other;
    }
}

impl BitXorAssign for Bits {
    fn bitxor_assign(&mut self, other: Bits) {
        *self = *self ^ other;
    }
}
