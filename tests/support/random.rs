// A seeded generator of numbers, so that every input of a run can be made again from its seed and its number.
// The steps are those of splitmix64.

use reference::bits::Bits;

pub struct Random {
    state: u64,
}

impl Random {
    pub fn new(seed: u64, number: u64) -> Random {
        let mut random = Random { state: seed };
        let mixed = random.word();
        Random { state: mixed ^ number.wrapping_mul(0xd134_2543_de82_ef95) }
    }

    pub fn word(&mut self) -> u64 {
        self.state = self.state.wrapping_add(0x9e37_79b9_7f4a_7c15);
        let mut mixed = self.state;
        mixed = (mixed ^ (mixed >> 30)).wrapping_mul(0xbf58_476d_1ce4_e5b9);
        mixed = (mixed ^ (mixed >> 27)).wrapping_mul(0x94d0_49bb_1331_11eb);
        mixed ^ (mixed >> 31)
    }

    /// A number below `bound`, which is not 0.
    pub fn below(&mut self, bound: usize) -> usize {
        ((u128::from(self.word()) * bound as u128) >> 64) as usize
    }

    pub fn between(&mut self, least: usize, most: usize) -> usize {
        least + self.below(most - least + 1)
    }

    /// True once in `count` times.
    pub fn one_in(&mut self, count: usize) -> bool {
        self.below(count) == 0
    }

    /// Any bits of a value of so many words.
    pub fn bits(&mut self, width: usize) -> Bits {
        let words: Vec<u64> = (0..width).map(|_| self.word()).collect();
        Bits::of_words(&words)
    }

    /// Any word, often one at the edge of a range.
    pub fn any_word(&mut self) -> u64 {
        match self.below(8) {
            0 => 0,
            1 => u64::MAX,
            2 => 1 << self.below(64),
            _ => self.word(),
        }
    }

    pub fn pick<T: Copy>(&mut self, from: &[T]) -> T {
        from[self.below(from.len())]
    }

    pub fn shuffle<T>(&mut self, list: &mut [T]) {
        for place in (1..list.len()).rev() {
            list.swap(place, self.below(place + 1));
        }
    }
}
