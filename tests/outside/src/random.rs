//! A small seeded generator (splitmix64), so that every case can be made again from its seed.

pub struct Random {
    at: u64,
}

impl Random {
    pub fn new(seed: u64) -> Random {
        Random { at: seed }
    }

    pub fn number(&mut self) -> u64 {
        self.at = self.at.wrapping_add(0x9e37_79b9_7f4a_7c15);
        let mut mixed = self.at;
        mixed = (mixed ^ (mixed >> 30)).wrapping_mul(0xbf58_476d_1ce4_e5b9);
        mixed = (mixed ^ (mixed >> 27)).wrapping_mul(0x94d0_49bb_1331_11eb);
        mixed ^ (mixed >> 31)
    }

    /// A number below `end`; an `end` of 0 gives 0.
    pub fn below(&mut self, end: usize) -> usize {
        if end == 0 {
            0
        } else {
            (self.number() % end as u64) as usize
        }
    }

    /// A number from `least` to `most`, both included.
    pub fn between(&mut self, least: usize, most: usize) -> usize {
        least + self.below(most - least + 1)
    }

    pub fn byte(&mut self) -> u8 {
        self.below(256) as u8
    }

    /// True `some` times in `all`.
    pub fn chance(&mut self, some: usize, all: usize) -> bool {
        self.below(all) < some
    }

    /// One of several; there must be at least one.
    pub fn pick<T: Copy>(&mut self, choices: &[T]) -> T {
        choices[self.below(choices.len())]
    }
}
