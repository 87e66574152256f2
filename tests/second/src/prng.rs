//! Repeatable chance: splitmix64, as published by Steele, Lea and Flood (2014).

const STRIDE: u64 = 0x9E37_79B9_7F4A_7C15;

pub struct Prng {
    state: u64,
}

impl Prng {
    fn new(seed: u64) -> Prng {
        Prng { state: seed }
    }

    /// A stream of its own for each script of a seed, so that one script can be made again without the others.
    /// Seed and index are mixed first: splitmix64 walks in equal strides, and bare sums would run into each other.
    pub fn for_script(seed: u64, index: u64) -> Prng {
        let of_seed = Prng::new(seed).next();
        let of_index = Prng::new(!index).next();
        Prng::new(of_seed ^ of_index.rotate_left(17))
    }

    pub fn next(&mut self) -> u64 {
        self.state = self.state.wrapping_add(STRIDE);
        let mut mixed = self.state;
        mixed = (mixed ^ (mixed >> 30)).wrapping_mul(0xBF58_476D_1CE4_E5B9);
        mixed = (mixed ^ (mixed >> 27)).wrapping_mul(0x94D0_49BB_1331_11EB);
        mixed ^ (mixed >> 31)
    }

    /// A number below `limit`, which is not 0. Its slight unevenness doesn't matter for trying things.
    pub fn below(&mut self, limit: usize) -> usize {
        (self.next() % limit as u64) as usize
    }

    /// A number from `low` to `high`, both included.
    pub fn between(&mut self, low: usize, high: usize) -> usize {
        low + self.below(high - low + 1)
    }

    pub fn chance(&mut self, percent: usize) -> bool {
        self.below(100) < percent
    }

    pub fn pick<'a, Item>(&mut self, items: &'a [Item]) -> &'a Item {
        &items[self.below(items.len())]
    }

    pub fn shuffle<Item>(&mut self, items: &mut [Item]) {
        for last in (1..items.len()).rev() {
            items.swap(last, self.below(last + 1));
        }
    }
}
