//! Random numbers from a seed, the same on every machine.

/// SplitMix64: small, and each seed gives a stream of its own.
pub struct Random(u64);

impl Random {
    pub fn new(seed: u64) -> Random {
        Random(seed)
    }

    pub fn next(&mut self) -> u64 {
        self.0 = self.0.wrapping_add(0x9E37_79B9_7F4A_7C15);
        let mut mixed = self.0;
        mixed = (mixed ^ mixed >> 30).wrapping_mul(0xBF58_476D_1CE4_E5B9);
        mixed = (mixed ^ mixed >> 27).wrapping_mul(0x94D0_49BB_1331_11EB);
        mixed ^ mixed >> 31
    }

    pub fn word(&mut self) -> u32 {
        self.next() as u32
    }

    pub fn byte(&mut self) -> u8 {
        self.next() as u8
    }

    /// 0 to `end` - 1. The slight lean of the remainder does no harm here.
    pub fn below(&mut self, end: u64) -> u64 {
        self.next() % end
    }

    pub fn between(&mut self, least: u64, most: u64) -> u64 {
        least + self.below(most - least + 1)
    }

    /// True `part` times in a hundred.
    pub fn percent(&mut self, part: u64) -> bool {
        self.below(100) < part
    }

    pub fn pick<T: Copy>(&mut self, choices: &[T]) -> T {
        choices[self.below(choices.len() as u64) as usize]
    }

    pub fn bytes(&mut self, count: usize) -> Vec<u8> {
        (0..count).map(|_| self.byte()).collect()
    }

    pub fn shuffle<T>(&mut self, items: &mut [T]) {
        for place in (1..items.len()).rev() {
            items.swap(place, self.below(place as u64 + 1) as usize);
        }
    }
}

/// A seed for one input of one round, of its own for each.
pub fn derive(seed: u64, round: u64, place: u64) -> u64 {
    let mut random = Random::new(seed);
    let mut random = Random::new(random.next() ^ round);
    let mut random = Random::new(random.next() ^ place);
    // Short enough to be typed again by hand.
    random.next() % 1_000_000_000
}
