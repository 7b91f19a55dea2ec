//! Numbers that look thrown but follow from the seed alone (the splitmix64 steps).

pub struct Dice {
    state: u64,
}

impl Dice {
    /// One run of throws for each pair, so that a request does not depend on those before it.
    pub fn new(seed: u64, index: u64) -> Dice {
        let mut dice = Dice { state: seed };
        dice.state = dice.throw() ^ index.wrapping_mul(0xD134_2543_DE82_EF95);
        dice.throw();
        dice
    }

    fn throw(&mut self) -> u64 {
        self.state = self.state.wrapping_add(0x9E37_79B9_7F4A_7C15);
        let mixed = (self.state ^ (self.state >> 30)).wrapping_mul(0xBF58_476D_1CE4_E5B9);
        let mixed = (mixed ^ (mixed >> 27)).wrapping_mul(0x94D0_49BB_1331_11EB);
        mixed ^ (mixed >> 31)
    }

    /// From 0 to one below `limit`, which must not be 0.
    pub fn below(&mut self, limit: usize) -> usize {
        (self.throw() % limit as u64) as usize
    }

    /// From `low` to `high`, both allowed.
    pub fn between(&mut self, low: usize, high: usize) -> usize {
        low + self.below(high - low + 1)
    }

    pub fn one_in(&mut self, chances: usize) -> bool {
        self.below(chances) == 0
    }

    /// Any 32 bits.
    pub fn word(&mut self) -> u32 {
        self.throw() as u32
    }

    pub fn pick<T: Copy>(&mut self, from: &[T]) -> T {
        from[self.below(from.len())]
    }

    /// A word that stands for nothing: often small or like a label, so that it could be mistaken.
    pub fn junk(&mut self) -> u32 {
        match self.below(4) {
            0 => self.below(6) as u32,
            1 => (self.between(1, 7) << 16) as u32,
            _ => self.word(),
        }
    }

    pub fn junk_words(&mut self, count: usize) -> Vec<u32> {
        (0..count).map(|_| self.junk()).collect()
    }

    pub fn junk_bytes(&mut self, count: usize) -> Vec<u8> {
        (0..count).map(|_| self.throw() as u8).collect()
    }

    /// The numbers below `count` in any order.
    pub fn order(&mut self, count: usize) -> Vec<usize> {
        let mut order: Vec<usize> = (0..count).collect();
        for place in (1..count).rev() {
            order.swap(place, self.below(place + 1));
        }
        order
    }
}
