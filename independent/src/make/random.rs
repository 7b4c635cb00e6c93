//! Numbers that look random and depend on the seed alone (splitmix64).

/// A source of numbers.
pub struct Random {
    state: u64,
}

impl Random {
    pub fn new(seed: u64) -> Self {
        Self { state: seed }
    }

    /// The source for one item of a batch, which does not depend on how much
    /// the items before it have drawn.
    pub fn for_item(seed: u64, item: u64) -> Self {
        let mut seeds = Self::new(seed);
        let start = seeds.draw();
        Self::new(start ^ Self::new(item).draw())
    }

    fn draw(&mut self) -> u64 {
        self.state = self.state.wrapping_add(0x9E37_79B9_7F4A_7C15);
        let mut mixed = self.state;
        mixed = (mixed ^ (mixed >> 30)).wrapping_mul(0xBF58_476D_1CE4_E5B9);
        mixed = (mixed ^ (mixed >> 27)).wrapping_mul(0x94D0_49BB_1331_11EB);
        mixed ^ (mixed >> 31)
    }

    /// A number from 0 to under a limit, which is above 0.
    pub fn below(&mut self, limit: usize) -> usize {
        (self.draw() % limit as u64) as usize
    }

    /// A number between two numbers, both included.
    pub fn between(&mut self, least: i32, most: i32) -> i32 {
        let width = i64::from(most) - i64::from(least) + 1;
        let step = (self.draw() % width as u64) as i64;
        (i64::from(least) + step) as i32
    }

    /// Yes so many times in a hundred.
    pub fn percent(&mut self, chance: usize) -> bool {
        self.below(100) < chance
    }

    /// One of some items, of which there is at least one.
    pub fn pick<T: Copy>(&mut self, items: &[T]) -> T {
        items[self.below(items.len())]
    }

    /// Any i32 whatever, the ends of the type more often.
    pub fn any_i32(&mut self) -> i32 {
        match self.below(4) {
            0 => self.pick(&[i32::MIN, i32::MAX, -1, 0, 1]),
            1 => self.between(-20, 20),
            _ => self.draw() as i32,
        }
    }

    /// Any u16 whatever, small ones and the end of the type more often.
    pub fn any_u16(&mut self) -> u16 {
        match self.below(4) {
            0 => self.pick(&[0, 1, 64, 65, 511, 512, u16::MAX]),
            1 => self.below(16) as u16,
            _ => self.draw() as u16,
        }
    }

    pub fn any_byte(&mut self) -> u8 {
        self.draw() as u8
    }
}
