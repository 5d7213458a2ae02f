//! Numbers drawn from a seed (SplitMix64): the same seed, the same run.

pub struct Draw(u64);

impl Draw {
    pub fn new(seed: u64) -> Draw {
        Draw(seed)
    }

    /// Any 64 bits.
    pub fn word(&mut self) -> u64 {
        self.0 = self.0.wrapping_add(0x9E37_79B9_7F4A_7C15);
        let a = (self.0 ^ (self.0 >> 30)).wrapping_mul(0xBF58_476D_1CE4_E5B9);
        let b = (a ^ (a >> 27)).wrapping_mul(0x94D0_49BB_1331_11EB);
        b ^ (b >> 31)
    }

    /// From 0 to n - 1.
    pub fn below(&mut self, n: usize) -> usize {
        (self.word() % n as u64) as usize
    }

    pub fn one_in(&mut self, n: usize) -> bool {
        self.below(n) == 0
    }

    /// One of these.
    pub fn of<T: Copy>(&mut self, from: &[T]) -> T {
        from[self.below(from.len())]
    }

    /// One of these, if there is one.
    pub fn any_of<T: Copy>(&mut self, from: &[T]) -> Option<T> {
        if from.is_empty() {
            return None;
        }
        Some(self.of(from))
    }

    /// A value: small, or any.
    pub fn value(&mut self) -> u64 {
        let word = self.word();
        if self.one_in(4) {
            word
        } else {
            word % 100
        }
    }

    /// A generation that is not 0: at either end, beside one at hand, or any.
    pub fn generation(&mut self, at_hand: u32) -> u32 {
        let drawn = match self.below(8) {
            0 => 1,
            1 | 2 => 2 + self.below(4) as u32,
            3 | 4 => u32::MAX - self.below(4) as u32,
            5 => at_hand.wrapping_add(1),
            6 => at_hand.wrapping_sub(1),
            _ => self.word() as u32,
        };
        drawn.max(1)
    }

    /// An index or a header's number for c places: up to a few above c, or any.
    pub fn index(&mut self, c: usize) -> u16 {
        match self.below(12) {
            0 => self.of(&[0, 1, 1_023, 1_024, 1_025, 65_534, 65_535]),
            1 => self.word() as u16,
            2 => c as u16,
            _ => self.below(c + 3) as u16,
        }
    }

    /// The same numbers in a drawn order.
    pub fn shuffled<T>(&mut self, mut numbers: Vec<T>) -> Vec<T> {
        for i in (1..numbers.len()).rev() {
            let j = self.below(i + 1);
            numbers.swap(i, j);
        }
        numbers
    }
}
