//! A small source of made-up numbers, the same on every machine (splitmix64).

#[derive(Clone, Debug)]
pub struct Random(u64);

impl Random {
    /// The flavour's name enters too, so that seed 1 of two flavours is not one run.
    pub fn seeded(name: &str, seed: u64) -> Random {
        let mix = |state: u64, byte: u8| (state ^ u64::from(byte)).wrapping_mul(0x100_0000_01b3);
        let named = name.bytes().fold(0xcbf2_9ce4_8422_2325, mix);
        Random(named ^ seed.wrapping_mul(0x9e37_79b9_7f4a_7c15))
    }

    pub fn draw(&mut self) -> u64 {
        self.0 = self.0.wrapping_add(0x9e37_79b9_7f4a_7c15);
        let mut z = self.0;
        z = (z ^ (z >> 30)).wrapping_mul(0xbf58_476d_1ce4_e5b9);
        z = (z ^ (z >> 27)).wrapping_mul(0x94d0_49bb_1331_11eb);
        z ^ (z >> 31)
    }

    pub fn below(&mut self, bound: usize) -> usize {
        (self.draw() % (bound as u64)) as usize
    }

    pub fn byte(&mut self) -> u8 {
        self.draw().to_be_bytes()[0]
    }

    pub fn per_mille(&mut self, chance: usize) -> bool {
        self.below(1000) < chance
    }

    pub fn pick<T: Copy>(&mut self, of: &[T]) -> Option<T> {
        if of.is_empty() {
            return None;
        }
        Some(of[self.below(of.len())])
    }

    /// An index, each as likely as its weight says; the weights are not all 0.
    pub fn weighted(&mut self, weights: &[usize]) -> usize {
        let mut left = self.below(weights.iter().sum());
        for (index, &weight) in weights.iter().enumerate() {
            if left < weight {
                return index;
            }
            left -= weight;
        }
        unreachable!("left was below the sum of the weights")
    }

    pub fn shuffle<T>(&mut self, of: &mut [T]) {
        for last in (1..of.len()).rev() {
            let other = self.below(last + 1);
            of.swap(last, other);
        }
    }

    /// A mask of that many of the eight relays.
    pub fn mask(&mut self, members: usize) -> u8 {
        let mut relays: Vec<u8> = (0..8).collect();
        self.shuffle(&mut relays);
        relays
            .iter()
            .take(members)
            .fold(0, |mask, &relay| mask | 1 << relay)
    }

    /// Small values and large ones, and now and then the ends of the range.
    pub fn value(&mut self) -> u32 {
        match self.below(8) {
            0 => 0,
            1 => u32::MAX,
            2..=4 => u32::from(self.byte()),
            _ => self.draw() as u32,
        }
    }
}
