//! Chance that can be repeated: a row of numbers fixed by a seed and the number of a call.

/// A source of numbers.
pub struct Chance {
    state: u64,
}

impl Chance {
    /// The source of the call of this number under this seed. Calls have nothing to do with each
    /// other: each can be made again alone.
    pub fn of(seed: u64, number: u64) -> Chance {
        let mut first = Chance { state: seed };
        let state = first.number().wrapping_add(number.wrapping_mul(0xd134_2543_de82_ef95));
        Chance { state }
    }

    /// The next number of the row: a counter, well stirred.
    pub fn number(&mut self) -> u64 {
        self.state = self.state.wrapping_add(0x9e37_79b9_7f4a_7c15);
        let mut mixed = self.state;
        mixed = (mixed ^ (mixed >> 30)).wrapping_mul(0xbf58_476d_1ce4_e5b9);
        mixed = (mixed ^ (mixed >> 27)).wrapping_mul(0x94d0_49bb_1331_11eb);
        mixed ^ (mixed >> 31)
    }

    /// A number below `limit`, which is not 0.
    pub fn below(&mut self, limit: usize) -> usize {
        (self.number() % limit as u64) as usize
    }

    /// A number from `least` to `most`, both among them.
    pub fn between(&mut self, least: usize, most: usize) -> usize {
        least + self.below(most - least + 1)
    }

    /// True so many times in a hundred.
    pub fn percent(&mut self, part: usize) -> bool {
        self.below(100) < part
    }

    /// Any byte.
    pub fn byte(&mut self) -> u8 {
        self.below(256) as u8
    }

    /// One of these.
    pub fn pick<T: Copy>(&mut self, these: &[T]) -> T {
        these[self.below(these.len())]
    }

    /// The number of one of these weights, each as often as it is heavy.
    pub fn weighted(&mut self, weights: &[usize]) -> usize {
        let mut rest = self.below(weights.iter().sum());
        for (number, &weight) in weights.iter().enumerate() {
            if rest < weight {
                return number;
            }
            rest -= weight;
        }
        unreachable!("the weights add up")
    }
}
