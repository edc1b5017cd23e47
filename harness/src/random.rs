//! A small generator of random numbers, the same on every machine.

/// The generator SplitMix64.
pub struct Random {
    state: u64,
}

const STEP: u64 = 0x9E37_79B9_7F4A_7C15;

impl Random {
    /// The numbers of one case. They depend on the two figures alone.
    pub fn new(seed: u64, case: u64) -> Random {
        let mut of_seed = Random { state: seed };
        let state = of_seed.number() ^ case.wrapping_mul(STEP);
        Random { state }
    }

    fn number(&mut self) -> u64 {
        self.state = self.state.wrapping_add(STEP);
        let mut mixed = self.state;
        mixed = (mixed ^ (mixed >> 30)).wrapping_mul(0xBF58_476D_1CE4_E5B9);
        mixed = (mixed ^ (mixed >> 27)).wrapping_mul(0x94D0_49BB_1331_11EB);
        mixed ^ (mixed >> 31)
    }

    /// A number below `bound`, which is above 0.
    pub fn below(&mut self, bound: usize) -> usize {
        ((self.number() >> 33) % bound as u64) as usize
    }

    /// A number from `low` to `high`.
    pub fn within(&mut self, low: usize, high: usize) -> usize {
        low + self.below(high - low + 1)
    }

    /// True in `percent` of all calls.
    pub fn chance(&mut self, percent: usize) -> bool {
        self.below(100) < percent
    }

    pub fn one_of<T: Copy>(&mut self, choices: &[T]) -> T {
        choices[self.below(choices.len())]
    }

    /// Puts things into some order.
    pub fn shuffle<T>(&mut self, things: &mut [T]) {
        for last in (1..things.len()).rev() {
            things.swap(last, self.below(last + 1));
        }
    }

    /// The place of one of several weights, each as often as it weighs.
    pub fn weighted(&mut self, weights: &[usize]) -> usize {
        let mut left = self.below(weights.iter().sum());
        weights
            .iter()
            .position(|&weight| {
                let here = left < weight;
                left = left.saturating_sub(weight);
                here
            })
            .expect("the number drawn is below the sum")
    }

    pub fn byte(&mut self) -> u8 {
        self.number() as u8
    }

    /// A value of a port, a local or a variable: mostly small, now and then at
    /// an end of the range.
    pub fn value(&mut self) -> i32 {
        match self.below(10) {
            0 => self.one_of(&[i32::MAX, i32::MIN, i32::MAX - 1, i32::MIN + 1]),
            1 => self.one_of(&[255, 256, 65_535, -256, 1_000_000_000]),
            _ => self.within(0, 7) as i32 - 2,
        }
    }
}
