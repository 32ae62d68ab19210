//! A small deterministic source of random numbers (splitmix64).

/// The source; equal seeds give equal numbers on every machine.
#[derive(Clone, Debug)]
pub struct Random(u64);

impl Random {
    /// The source of the `index`th scenario of a run.
    pub fn of(seed: u64, index: u64) -> Random {
        let mut mixed = Random(seed);
        let seed = mixed.word();
        Random(seed ^ index.wrapping_mul(0xD6E8_FEB8_6659_FD93))
    }

    pub fn word(&mut self) -> u64 {
        self.0 = self.0.wrapping_add(0x9E37_79B9_7F4A_7C15);
        let mut z = self.0;
        z = (z ^ (z >> 30)).wrapping_mul(0xBF58_476D_1CE4_E5B9);
        z = (z ^ (z >> 27)).wrapping_mul(0x94D0_49BB_1331_11EB);
        z ^ (z >> 31)
    }

    /// 0 to `count` - 1.
    pub fn below(&mut self, count: usize) -> usize {
        assert!(count > 0, "nothing to choose from");
        (self.word() % count as u64) as usize
    }

    /// `least` to `most`, both among them.
    pub fn range(&mut self, least: i64, most: i64) -> i64 {
        assert!(least <= most, "an empty range");
        let count = i128::from(most) - i128::from(least) + 1;
        (i128::from(least) + i128::from(self.word()) % count) as i64
    }

    /// True in `percent` of a hundred cases.
    pub fn chance(&mut self, percent: usize) -> bool {
        self.below(100) < percent
    }

    /// One of these.
    pub fn pick<'a, T>(&mut self, among: &'a [T]) -> &'a T {
        &among[self.below(among.len())]
    }

    /// One of these, as often as its weight says.
    pub fn weighted<T: Copy>(&mut self, among: &[(usize, T)]) -> T {
        let total = among.iter().map(|(weight, _)| weight).sum();
        let mut at = self.below(total);
        for (weight, choice) in among {
            if at < *weight {
                return *choice;
            }
            at -= weight;
        }
        unreachable!("the weights sum to the total")
    }
}
