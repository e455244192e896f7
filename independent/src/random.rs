//! Numbers that look drawn at random and are the same for the same seed on every machine (SplitMix64).

/// A generator; its whole state is one number.
#[derive(Clone, Debug)]
pub struct Random {
    state: u64,
}

impl Random {
    /// The generator for the journal `index` of a seed.
    pub fn new(seed: u64, index: u64) -> Random {
        let mut random = Random { state: seed };
        let start = random.next() ^ index.wrapping_mul(0xd1b5_4a32_d192_ed03);
        Random { state: start }
    }

    fn next(&mut self) -> u64 {
        self.state = self.state.wrapping_add(0x9e37_79b9_7f4a_7c15);
        let mut mixed = self.state;
        mixed = (mixed ^ (mixed >> 30)).wrapping_mul(0xbf58_476d_1ce4_e5b9);
        mixed = (mixed ^ (mixed >> 27)).wrapping_mul(0x94d0_49bb_1331_11eb);
        mixed ^ (mixed >> 31)
    }

    /// A number from 0 to `count` − 1; 0 if the count is 0.
    fn among(&mut self, count: u128) -> u64 {
        ((u128::from(self.next()) * count) >> 64) as u64
    }

    /// A number from 0 to `limit` − 1; 0 if the limit is 0.
    pub fn below(&mut self, limit: u64) -> u64 {
        self.among(limit.into())
    }

    /// A number from `low` to `high`.
    pub fn between(&mut self, low: u64, high: u64) -> u64 {
        low + self.among(u128::from(high.saturating_sub(low)) + 1)
    }

    /// True once in `count` times; never if the count is 0.
    pub fn once_in(&mut self, count: u64) -> bool {
        count > 0 && self.below(count) == 0
    }

    /// One of the items.
    pub fn pick<T: Copy>(&mut self, items: &[T]) -> Option<T> {
        items.get(self.below(items.len() as u64) as usize).copied()
    }

    /// The index of one of the weights, each as often as its weight says.
    pub fn weighted(&mut self, weights: &[u64]) -> usize {
        let mut rest = self.below(weights.iter().sum());
        for (index, &weight) in weights.iter().enumerate() {
            if rest < weight {
                return index;
            }
            rest -= weight;
        }
        0
    }

    /// Puts the items in another order.
    pub fn shuffle<T>(&mut self, items: &mut [T]) {
        for last in (1..items.len()).rev() {
            items.swap(last, self.below(last as u64 + 1) as usize);
        }
    }
}

#[cfg(test)]
mod tests {
    use super::*;

    #[test]
    fn a_seed_gives_the_same_numbers_everywhere() {
        let mut random = Random::new(1, 0);
        let drawn: Vec<u64> = (0..6).map(|_| random.below(1000)).collect();
        let mut again = Random::new(1, 0);
        let drawn_again: Vec<u64> = (0..6).map(|_| again.below(1000)).collect();
        assert_eq!(drawn, drawn_again);
        let mut published = Random { state: 1_234_567 };
        assert_eq!(published.next(), 6_457_827_717_110_365_317);
        assert_eq!(published.next(), 3_203_168_211_198_807_973);
    }

    #[test]
    fn draws_stay_in_range() {
        let mut random = Random::new(7, 7);
        for _ in 0..1000 {
            assert!(random.below(3) < 3);
            assert!((5..=9).contains(&random.between(5, 9)));
            assert!(random.below(u64::MAX) < u64::MAX && random.between(u64::MAX, u64::MAX) == u64::MAX);
            assert!(random.weighted(&[1, 0, 2]) != 1);
        }
        assert_eq!(random.below(0), 0);
        assert_eq!(random.pick::<u64>(&[]), None);
    }
}
