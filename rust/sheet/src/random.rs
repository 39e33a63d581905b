//! A small generator of pseudo-random numbers: the same seed always gives the same row.

/// Splitmix64.
#[derive(Debug, Clone)]
pub struct Random {
    state: u64,
}

impl Random {
    pub fn new(seed: u64) -> Self {
        Random { state: seed }
    }

    /// The next 64 bits.
    pub fn word(&mut self) -> u64 {
        self.state = self.state.wrapping_add(0x9e37_79b9_7f4a_7c15);
        let mut word = self.state;
        word = (word ^ (word >> 30)).wrapping_mul(0xbf58_476d_1ce4_e5b9);
        word = (word ^ (word >> 27)).wrapping_mul(0x94d0_49bb_1331_11eb);
        word ^ (word >> 31)
    }

    /// A number from 0 to `n - 1`, and 0 where `n` is 0.
    pub fn below(&mut self, n: usize) -> usize {
        ((u128::from(self.word()) * n as u128) >> 64) as usize
    }

    /// A number from `low` to `high`, both included.
    pub fn between(&mut self, low: usize, high: usize) -> usize {
        low + self.below(high - low + 1)
    }

    /// True in so many cases of a hundred.
    pub fn chance(&mut self, percent: usize) -> bool {
        self.below(100) < percent
    }

    /// One of the values, which are not empty.
    pub fn pick<T: Copy>(&mut self, from: &[T]) -> T {
        from[self.below(from.len())]
    }

    /// One of the values of two lists, which are not both empty.
    pub fn pick_of_both<T: Copy>(&mut self, one: &[T], other: &[T]) -> T {
        let place = self.below(one.len() + other.len());
        match place < one.len() {
            true => one[place],
            false => other[place - one.len()],
        }
    }

    /// One of the values, if there are any.
    pub fn pick_any<T: Copy>(&mut self, from: &[T]) -> Option<T> {
        if from.is_empty() {
            None
        } else {
            Some(self.pick(from))
        }
    }

    /// The place of one of the weights, drawn in proportion to them.
    pub fn weighted(&mut self, weights: &[usize]) -> usize {
        let mut left = self.below(weights.iter().sum());
        for (place, &weight) in weights.iter().enumerate() {
            if left < weight {
                return place;
            }
            left -= weight;
        }
        weights.len() - 1
    }

    /// A number from 0 up to 1, without 1.
    pub fn unit(&mut self) -> f64 {
        (self.word() >> 11) as f64 / 9_007_199_254_740_992.0
    }

    pub fn shuffle<T>(&mut self, values: &mut [T]) {
        for last in (1..values.len()).rev() {
            let other = self.below(last + 1);
            values.swap(last, other);
        }
    }
}

#[cfg(test)]
mod tests {
    use super::*;

    #[test]
    fn equal_seeds_give_equal_rows() {
        let mut one = Random::new(7);
        let mut two = Random::new(7);
        for _ in 0..100 {
            assert_eq!(one.word(), two.word());
        }
        assert_ne!(Random::new(1).word(), Random::new(2).word());
    }

    #[test]
    fn numbers_stay_in_their_range() {
        let mut random = Random::new(3);
        let mut seen = [0; 5];
        for _ in 0..5_000 {
            seen[random.below(5)] += 1;
            assert!((3..=9).contains(&random.between(3, 9)));
            assert!((0.0..1.0).contains(&random.unit()));
            assert_ne!(random.weighted(&[1, 0, 2]), 1);
        }
        assert!(seen.iter().all(|&count| count > 800));
        assert_eq!(random.below(0), 0);
    }

    #[test]
    fn a_shuffle_keeps_the_values() {
        let mut random = Random::new(11);
        let mut values: Vec<usize> = (0..40).collect();
        random.shuffle(&mut values);
        assert_ne!(values, (0..40).collect::<Vec<_>>());
        values.sort();
        assert_eq!(values, (0..40).collect::<Vec<_>>());
    }
}
