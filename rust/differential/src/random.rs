//! A seedable generator of numbers: xorshift, with a multiplication behind it.

/// The generator's state, never 0.
#[derive(Clone, Debug)]
pub struct Random(u64);

impl Random {
    /// The generator of the text number `index` in a run with this seed: any text can be made again on its own.
    pub fn of(seed: u64, index: u64) -> Random {
        let mut state = seed
            .wrapping_mul(0x9E37_79B9_7F4A_7C15)
            .wrapping_add(index.wrapping_mul(0xD1B5_4A32_D192_ED03))
            ^ 0x2545_F491_4F6C_DD1D;
        state ^= state >> 31;
        state = state.wrapping_mul(0xBF58_476D_1CE4_E5B9);
        state ^= state >> 29;
        Random(state | 1)
    }

    /// The next number.
    pub fn next(&mut self) -> u64 {
        self.0 ^= self.0 >> 12;
        self.0 ^= self.0 << 25;
        self.0 ^= self.0 >> 27;
        self.0.wrapping_mul(0x2545_F491_4F6C_DD1D)
    }

    /// A number below `bound`, or 0 where the bound is 0.
    pub fn below(&mut self, bound: usize) -> usize {
        let wide = u128::from(self.next() >> 32).wrapping_mul(bound as u128) >> 32;
        usize::try_from(wide).unwrap_or(0)
    }

    /// True once in so many times.
    pub fn once_in(&mut self, times: usize) -> bool {
        self.below(times) == 0
    }

    /// One of the items, or the default where there is none.
    pub fn pick<T: Copy + Default>(&mut self, items: &[T]) -> T {
        items
            .get(self.below(items.len()))
            .copied()
            .unwrap_or_default()
    }
}

#[cfg(test)]
mod tests {
    use super::Random;

    #[test]
    fn the_same_seed_and_index_give_the_same_numbers() {
        let (mut one, mut two) = (Random::of(7, 3), Random::of(7, 3));
        assert!((0..100).all(|_| one.next() == two.next()));
    }

    #[test]
    fn every_number_below_a_bound_comes_up() {
        let mut random = Random::of(1, 1);
        let mut seen = [false; 7];
        for _ in 0..1000 {
            seen[random.below(7)] = true;
        }
        assert_eq!(seen, [true; 7]);
    }
}
