//! Seeded numbers (SplitMix64), the same on every machine.

const STEP: u64 = 0x9E37_79B9_7F4A_7C15;

pub struct Random {
    state: u64,
}

impl Random {
    /// The numbers of one item: they hang on the seed and the item's number alone, so any shard can make any item.
    pub fn of_item(seed: u64, number: u64) -> Random {
        let state = mix(mix(seed.wrapping_add(STEP)).wrapping_add(number));
        Random { state }
    }

    fn next(&mut self) -> u64 {
        self.state = self.state.wrapping_add(STEP);
        mix(self.state)
    }

    /// A number below `bound`, which isn't 0.
    pub fn below(&mut self, bound: usize) -> usize {
        (self.next() % bound as u64) as usize
    }

    /// A number from `low` to `high`, both included.
    pub fn within(&mut self, low: usize, high: usize) -> usize {
        low + self.below(high - low + 1)
    }

    pub fn once_in(&mut self, times: usize) -> bool {
        self.below(times) == 0
    }

    pub fn one_of<'a, T>(&mut self, all: &'a [T]) -> &'a T {
        &all[self.below(all.len())]
    }

    pub fn byte(&mut self) -> u8 {
        self.next().to_le_bytes()[0]
    }
}

fn mix(state: u64) -> u64 {
    let z = (state ^ (state >> 30)).wrapping_mul(0xBF58_476D_1CE4_E5B9);
    let z = (z ^ (z >> 27)).wrapping_mul(0x94D0_49BB_1331_11EB);
    z ^ (z >> 31)
}

#[cfg(test)]
mod tests {
    use super::*;

    fn first(seed: u64, number: u64) -> u64 {
        Random::of_item(seed, number).next()
    }

    #[test]
    fn seed_and_number_decide() {
        assert_eq!(first(1, 7), first(1, 7));
        assert_ne!(first(1, 7), first(1, 8));
        assert_ne!(first(1, 7), first(2, 7));
        assert_ne!(first(1, 0), first(0, 1));
    }

    #[test]
    fn bounds_are_kept_and_met() {
        let mut random = Random::of_item(3, 3);
        let drawn: Vec<usize> = (0..500).map(|_| random.within(2, 5)).collect();
        assert!((2..=5).all(|wanted| drawn.contains(&wanted)));
        assert!(drawn.iter().all(|one| (2..=5).contains(one)));
    }
}
