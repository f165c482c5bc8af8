//! A small generator of random numbers.

/// The state of the generator.
pub struct Random {
    state: u64,
}

impl Random {
    /// Starts the generator for one image of a seed.
    pub fn new(seed: u64, number: u64) -> Random {
        let mut random = Random { state: seed };
        random.state = random.next() ^ number.wrapping_mul(0xd134_2543_de82_ef95);
        random.next();
        random
    }

    /// Gives the next 64 random bits.
    pub fn next(&mut self) -> u64 {
        self.state = self.state.wrapping_add(0x9e37_79b9_7f4a_7c15);
        let mut mixed = self.state;
        mixed = (mixed ^ mixed >> 30).wrapping_mul(0xbf58_476d_1ce4_e5b9);
        mixed = (mixed ^ mixed >> 27).wrapping_mul(0x94d0_49bb_1331_11eb);
        mixed ^ mixed >> 31
    }

    /// Gives a random number below a limit.
    pub fn below(&mut self, limit: u64) -> u64 {
        (self.next() >> 32) * limit >> 32
    }

    /// Gives a random number below a limit as a word.
    pub fn word_below(&mut self, limit: u32) -> u32 {
        self.below(limit as u64) as u32
    }

    /// Is true once in so many times.
    pub fn one_in(&mut self, times: u64) -> bool {
        self.below(times) == 0
    }

    /// Picks one of several things.
    pub fn pick<T: Copy>(&mut self, things: &[T]) -> T {
        things[self.below(things.len() as u64) as usize]
    }
}

#[cfg(test)]
mod tests {
    use super::*;

    #[test]
    fn limits_hold_and_all_values_occur() {
        let mut random = Random::new(1, 2);
        let mut seen = [0; 7];
        for _ in 0..700 {
            seen[random.below(7) as usize] += 1;
        }
        assert!(seen.iter().all(|count| *count > 40), "{seen:?}");
        assert_eq!(random.below(1), 0);
    }

    #[test]
    fn numbers_of_a_seed_differ() {
        let firsts: Vec<u64> = (0..50).map(|number| Random::new(9, number).next()).collect();
        let mut sorted = firsts.clone();
        sorted.sort_unstable();
        sorted.dedup();
        assert_eq!(sorted.len(), firsts.len());
    }
}
