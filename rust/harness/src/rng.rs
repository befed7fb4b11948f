//! A small source of random numbers (SplitMix64). The same seed gives the same numbers.

/// The step between two states: an odd number near 2^64 divided by the golden ratio.
const STEP: u64 = 0x9E37_79B9_7F4A_7C15;

/// A source of random numbers.
pub struct Rng {
    state: u64,
}

impl Rng {
    /// The source for the file with this number in the run with this seed.
    pub fn for_file(seed: u64, number: u64) -> Rng {
        let run = Rng { state: seed }.word();
        Rng {
            state: Rng {
                state: run ^ number,
            }
            .word(),
        }
    }

    /// Any 64 bits.
    pub fn word(&mut self) -> u64 {
        self.state = self.state.wrapping_add(STEP);
        let mixed = (self.state ^ self.state >> 30).wrapping_mul(0xBF58_476D_1CE4_E5B9);
        let mixed = (mixed ^ mixed >> 27).wrapping_mul(0x94D0_49BB_1331_11EB);
        mixed ^ mixed >> 31
    }

    /// Any byte.
    pub fn byte(&mut self) -> u8 {
        self.word() as u8
    }

    /// A number below `bound`, or 0 if `bound` is 0.
    pub fn below(&mut self, bound: usize) -> usize {
        match bound {
            0 => 0,
            _ => (self.word() % bound as u64) as usize,
        }
    }

    /// A number from `least` to `most`, both included.
    pub fn between(&mut self, least: usize, most: usize) -> usize {
        least + self.below(most - least + 1)
    }

    /// True in one of `one_in` cases on average.
    pub fn chance(&mut self, one_in: usize) -> bool {
        self.below(one_in) == 0
    }

    /// One of the choices. There must be at least one.
    pub fn pick<T: Copy>(&mut self, choices: &[T]) -> T {
        choices[self.below(choices.len())]
    }

    /// `length` bytes of any value.
    pub fn bytes(&mut self, length: usize) -> Vec<u8> {
        (0..length).map(|_| self.byte()).collect()
    }

    /// `length` bytes, each of them one of the choices.
    pub fn bytes_of(&mut self, choices: &[u8], length: usize) -> Vec<u8> {
        (0..length).map(|_| self.pick(choices)).collect()
    }
}

#[cfg(test)]
mod tests {
    use super::*;

    #[test]
    fn same_file_number_gives_the_same_words_and_another_gives_others() {
        let word = |seed, number| Rng::for_file(seed, number).word();
        assert_eq!(word(1, 2), word(1, 2));
        assert_ne!(word(1, 2), word(2, 1));
        assert_ne!(word(1, 2), word(1, 3));
    }

    #[test]
    fn numbers_keep_their_bounds() {
        let mut rng = Rng::for_file(0, 0);
        assert_eq!(rng.below(0), 0);
        for _ in 0..1_000 {
            assert!(rng.below(3) < 3);
            assert!((5..=7).contains(&rng.between(5, 7)));
            assert!(rng.chance(1));
        }
    }
}
