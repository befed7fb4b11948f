//! Makes blocks that break a rule.

use super::block::Block;
use crate::rng::Rng;

/// What is added to a size so that only its low 32 bits stay right.
const BEYOND_32_BITS: u64 = 1 << 32;

/// Sizes that no generated file has room for.
const EXTREMES: &[u64] = &[
    u64::MAX,
    u64::MAX - 1,
    1 << 63,
    (1 << 63) - 1,
    1 << 33,
    1 << 32,
    (1 << 32) - 1,
    1 << 31,
    1 << 20,
];

impl Block {
    /// Changes a field of the block, which begins at `at`, so that it mostly breaks a rule. A
    /// streamed block may stay good.
    pub fn make_wrong(&mut self, rng: &mut Rng, at: usize) {
        match rng.below(6) {
            0 => self.header_size = rng.pick(&[0, 1, 6, 42, 46, 47, 47, 47]),
            1 => self.header_size = rng.pick(&[49, 255, 4_096, 0x8000, u16::MAX]),
            2 => self.use_more_than_allocated(rng),
            3 => self.data_size = other_size(rng, self.used),
            4 => self.fill_sizes(u64::MAX),
            _ => self.allocate_past_the_end(rng, at),
        }
    }

    /// Makes the used size larger than the allocated size (13).
    fn use_more_than_allocated(&mut self, rng: &mut Rng) {
        self.used = match rng.below(3) {
            0 => rng.pick(EXTREMES),
            1 => self.allocated.wrapping_add(BEYOND_32_BITS),
            _ => self.allocated.wrapping_add(1),
        };
        self.data_size = self.used;
    }

    /// Makes the allocated space end after the end of the file. Cut to 32 or 64 bits, its end may
    /// be inside the file (15).
    fn allocate_past_the_end(&mut self, rng: &mut Rng, at: usize) {
        let wrapped_end = rng.pick(&[0, 1, at as u64]);
        self.allocated = match rng.below(6) {
            0 => self.allocated.wrapping_add(1),
            1 => self.allocated.wrapping_add(rng.between(1, 100) as u64),
            2 => rng.pick(EXTREMES),
            3 => self.allocated.wrapping_add(BEYOND_32_BITS),
            _ => wrapped_end.wrapping_sub(self.content_start(at)),
        };
        if rng.chance(3) {
            self.fill_sizes(self.allocated);
        }
    }
}

/// Makes a size that is near this one, has the same low bits, or is extreme.
fn other_size(rng: &mut Rng, size: u64) -> u64 {
    match rng.below(4) {
        0 => size.wrapping_add(1),
        1 => size.wrapping_sub(1),
        2 => size.wrapping_add(BEYOND_32_BITS),
        _ => rng.pick(EXTREMES),
    }
}
