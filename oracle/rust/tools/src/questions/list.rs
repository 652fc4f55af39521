//! Whole lists of questions: they can be printed from end to end, or walked.

use crate::random::Random;

/// A list whose questions are known by their places.
pub struct List {
    pub length: u64,
    pub at: fn(place: u64) -> Vec<u8>,
}

impl List {
    /// The n-th question of a walk. It starts at a place that depends on the
    /// seed and comes to every place once, in steps so wide that a short walk
    /// is spread over the whole list.
    pub fn walk(&self, seed: u64, n: u64) -> Vec<u8> {
        (self.at)(walked(self.length, seed, n))
    }
}

/// The place of the n-th question of a walk through so many.
pub fn walked(length: u64, seed: u64, n: u64) -> u64 {
    let offset = Random::new(&[seed]).below(length);
    let gone = (n % length) * step(length) % length;
    (offset + gone) % length
}

/// About the golden part of the length, and without a factor in common with
/// it. The length is below 2^32.
fn step(length: u64) -> u64 {
    let mut step = length * 618_034 / 1_000_000;
    while common_factor(step, length) != 1 {
        step += 1;
    }
    step
}

fn common_factor(a: u64, b: u64) -> u64 {
    if b == 0 {
        a
    } else {
        common_factor(b, a % b)
    }
}
