//! The ordinals that compare asks of a set whose positions a walk has found, in ascending order.

use crate::calls::{BLOCK, WORD};
use crate::random::Random;

/// Those about the population, the capacity and 2^32, and far above, of which some are small in their low half; those of the
/// last position before each border and of the next two; and some that are drawn.
pub fn ordinals(ones: &[u64], capacity: usize, random: &mut Random) -> Vec<usize> {
    let population = ones.len();
    let mut asked = vec![0, 1, population.saturating_sub(1), population, population + 1];
    asked.extend(capacity - 1..=capacity + 1);
    asked.extend([u32::MAX as usize, usize::MAX - 1, usize::MAX, random.next() as usize]);
    asked.extend([1 << 32, (1 << 32) + random.below(population + 1), (1 << 63) + random.below(population + 1)]);
    for border in borders(ones, capacity, random) {
        let before = ones.partition_point(|&at| at < border as u64);
        asked.extend(before.saturating_sub(1)..=before + 1);
    }
    asked.extend((0..16).map(|_| random.below(population + 1)));
    asked
}

/// The borders of every block, and of every word where there is one block, else of 64 words. Of those every other one is a
/// word where a run starts or ends: it is mixed, or stands beside full or empty ones, which are easily missed in a large set.
fn borders(ones: &[u64], capacity: usize, random: &mut Random) -> Vec<usize> {
    if capacity <= BLOCK {
        return (0..=capacity).step_by(WORD).collect();
    }
    let mut borders: Vec<usize> = (0..=capacity).step_by(BLOCK).collect();
    let starts: Vec<usize> = (1..ones.len()).filter(|&n| ones[n] != ones[n - 1] + 1).collect();
    for turn in 0..64 {
        let word = if turn % 2 == 0 || starts.is_empty() {
            random.below(capacity / WORD)
        } else {
            let start = starts[random.below(starts.len())];
            ones[start - random.below(2)] as usize / WORD
        };
        borders.extend([word * WORD, (word + 1) * WORD]);
    }
    borders
}
