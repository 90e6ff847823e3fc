//! A plain audit: 01's rules of soundness, looked at bit by bit and word by word.

use crate::port::*;

fn has(mask: u64, bit: usize) -> bool {
    mask >> bit & 1 == 1
}

/// Nonzero has no bit at or above `end`, and full lies within it.
fn masks_agree(nonzero: u64, full: u64, end: usize) -> bool {
    (0..64).all(|bit| (!has(nonzero, bit) || bit < end) && (!has(full, bit) || has(nonzero, bit)))
}

/// What the words of a mixed block read, if it meets the rules: its population.
fn mixed_block(storage: &[u64], words: usize, block: usize) -> Option<u64> {
    let blocks = words.div_ceil(64);
    let [nonzero, full, population] = [0, 1, 2].map(|row| storage[words + row * blocks + block]);
    let end = 64.min(words - 64 * block);
    if !masks_agree(nonzero, full, end) || nonzero == 0 || (0..end).all(|word| has(full, word)) {
        return None;
    }
    let mut sum = 0;
    for word in 0..end {
        let stored = storage[64 * block + word];
        sum += match (has(full, word), has(nonzero, word)) {
            (true, _) => 64,
            (false, false) => 0,
            (false, true) if stored == 0 || stored == u64::MAX => return None,
            (false, true) => stored.count_ones() as u64,
        };
    }
    (sum == population).then_some(sum)
}

/// Whether a head that is not refused and its storage are sound.
pub fn sound(head: Head, storage: &[u64]) -> bool {
    if head.allocated == 0 {
        return head.len == 0;
    }
    let words = head.words as usize;
    let blocks = words.div_ceil(64);
    let [nonzero, full] = [0, 1].map(|top| storage[words + 3 * blocks + top]);
    let population = |block: usize| match (has(full, block), has(nonzero, block)) {
        (true, _) => Some(64 * 64.min(words - 64 * block) as u64),
        (false, false) => Some(0),
        (false, true) => mixed_block(storage, words, block),
    };
    masks_agree(nonzero, full, blocks) && (0..blocks).map(population).sum::<Option<u64>>() == Some(head.len as u64)
}
