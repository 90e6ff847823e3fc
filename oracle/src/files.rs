//! Saved lists from a seed: the runs of good ones, and files with something wrong.

use crate::random::Random;
use crate::saved_list::saved;

/// How long the runs and gaps of a file mostly are.
pub fn any_reach(random: &mut Random) -> usize {
    [1, 2, 8, 70, 500, 5000][random.below(6)]
}

/// Ascending runs below the capacity that do not touch, at most `most`, they and the gaps mostly up to `reach` long.
pub fn any_runs(random: &mut Random, capacity: usize, most: usize, reach: usize) -> Vec<(u32, u32)> {
    let count = random.below(most + 1);
    let (mut runs, mut end) = (Vec::new(), 0);
    while runs.len() < count {
        let start = end + random.below(reach) + !runs.is_empty() as usize;
        if start >= capacity {
            break;
        }
        end = (start + 1 + random.below(reach)).min(capacity);
        runs.push((start as u32, end as u32));
    }
    runs
}

/// One run that mostly breaks its rule.
fn spoil_run(random: &mut Random, runs: &mut [(u32, u32)], capacity: u32) {
    let at = random.below(runs.len());
    let before = if at == 0 { (0, 0) } else { runs[at - 1] };
    runs[at] = match random.below(6) {
        0 => (runs[at].0, runs[at].0),
        1 => (runs[at].1, runs[at].0),
        2 => (runs[at].0, capacity + random.below(2) as u32),
        3 => (before.1, runs[at].1),
        4 => (before.0, runs[at].1),
        _ => (random.next() as u32 >> random.below(32), random.next() as u32 >> random.below(32)),
    };
}

/// The file with the damage of that kind, or as it is.
fn damaged(random: &mut Random, kind: usize, mut file: Vec<u8>) -> Vec<u8> {
    match kind {
        1 => return (0..random.below(40)).map(|_| random.next() as u8).collect(),
        2 => {
            for _ in 0..1 + random.below(2) {
                let at = random.below(file.len());
                file[at] ^= 1 << random.below(8);
            }
        }
        3 => file.truncate(random.below(file.len() + 1)),
        4 => file.extend((0..1 + random.below(17)).map(|_| random.next() as u8)),
        // a run count whose 8 bytes a run would wrap in 32 bits to the right length
        5 => file[7] |= 0x20 << random.below(3),
        6 => {
            let words = [0, 3, 8192, 0x8000, 0xffff, random.below(1 << 16)][random.below(6)] as u16;
            file[5..7].copy_from_slice(&words.to_be_bytes());
        }
        7 => file[random.below(5)] = random.next() as u8,
        _ => {}
    }
    file
}

/// A saved list with something wrong, mostly.
pub fn any_file(random: &mut Random, words: usize) -> Vec<u8> {
    let capacity = 64 * words as u32;
    let most = if random.once_in(8) { 300 } else { 12 };
    let reach = any_reach(random);
    let mut runs = any_runs(random, capacity as usize, most, reach);
    let kind = random.below(10);
    if kind == 0 && !runs.is_empty() {
        spoil_run(random, &mut runs, capacity);
    }
    damaged(random, kind, saved(words as u16, &runs))
}
