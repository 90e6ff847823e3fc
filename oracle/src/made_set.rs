//! Sets that calls make, each beside a plain array of its positions: sparse and dense ones, empty and full ones, ones of whole
//! words and blocks, and ones with as many runs as the capacity can have.

use crate::guarded::*;
use crate::lent::*;
use crate::port::*;
use crate::random::Random;

const WORD: usize = 64;
const BLOCK: usize = 4096;

/// A capacity for such a set, mostly a small one.
pub fn any_capacity(random: &mut Random) -> usize {
    match random.below(128) {
        0 => 262144,
        1..=12 => 64 << random.below(13),
        _ => [64, 128, 256, 4096, 8192, 16384][random.below(6)],
    }
}

pub struct Made<'a> {
    pub head: Head,
    pub storage: Lent<'a, u64>,
    /// Whether the set has each position.
    pub has: Vec<bool>,
}

impl<'a> Made<'a> {
    /// A fresh set: it is empty and its flag is clear. The storage holds random numbers.
    pub fn new(room: &'a mut Room<u64>, random: &mut Random, capacity: usize) -> Self {
        let more = if random.once_in(4) { random.below(20) } else { 0 };
        let storage = Lent::new("storage", room, random, needed(capacity / WORD) + more, filling);
        Made { head: unsafe { klado_set_new(capacity) }.head, storage, has: vec![false; capacity] }
    }

    fn capacity(&self) -> usize {
        self.has.len()
    }

    pub fn assign(&mut self, start: usize, end: usize, value: bool) {
        let (head, storage, len) = (self.head, self.storage.first(), self.storage.len());
        let answer = unsafe {
            if end == start + 1 {
                klado_set_set(head, storage, len, start, value)
            } else {
                klado_set_assign(head, storage, len, start, end, value)
            }
        };
        same((head, start, end, value), "making a set was refused", answer.refused, 0);
        self.head = answer.head;
        self.has[start..end].fill(value);
    }

    fn empty(&mut self) {
        self.head = unsafe { klado_set_clear(self.head, self.storage.first(), self.storage.len()) }.head;
        self.has.fill(false);
    }

    /// Runs of `run` positions with `gap` between them.
    fn stripes(&mut self, from: usize, run: usize, gap: usize) {
        for start in (from..self.capacity()).step_by(run + gap) {
            self.assign(start, (start + run).min(self.capacity()), true);
        }
    }

    /// A border of a word or a block, or the position on either side of it.
    fn border(&self, random: &mut Random) -> usize {
        let unit = if random.once_in(3) { BLOCK } else { WORD };
        let border = random.below(self.capacity() / unit + 1) * unit;
        (border + random.below(3)).saturating_sub(1).min(self.capacity())
    }

    /// Whole blocks, whole words, ends on or beside borders, or a range of up to `reach`.
    fn range(&self, random: &mut Random, reach: usize) -> (usize, usize) {
        let capacity = self.capacity();
        let (a, b) = match random.below(8) {
            unit @ (0 | 1) => {
                let unit = [BLOCK, WORD][unit].min(capacity);
                (random.below(capacity / unit + 1) * unit, random.below(capacity / unit + 1) * unit)
            }
            2..=4 => (self.border(random), self.border(random)),
            _ => {
                let start = random.below(capacity);
                (start, (start + 1 + random.below(reach)).min(capacity))
            }
        };
        (a.min(b), a.max(b))
    }

    /// Some points or ranges, of which `ones` in 8 are set.
    fn scatter(&mut self, random: &mut Random, reach: usize, ones: usize) {
        for _ in 0..1 + random.below(40) {
            let (start, end) = if reach == 1 {
                let at = random.below(self.capacity());
                (at, at + 1)
            } else {
                self.range(random, reach)
            };
            self.assign(start, end, random.below(8) < ones);
        }
    }

    /// Gives the set another shape, from nothing or over what it has.
    pub fn change(&mut self, random: &mut Random) {
        let capacity = self.capacity();
        if random.once_in(2) {
            self.empty();
        }
        match random.below(12) {
            0 => {}
            1 => self.assign(0, capacity, random.once_in(2)),
            2 => {
                self.assign(0, capacity, true);
                self.scatter(random, 1, 0);
            }
            3 => self.scatter(random, 1, 8),
            4 | 5 => {
                self.assign(0, capacity, false);
                self.stripes(random.below(2), 1, 1);
            }
            6 | 7 => {
                let lengths = [1, 2, 3, 63, 64, 65, 128, 4095, 4096, 4097];
                let (run, gap) = (lengths[random.below(10)], lengths[random.below(10)]);
                let from = [0, gap, random.below(gap)][random.below(3)];
                self.stripes(from, run, gap);
            }
            _ => {
                let reach = [1, 3, 70, 5000, capacity][random.below(5)];
                let ones = 1 + random.below(8);
                self.scatter(random, reach, ones);
            }
        }
        let population = self.has.iter().filter(|has| **has).count();
        same(self.head, "the set made has a population of", self.head.len as usize, population);
        self.storage.hold(0..needed(capacity / WORD), self.head);
    }
}
