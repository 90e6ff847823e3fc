//! What one list of a ledger's calls goes by: how long its ranges are, and how often it marks and takes back.

use crate::guarded::position;
use crate::ledger_model::Machine;
use crate::random::Random;

pub struct Ways {
    /// The longest of the usual ranges.
    reach: usize,
    /// How many of 8 calls mark.
    pub ones: usize,
    /// How many of 64 calls take back.
    pub backs: usize,
}

impl Ways {
    pub fn new(random: &mut Random, capacity: usize) -> Self {
        let reach = [1, 3, 20, 200, capacity][random.below(5)].min(capacity);
        Ways { reach, ones: 1 + random.below(7), backs: 2 + random.below(28) }
    }

    pub fn range(&self, random: &mut Random, machine: &Machine, value: bool) -> (usize, usize) {
        let capacity = machine.capacity();
        let start = random.below(capacity);
        match random.below(16) {
            0 => (position(random, capacity), position(random, capacity)),
            1 => (0, capacity),
            // the last end for which the journal has room, or the one past it
            2 | 3 => (start, machine.last_end(start, value) + random.below(2)),
            4 | 5 => {
                let (a, b) = (random.below(capacity / 64 + 1), random.below(capacity / 64 + 1));
                (64 * a.min(b), 64 * a.max(b))
            }
            // nothing to change: all that has the value already from there on, a part of it, or no position at all
            6..=8 => {
                let end = machine.idle_end(start, value);
                (start, if random.once_in(2) { end } else { start + random.below(end - start + 1) })
            }
            _ => (start, (start + random.below(self.reach + 1)).min(capacity)),
        }
    }
}
