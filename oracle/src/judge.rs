//! The Rust as judge: its answer to each call.

use crate::calls::Call;
use crate::original::RangeBitset;

pub struct Judge {
    set: RangeBitset,
}

impl Judge {
    pub fn new(capacity: usize) -> Self {
        Judge { set: RangeBitset::new(capacity) }
    }

    /// The Rust's own answer; none where a search finds nothing. Its `clear` answers nothing, so here the answer is how many
    /// positions there were to clear.
    pub fn ask(&mut self, call: Call) -> Option<u64> {
        let set = &mut self.set;
        match call {
            Call::Assign(start, end, value) => Some(set.assign(start, end, value).into()),
            Call::Set(index, value) => Some(set.set(index, value).into()),
            Call::Get(index) => Some(set.get(index).into()),
            Call::Count(start, end) => Some(set.count(start, end).into()),
            Call::NextOne(start, end) => set.next_one(start, end).map(|at| at as u64),
            Call::NextZero(start, end) => set.next_zero(start, end).map(|at| at as u64),
            Call::Select(n) => self.ones().get(n).copied(),
            Call::Len => Some(set.len().into()),
            Call::Capacity => Some(set.capacity() as u64),
            Call::Clear => {
                let before = set.len();
                set.clear();
                Some(before.into())
            }
        }
    }

    /// The first position from `start` on that has another value, or `end`, by a walk that asks `get` of each.
    pub fn walk(&self, start: usize, end: usize, value: bool) -> usize {
        (start..end).find(|&at| self.set.get(at) != value).unwrap_or(end)
    }

    /// Every set position, by a walk from 0 that asks `get` of each. The one at n has exactly n set positions before it and is
    /// set itself: it is select's answer, which the Rust has no call for.
    pub fn ones(&self) -> Vec<u64> {
        let mut ones = Vec::with_capacity(self.set.len() as usize);
        for at in 0..self.set.capacity() {
            if self.set.get(at) {
                ones.push(at as u64);
            }
        }
        ones
    }
}
