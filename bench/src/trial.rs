//! The trials of select and of the combinations in Rust, which read the Rust's own fields: oracle/build puts them at the end of a copy of
//! the Rust.

use crate::Set;
use crate::combine::Combine;

macro_rules! count_work {
    ($counter:ident) => {};
}

#[allow(dead_code, unused_parens)]
#[path = "../../target/oracle/with_trials.rs"]
mod with_trials;

/// Apart from the Rust of the other rows, which stays as it is.
pub struct Trial(with_trials::RangeBitset);

impl Set for Trial {
    fn new(capacity: usize) -> Self {
        Trial(with_trials::RangeBitset::new(capacity))
    }
    fn assign(&mut self, start: usize, end: usize, value: bool) -> u32 {
        self.0.assign(start, end, value)
    }
    fn set(&mut self, index: usize, value: bool) -> bool {
        self.0.set(index, value)
    }
    fn get(&self, index: usize) -> bool {
        self.0.get(index)
    }
    fn count(&self, start: usize, end: usize) -> u32 {
        self.0.count(start, end)
    }
    fn next_one(&self, start: usize, end: usize) -> Option<usize> {
        self.0.next_one(start, end)
    }
    fn next_zero(&self, start: usize, end: usize) -> Option<usize> {
        self.0.next_zero(start, end)
    }
    fn select(&self, n: usize) -> Option<usize> {
        self.0.select(n as u32)
    }
}

impl Combine for Trial {
    fn combine(&self, other: &Self, third: &mut Self, rule: usize) -> u64 {
        self.0.combine(&other.0, &mut third.0, rule as u32) as u64
    }
}
