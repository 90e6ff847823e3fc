//! Calls, their text, and lists of them made from a seed.
//!
//! Every call made here lies in the Rust's own domain: an end at most the capacity, an index below it. A start may lie
//! anywhere, also above its end and above the capacity, where the Rust answers 0 or none.

use crate::random::Random;
use std::fmt;

pub const WORD: usize = 64;
pub const BLOCK: usize = 4096;
pub const CAPACITIES: [usize; 8] = [64, 128, 2048, 4096, 8192, 16384, 65536, 262144];

#[derive(Clone, Copy, Debug)]
pub enum Call {
    Assign(usize, usize, bool),
    Set(usize, bool),
    Get(usize),
    Count(usize, usize),
    NextOne(usize, usize),
    NextZero(usize, usize),
    /// No list has it: it is compare's alone.
    #[allow(dead_code)]
    Select(usize),
    Len,
    Capacity,
    Clear,
}

/// A call as one line of a list (lists.rs has the format).
impl fmt::Display for Call {
    fn fmt(&self, out: &mut fmt::Formatter) -> fmt::Result {
        match *self {
            Call::Assign(start, end, value) => write!(out, "a {start} {end} {}", value as u8),
            Call::Set(index, value) => write!(out, "s {index} {}", value as u8),
            Call::Get(index) => write!(out, "g {index}"),
            Call::Count(start, end) => write!(out, "c {start} {end}"),
            Call::NextOne(start, end) => write!(out, "o {start} {end}"),
            Call::NextZero(start, end) => write!(out, "z {start} {end}"),
            Call::Select(n) => write!(out, "p {n}"),
            Call::Len => write!(out, "l"),
            Call::Capacity => write!(out, "k"),
            Call::Clear => write!(out, "x"),
        }
    }
}

/// Makes the calls of one list. `reach` is the longest of its usual ranges and `ones` how many of 8 calls set: they
/// differ from list to list, so that sparse, dense and mixed sets come up.
pub struct Maker {
    pub random: Random,
    capacity: usize,
    reach: usize,
    ones: usize,
    last: usize,
    waiting: Vec<Call>,
}

impl Maker {
    pub fn new(capacity: usize, seed: u64) -> Self {
        let mut random = Random::new(seed);
        let reaches = [1, 63, 200, 5000, 100_000, capacity];
        let reach = reaches[random.below(reaches.len())].min(capacity);
        let ones = 1 + random.below(7);
        Maker { random, capacity, reach, ones, last: 0, waiting: Vec::new() }
    }

    /// `border`, or the position on either side of it.
    fn beside(&mut self, border: usize) -> usize {
        (border + self.random.below(3)).saturating_sub(1).min(self.capacity)
    }

    /// An end of a range, 0 up to and with the capacity: every other one on or beside a border.
    fn end(&mut self) -> usize {
        let at = match self.random.below(8) {
            0 | 1 => {
                let word = self.random.below(self.capacity / WORD + 1);
                self.beside(word * WORD)
            }
            2 => {
                let block = self.random.below(self.capacity / BLOCK + 1);
                self.beside(block * BLOCK)
            }
            3 => {
                let last = self.last;
                self.beside(last)
            }
            _ => self.random.below(self.capacity + 1),
        };
        self.last = at;
        at
    }

    fn index(&mut self) -> usize {
        self.end().min(self.capacity - 1)
    }

    fn range(&mut self) -> (usize, usize) {
        match self.random.below(16) {
            0 => (0, self.capacity),
            1 => {
                let end = self.end();
                (end + self.random.below(2 * self.capacity), end)
            }
            2 => {
                let block = self.random.below(self.capacity.div_ceil(BLOCK)) * BLOCK;
                (block, (block + BLOCK).min(self.capacity))
            }
            3 | 4 => {
                let first = self.random.below(self.capacity / WORD);
                let end = first + 1 + self.random.below(self.capacity / WORD - first);
                (first * WORD, end * WORD)
            }
            5..=8 => {
                let (a, b) = (self.end(), self.end());
                (a.min(b), a.max(b))
            }
            _ => {
                let start = self.end();
                (start, (start + 1 + self.random.below(self.reach)).min(self.capacity))
            }
        }
    }

    fn value(&mut self) -> bool {
        self.random.below(8) < self.ones
    }

    /// One call of a long mixed run.
    pub fn call(&mut self) -> Call {
        if let Some(call) = self.waiting.pop() {
            return call;
        }
        let kind = self.random.below(512);
        if kind == 0 {
            return Call::Clear;
        }
        if kind < 6 {
            self.reopen();
        }
        match kind % 16 {
            0..=4 => {
                let (start, end) = self.range();
                Call::Assign(start, end, self.value())
            }
            5 | 6 => Call::Set(self.index(), self.value()),
            7 => Call::Get(self.index()),
            8 | 9 => {
                let (start, end) = self.range();
                Call::Count(start, end)
            }
            10..=12 => {
                let (start, end) = self.range();
                Call::NextOne(start, end)
            }
            13 | 14 => {
                let (start, end) = self.range();
                Call::NextZero(start, end)
            }
            _ if kind < 256 => Call::Len,
            _ => Call::Capacity,
        }
    }

    /// Puts off calls that fill one block, open it, empty it and open it again, and look at it each time.
    fn reopen(&mut self) {
        let calls = {
            let block = self.random.below(self.capacity.div_ceil(BLOCK)) * BLOCK;
            self.reopened(block)
        };
        self.waiting.extend(calls.into_iter().rev());
    }

    /// The calls by which one block is filled, opened, filled, emptied and opened again, with looks in between.
    pub fn reopened(&mut self, block: usize) -> Vec<Call> {
        let end = (block + BLOCK).min(self.capacity);
        let first = self.random.once_in(2);
        let mut calls = Vec::new();
        for value in [first, !first, first] {
            calls.push(Call::Assign(block, end, value));
            self.look(block, end, &mut calls);
            let point = block + self.random.below(end - block);
            let word = block + self.random.below((end - block) / WORD) * WORD;
            calls.push(Call::Set(point, !value));
            self.look(block, end, &mut calls);
            calls.push(Call::Assign(word, word + WORD, !value));
            calls.push(Call::Set(point, value));
            self.look(block, end, &mut calls);
        }
        calls
    }

    fn look(&mut self, start: usize, end: usize, calls: &mut Vec<Call>) {
        let middle = start + self.random.below(end - start);
        calls.push(Call::Get(middle));
        calls.push(Call::Count(start, end));
        calls.push(Call::Count(start, middle));
        calls.push(Call::NextOne(start, end));
        calls.push(Call::NextZero(start, end));
        calls.push(Call::NextOne(middle, self.capacity));
        calls.push(Call::NextZero(middle, self.capacity));
        calls.push(Call::Len);
    }

    /// At each end that is given: an assignment up to it, and what is there afterwards.
    pub fn borders(&mut self, ends: &[usize]) -> Vec<Call> {
        let mut calls = Vec::new();
        for &end in ends {
            let start = self.end().min(end);
            calls.push(Call::Assign(start, end, self.value()));
            calls.push(Call::Count(self.end().min(end), end));
            calls.push(Call::NextOne(self.end().min(end), end));
            calls.push(Call::NextZero(self.end().min(end), end));
            let later = self.end().max(end);
            calls.push(Call::Count(end, later));
            calls.push(if self.random.once_in(2) { Call::NextOne(end, later) } else { Call::NextZero(end, later) });
        }
        calls
    }

    /// The ends on and beside every block border, and on and beside one of `step` word borders.
    pub fn border_ends(&mut self, step: usize) -> Vec<usize> {
        let mut ends = Vec::new();
        for word in 0..=self.capacity / WORD {
            let border = word * WORD;
            if border % BLOCK != 0 && !self.random.once_in(step) {
                continue;
            }
            ends.extend((border.saturating_sub(1)..=border + 1).filter(|&end| end <= self.capacity));
        }
        ends
    }
}
