//! The rows of the combinations, which the Rust has not: the port beside libroaring's and, or and andnot into a new bitmap with its
//! cardinality, beside a plain loop over the words of both sets with a count, and, where its source is found, beside a trial in Rust.
//!
//! Eight sets are filled as for the other rows, each by its own assignments, and each is combined with the next, in turn: with one
//! pair alone the processor learns by heart how its branches go. The plain loop is compiled twice, as the rest of the driver is, and
//! with the instruction that counts bits, which the port's archive uses. All sides must give the same sum of populations.

use super::{Nothing, Port, RangeBitset, Set, Third, drawn};
use crate::port::*;
use std::hint::black_box;
use std::time::Instant;

#[cfg(trial)]
type Trial = super::trial::Trial;
#[cfg(not(trial))]
type Trial = Nothing;

pub const SETS: usize = 8;
const RULES: [&str; 3] = ["both", "either", "without"];

/// A set that can be combined with another into a third: how many positions the third has.
pub trait Combine: Set {
    fn combine(&self, other: &Self, third: &mut Self, rule: usize) -> u64;
}

impl Combine for Nothing {
    fn combine(&self, _: &Self, _: &mut Self, _: usize) -> u64 {
        0
    }
}

impl Combine for Port {
    fn combine(&self, other: &Self, third: &mut Self, rule: usize) -> u64 {
        let call = [klado_set_both, klado_set_either, klado_set_without][rule];
        let (first, second, len) = (&self.storage, &other.storage, third.storage.len());
        let (to, scratch) = (third.storage.as_mut_ptr(), third.scratch.as_mut_ptr());
        let answer = unsafe {
            let (from, beside) = (first.as_ptr(), second.as_ptr());
            call(self.head, from, first.len(), other.head, beside, second.len(), to, len, scratch, third.scratch.len())
        };
        assert!(answer.refused == 0);
        third.head = answer.head;
        answer.head.len as u64
    }
}

/// The words alone. The Rust's set fills them.
struct Plain<const COUNTS: bool> {
    words: Vec<u64>,
}

#[inline(always)]
fn plain_loop(x: &[u64], y: &[u64], third: &mut [u64], rule: impl Fn(u64, u64) -> u64) -> u64 {
    let mut count = 0;
    for ((&x, &y), third) in x.iter().zip(y).zip(third) {
        *third = rule(x, y);
        count += third.count_ones() as u64;
    }
    count
}

#[inline(always)]
fn plain(x: &[u64], y: &[u64], third: &mut [u64], rule: usize) -> u64 {
    match rule {
        0 => plain_loop(x, y, third, |x, y| x & y),
        1 => plain_loop(x, y, third, |x, y| x | y),
        _ => plain_loop(x, y, third, |x, y| x & !y),
    }
}

#[inline(never)]
fn as_compiled(x: &[u64], y: &[u64], third: &mut [u64], rule: usize) -> u64 {
    plain(x, y, third, rule)
}

#[target_feature(enable = "popcnt,sse4.2")]
#[inline(never)]
fn with_counts(x: &[u64], y: &[u64], third: &mut [u64], rule: usize) -> u64 {
    plain(x, y, third, rule)
}

impl<const COUNTS: bool> Plain<COUNTS> {
    fn of(set: &RangeBitset) -> Self {
        let word = |k: usize| (0..64).fold(0, |word, bit| word | (set.get(64 * k + bit) as u64) << bit);
        Plain { words: (0..set.capacity() / 64).map(word).collect() }
    }

    fn combine(&self, other: &Self, third: &mut Self, rule: usize) -> u64 {
        if COUNTS {
            unsafe { with_counts(&self.words, &other.words, &mut third.words, rule) }
        } else {
            as_compiled(&self.words, &other.words, &mut third.words, rule)
        }
    }
}

/// Sets filled by ranges of up to `fill` positions, the same on every side.
pub fn filled<S: Set>(capacity: usize, fill: u64, assignments: u64) -> Vec<S> {
    let mut random = 1;
    let mut draw = || {
        random = drawn(random);
        random
    };
    let capacity = capacity as u64;
    let mut set = || {
        let mut set = S::new(capacity as usize);
        for _ in 0..assignments {
            let start = draw() & (capacity - 1);
            let end = (start + draw() % fill).min(capacity);
            set.assign(start as usize, end as usize, draw() % 2 == 0);
        }
        set
    };
    (0..SETS).map(|_| set()).collect()
}

/// One side of a row: the sum of its populations and the least time of a call.
struct Side<S> {
    sets: Vec<S>,
    third: S,
    sum: u64,
    least: f64,
}

impl<S> Side<S> {
    fn new(sets: Vec<S>, third: S) -> Self {
        Side { sets, third, sum: 0, least: f64::INFINITY }
    }

    #[inline(never)]
    fn round(&mut self, calls: u64, combine: impl Fn(&S, &S, &mut S) -> u64) {
        let begun = Instant::now();
        for call in 0..calls as usize {
            let (first, second) = (&self.sets[call % SETS], &self.sets[(call + 1) % SETS]);
            self.sum += combine(first, second, &mut self.third);
        }
        black_box(&self.third);
        black_box(self.sum);
        self.least = self.least.min(begun.elapsed().as_nanos() as f64 / calls as f64);
    }
}

fn side<S: Set>(capacity: usize, fill: u64, assignments: u64) -> Side<S> {
    Side::new(filled(capacity, fill, assignments), S::new(capacity))
}

/// The ratios of a row: the port to libroaring, if that is there, and to the plain loop that counts by the instruction.
struct Ratios {
    roaring: Option<f64>,
    plain: f64,
}

/// One row, or the words that say that a side does not agree.
fn row(capacity: usize, fill: u64, rule: usize, calls: u64, assignments: u64, rounds: usize) -> Result<Ratios, String> {
    let rust = filled::<RangeBitset>(capacity, fill, assignments);
    let mut port = side::<Port>(capacity, fill, assignments);
    let mut third = side::<Third>(capacity, fill, assignments);
    let mut trial = side::<Trial>(capacity, fill, assignments);
    let empty = RangeBitset::new(capacity);
    let mut plain = Side::new(rust.iter().map(Plain::<false>::of).collect(), Plain::of(&empty));
    let mut counting = Side::new(rust.iter().map(Plain::<true>::of).collect(), Plain::of(&empty));
    for _ in 0..rounds {
        port.round(calls, |x, y, third| x.combine(y, third, rule));
        third.round(calls, |x, y, third| x.combine(y, third, rule));
        trial.round(calls, |x, y, third| x.combine(y, third, rule));
        plain.round(calls, |x, y, third| x.combine(y, third, rule));
        counting.round(calls, |x, y, third| x.combine(y, third, rule));
    }
    let sums = [("roaring", cfg!(roaring), third.sum), ("trial", cfg!(trial), trial.sum), ("plain", true, plain.sum)];
    let name = format!("{} after {fill}", RULES[rule]);
    for (side, there, sum) in sums.into_iter().chain([("the counting plain", true, counting.sum)]) {
        if there && sum != port.sum {
            return Err(format!("{name}: the port's populations sum to {}, {side}'s to {sum}", port.sum));
        }
    }
    let roaring = cfg!(roaring).then_some(port.least / third.least);
    let beside = roaring.map_or(format!("{:>10}{:>14}", "-", "-"), |ratio| format!("{:10.1}{ratio:14.3}", third.least));
    let tried = if cfg!(trial) { format!("{:10.1}", trial.least) } else { String::new() };
    let ratio = port.least / counting.least;
    println!("{capacity:>8}  {name:<26}{:9.1}{beside}{:10.1}{:10.1}{ratio:11.3}{tried}", port.least, plain.least, counting.least);
    Ok(Ratios { roaring, plain: ratio })
}

/// The table, and the geometric mean of the ratios to libroaring.
pub fn table(calls: u64, rounds: usize) -> Result<(), String> {
    let trial = if cfg!(trial) { "     trial" } else { "" };
    println!("\n{} calls a row, {SETS} sets; plain: a loop over the words as compiled here, and with popcnt", (calls / 512).max(64));
    println!("capacity  call                         port   roaring  port/roaring     plain    popcnt  port/popcnt{trial}");
    let mut rows = Vec::new();
    for capacity in [4096, 262144] {
        for fill in [200, 5000, 100_000] {
            for rule in 0..RULES.len() {
                rows.push(row(capacity, fill, rule, (calls / 512).max(64), calls / 8, rounds)?);
            }
        }
    }
    if cfg!(roaring) {
        let mean = rows.iter().filter_map(|row| row.roaring).map(f64::ln).sum::<f64>() / rows.len() as f64;
        print!("geometric mean of port/roaring {:.3}; ", mean.exp());
    }
    let worst = rows.iter().map(|row| row.plain).fold(0.0, f64::max);
    println!("the largest port/popcnt {worst:.3}; all sums agree");
    Ok(())
}
