//! bench [CALLS [ROUNDS]]: the Rust, optimised and without debug assertions, against the port's archive, in one run.
//!
//! For each row both sets are filled by the same assignments, then the same calls run on the Rust and on the port in
//! turn, ROUNDS times; each side's least time counts. The Rust is called as Rust calls it, inlined where the compiler
//! likes; the port through C, with its refusal checks and its head in and out by value. Both sides must give the same sum of
//! answers. The loop draws its random numbers as it goes, the same for both, so `loop alone` is in every figure: it is
//! printed, and not taken off. The Rust's searches find no run, and it has no select, no combinations and no estimate; their rows have tables of
//! their own (runs.rs, select.rs, combine.rs, estimate.rs).

mod combine;
mod estimate;
#[path = "../../oracle/src/ledger_port.rs"]
mod ledger_port;
#[path = "../../oracle/src/original.rs"]
mod original;
#[path = "../../oracle/src/port.rs"]
mod port;
#[cfg(roaring)]
mod roaring;
mod runs;
mod select;
#[cfg(trial)]
mod trial;

use original::RangeBitset;
use port::*;
use std::hint::black_box;
use std::ops::Range;
use std::time::Instant;

trait Set {
    fn new(capacity: usize) -> Self;
    fn assign(&mut self, start: usize, end: usize, value: bool) -> u32;
    fn set(&mut self, index: usize, value: bool) -> bool;
    fn get(&self, index: usize) -> bool;
    fn count(&self, start: usize, end: usize) -> u32;
    fn next_one(&self, start: usize, end: usize) -> Option<usize>;
    fn next_zero(&self, start: usize, end: usize) -> Option<usize>;
    /// The run of the value at or after `start`: by two searches, where one finds no more than a position.
    #[inline(always)]
    fn run(&self, start: usize, end: usize, value: bool) -> Option<Range<usize>> {
        let at = if value { self.next_one(start, end) } else { self.next_zero(start, end) }?;
        let to = if value { self.next_zero(at, end) } else { self.next_one(at, end) };
        Some(at..to.unwrap_or(end))
    }
    /// The Rust has none.
    fn select(&self, _: usize) -> Option<usize> {
        None
    }
}

impl Set for RangeBitset {
    fn new(capacity: usize) -> Self {
        RangeBitset::new(capacity)
    }
    fn assign(&mut self, start: usize, end: usize, value: bool) -> u32 {
        self.assign(start, end, value)
    }
    fn set(&mut self, index: usize, value: bool) -> bool {
        self.set(index, value)
    }
    fn get(&self, index: usize) -> bool {
        self.get(index)
    }
    fn count(&self, start: usize, end: usize) -> u32 {
        self.count(start, end)
    }
    fn next_one(&self, start: usize, end: usize) -> Option<usize> {
        self.next_one(start, end)
    }
    fn next_zero(&self, start: usize, end: usize) -> Option<usize> {
        self.next_zero(start, end)
    }
}

struct Port {
    head: Head,
    storage: Vec<u64>,
    scratch: Vec<u64>,
}

impl Port {
    fn changed(&mut self, answer: SetAnswer) -> u32 {
        assert!(answer.refused == 0);
        self.head = answer.head;
        answer.value
    }
}

fn number(answer: Answer) -> u32 {
    assert!(answer.refused == 0);
    answer.value
}

fn place(answer: Place) -> Option<usize> {
    assert!(answer.refused == 0);
    if answer.found == 0 { None } else { Some(answer.at as usize) }
}

fn found(answer: Found) -> Option<Range<usize>> {
    assert!(answer.refused == 0);
    if answer.found == 0 { None } else { Some(answer.at as usize..answer.end as usize) }
}

impl Set for Port {
    fn new(capacity: usize) -> Self {
        let made = unsafe { klado_set_new(capacity) };
        assert!(made.refused == 0);
        Port { head: made.head, storage: vec![0; needed(capacity / 64)], scratch: vec![0; capacity / 64] }
    }
    fn assign(&mut self, start: usize, end: usize, value: bool) -> u32 {
        let (head, storage, len) = (self.head, self.storage.as_mut_ptr(), self.storage.len());
        self.changed(unsafe { klado_set_assign(head, storage, len, start, end, value) })
    }
    fn set(&mut self, index: usize, value: bool) -> bool {
        let (head, storage, len) = (self.head, self.storage.as_mut_ptr(), self.storage.len());
        self.changed(unsafe { klado_set_set(head, storage, len, index, value) }) != 0
    }
    fn get(&self, index: usize) -> bool {
        number(unsafe { klado_set_get(self.head, self.storage.as_ptr(), self.storage.len(), index) }) != 0
    }
    fn count(&self, start: usize, end: usize) -> u32 {
        number(unsafe { klado_set_count(self.head, self.storage.as_ptr(), self.storage.len(), start, end) })
    }
    fn next_one(&self, start: usize, end: usize) -> Option<usize> {
        self.run(start, end, true).map(|run| run.start)
    }
    fn next_zero(&self, start: usize, end: usize) -> Option<usize> {
        self.run(start, end, false).map(|run| run.start)
    }
    #[inline(always)]
    fn run(&self, start: usize, end: usize, value: bool) -> Option<Range<usize>> {
        let search = if value { klado_set_next_one } else { klado_set_next_zero };
        found(unsafe { search(self.head, self.storage.as_ptr(), self.storage.len(), start, end) })
    }
    fn select(&self, n: usize) -> Option<usize> {
        place(unsafe { klado_set_select(self.head, self.storage.as_ptr(), self.storage.len(), n) })
    }
}

/// A set that does nothing, for the cost of the loop alone.
struct Nothing;

impl Set for Nothing {
    fn new(_: usize) -> Self {
        Nothing
    }
    fn assign(&mut self, start: usize, end: usize, value: bool) -> u32 {
        (start ^ end) as u32 ^ value as u32
    }
    fn set(&mut self, index: usize, value: bool) -> bool {
        (index & 1 == 0) ^ value
    }
    fn get(&self, index: usize) -> bool {
        index & 1 == 0
    }
    fn count(&self, start: usize, end: usize) -> u32 {
        (start ^ end) as u32
    }
    fn next_one(&self, start: usize, _: usize) -> Option<usize> {
        Some(start)
    }
    fn next_zero(&self, start: usize, _: usize) -> Option<usize> {
        Some(start)
    }
    fn select(&self, n: usize) -> Option<usize> {
        Some(n)
    }
}

#[derive(Clone, Copy, PartialEq)]
enum Kind {
    Assign,
    NextOne,
    NextZero,
    OneRun,
    ZeroRun,
    Count,
    Set,
    Get,
    Select,
}

fn drawn(x: u64) -> u64 {
    let a = x ^ (x << 13);
    let b = a ^ (a >> 7);
    b ^ (b << 17)
}

/// One side of a row: its set, where its random numbers are, and the sums of its answers while filling and since.
struct Side<S> {
    set: S,
    random: u64,
    filled: u64,
    sum: u64,
    least: f64,
}

impl<S: Set> Side<S> {
    fn new(capacity: usize, fill: u64, calls: u64, kind: Kind) -> Self {
        let mut side = Side { set: S::new(capacity), random: 1, filled: 0, sum: 0, least: f64::INFINITY };
        if kind != Kind::Assign {
            side.assign(capacity as u64, fill, calls / 8);
            side.filled = side.sum;
            side.sum = 0;
        }
        side
    }

    fn draw(&mut self) -> u64 {
        self.random = drawn(self.random);
        self.random
    }

    fn add(&mut self, answer: u64) {
        self.sum = self.sum.wrapping_add(answer);
    }

    #[inline(never)]
    fn assign(&mut self, capacity: u64, reach: u64, calls: u64) {
        for _ in 0..calls {
            let start = self.draw() & (capacity - 1);
            let end = (start + self.draw() % reach).min(capacity);
            let value = self.draw() % 2 == 0;
            let changed = self.set.assign(start as usize, end as usize, value);
            self.add(changed.into());
        }
    }

    #[inline(never)]
    fn next(&mut self, capacity: u64, calls: u64, next: impl Fn(&S, usize) -> Option<usize>) {
        for _ in 0..calls {
            let start = self.draw() & (capacity - 1);
            if let Some(at) = next(&self.set, start as usize) {
                self.add(at as u64);
            }
        }
    }

    #[inline(never)]
    fn run(&mut self, capacity: u64, calls: u64, run: impl Fn(&S, usize) -> Option<Range<usize>>) {
        for _ in 0..calls {
            let start = self.draw() & (capacity - 1);
            if let Some(run) = run(&self.set, start as usize) {
                self.add((run.start as u64) << 20 | run.end as u64);
            }
        }
    }

    #[inline(never)]
    fn count(&mut self, capacity: u64, calls: u64) {
        for _ in 0..calls {
            let start = self.draw() & (capacity - 1);
            let end = self.draw() & (capacity - 1);
            let count = self.set.count(start as usize, end as usize);
            self.add(count.into());
        }
    }

    #[inline(never)]
    fn set(&mut self, capacity: u64, calls: u64) {
        for _ in 0..calls {
            let index = self.draw() & (capacity - 1);
            let value = self.draw() % 2 == 0;
            let changed = self.set.set(index as usize, value);
            self.add(changed.into());
        }
    }

    #[inline(never)]
    fn get(&mut self, capacity: u64, calls: u64) {
        for _ in 0..calls {
            let index = self.draw() & (capacity - 1);
            let has = self.set.get(index as usize);
            self.add(has.into());
        }
    }

    /// An ordinal below the population, or 0 where that is 0.
    fn ordinal(&mut self, population: u64) -> usize {
        ((self.draw() >> 32) * population >> 32) as usize
    }

    #[inline(never)]
    fn select(&mut self, population: u64, calls: u64) {
        for _ in 0..calls {
            let n = self.ordinal(population);
            if let Some(at) = self.set.select(n) {
                self.add(at as u64);
            }
        }
    }

    fn round(&mut self, kind: Kind, capacity: usize, fill: u64, calls: u64) {
        let (end, capacity) = (capacity, capacity as u64);
        let begun = Instant::now();
        match kind {
            Kind::Assign => self.assign(capacity, fill, calls),
            Kind::NextOne => self.next(capacity, calls, |set, start| set.next_one(start, end)),
            Kind::NextZero => self.next(capacity, calls, |set, start| set.next_zero(start, end)),
            Kind::OneRun => self.run(capacity, calls, |set, start| set.run(start, end, true)),
            Kind::ZeroRun => self.run(capacity, calls, |set, start| set.run(start, end, false)),
            Kind::Count => self.count(capacity, calls),
            Kind::Set => self.set(capacity, calls),
            Kind::Get => self.get(capacity, calls),
            Kind::Select => self.select(self.set.count(0, end).into(), calls),
        }
        black_box(&self.set);
        black_box(self.sum);
        self.least = self.least.min(begun.elapsed().as_nanos() as f64 / calls as f64);
    }
}

#[cfg(roaring)]
type Third = roaring::Roaring;
#[cfg(not(roaring))]
type Third = Nothing;

/// One row: its times, or the words that say that the sides do not agree.
fn row(name: &str, capacity: usize, fill: u64, kind: Kind, calls: u64, rounds: usize) -> Result<f64, String> {
    let mut rust = Side::<RangeBitset>::new(capacity, fill, calls, kind);
    let mut port = Side::<Port>::new(capacity, fill, calls, kind);
    let mut alone = Side::<Nothing>::new(capacity, fill, calls, kind);
    let mut third = Side::<Third>::new(capacity, fill, calls, kind);
    for _ in 0..rounds {
        rust.round(kind, capacity, fill, calls);
        port.round(kind, capacity, fill, calls);
        alone.round(kind, capacity, fill, calls);
        if cfg!(roaring) {
            third.round(kind, capacity, fill, calls);
        }
    }
    let population = rust.set.count(0, capacity);
    if (rust.filled, rust.sum, population) != (port.filled, port.sum, port.set.count(0, capacity)) {
        return Err(format!("{name}: the Rust's answers sum to {}, the port's to {}", rust.sum, port.sum));
    }
    // roaring's range calls do not say what they changed, so after them the sets alone are compared
    let same_sum = kind == Kind::Assign || rust.sum == third.sum;
    if cfg!(roaring) && !(same_sum && population == third.set.count(0, capacity)) {
        return Err(format!("{name}: the Rust's answers sum to {}, roaring's to {}", rust.sum, third.sum));
    }
    let ratio = port.least / rust.least;
    let beside = if cfg!(roaring) { format!("{:10.2}", third.least) } else { format!("{:>10}", "-") };
    println!("{capacity:>8}  {name:<26}{:9.2}{:9.2}{ratio:8.3}{beside}{:12.2}", rust.least, port.least, alone.least);
    Ok(ratio)
}

fn differ<T>(what: String) -> T {
    println!("bench: DIFFERENT: {what}");
    std::process::exit(1);
}

fn main() {
    let words: Vec<u64> = std::env::args().skip(1).filter_map(|word| word.parse().ok()).collect();
    let calls = words.first().copied().unwrap_or(1 << 20);
    let rounds = words.get(1).copied().unwrap_or(9) as usize;
    println!("{calls} calls, least of {rounds} rounds in turn, ns a call");
    if cfg!(not(roaring)) {
        println!("libroaring is not installed (pkg-config roaring, roaring/roaring.h): its column is empty");
    }
    println!("capacity  call                         Rust     port   ratio   roaring  loop alone");
    let mut rows = Vec::new();
    for capacity in [4096, 262144] {
        for fill in [200, 5000, 100_000] {
            rows.push((capacity, format!("assign up to {fill}"), fill, Kind::Assign));
            rows.push((capacity, format!("count after {fill}"), fill, Kind::Count));
        }
        rows.push((capacity, "set after 5000".into(), 5000, Kind::Set));
        rows.push((capacity, "get after 5000".into(), 5000, Kind::Get));
    }
    let (mut product, mut worst) = (0.0, 0.0f64);
    for (capacity, name, fill, kind) in &rows {
        let ratio = row(name, *capacity, *fill, *kind, calls, rounds).unwrap_or_else(differ);
        product += ratio.ln();
        worst = worst.max(ratio);
    }
    let mean = (product / rows.len() as f64).exp();
    println!("geometric mean of the {} ratios {mean:.3}, the largest {worst:.3}; all sums agree", rows.len());
    runs::table(calls, rounds).unwrap_or_else(differ);
    select::table(calls, rounds).unwrap_or_else(differ);
    combine::table(calls, rounds).unwrap_or_else(differ);
    estimate::table(calls / 8, rounds).unwrap_or_else(differ);
}
