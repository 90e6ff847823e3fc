//! The rows of the estimate, which the Rust has not: the port beside the same loop in Rust over the original set, which finds each
//! clear stretch by `next_zero` and `next_one` and adds up its sheets by their edges.
//!
//! Eight sets are filled as for the other rows, each by its own assignments, and priced in turn, whole or a random range of up to 5,000 positions; the
//! edges are drawn once, from 1 to 1,500. Both sides must give the same seven numbers, and the first position of a list that lacks an edge.

use super::combine::{SETS, filled};
use super::{Port, RangeBitset, Set, drawn};
use crate::ledger_port::klado_estimate_price;
use std::hint::black_box;
use std::time::Instant;

const PRICES: [u32; 5] = [650, 1100, 1400, 1850, 4200];

#[derive(Clone, Copy, Default, PartialEq, Debug)]
struct Order {
    pence: u32,
    sheets: u32,
    classes: [u32; 5],
}

trait Price: Set {
    /// The order, or the first position that has no edge.
    fn price(&self, edges: &[u16], start: usize, end: usize) -> Result<Order, usize>;
}

impl Price for Port {
    fn price(&self, edges: &[u16], start: usize, end: usize) -> Result<Order, usize> {
        let (storage, len) = (self.storage.as_ptr(), self.storage.len());
        let answer = unsafe { klado_estimate_price(self.head, storage, len, edges.as_ptr(), edges.len(), start, end) };
        assert!(answer.refused == 0 || answer.refused == 13);
        let order = answer.estimate;
        match answer.refused {
            0 => Ok(Order { pence: order.pence, sheets: order.sheets, classes: order.classes }),
            _ => Err(answer.position as usize),
        }
    }
}

fn class_of(edge: u16) -> Option<usize> {
    match edge {
        0 => None,
        1..=420 => Some(0),
        421..=594 => Some(1),
        595..=841 => Some(2),
        842..=1189 => Some(3),
        1190.. => Some(4),
    }
}

impl Price for RangeBitset {
    fn price(&self, edges: &[u16], start: usize, end: usize) -> Result<Order, usize> {
        let mut order = Order::default();
        let mut from = start;
        while let Some(at) = self.next_zero(from, end) {
            let to = self.next_one(at, end).unwrap_or(end);
            for i in at..to {
                let class = class_of(edges[i]).ok_or(i)?;
                order.pence += PRICES[class];
                order.sheets += 1;
                order.classes[class] += 1;
            }
            from = to;
        }
        Ok(order)
    }
}

/// One side of a row: its sets, the sums of its answers, and the least time of a call.
struct Side<S> {
    sets: Vec<S>,
    random: u64,
    sums: [u64; 7],
    least: f64,
}

impl<S: Price> Side<S> {
    fn new(capacity: usize, fill: u64, assignments: u64) -> Self {
        Side { sets: filled(capacity, fill, assignments), random: 1, sums: [0; 7], least: f64::INFINITY }
    }

    /// The whole set, or a range of up to `reach` positions.
    fn range(&mut self, capacity: usize, reach: usize) -> (usize, usize) {
        if reach == 0 {
            return (0, capacity);
        }
        self.random = drawn(self.random);
        let start = self.random as usize & (capacity - 1);
        self.random = drawn(self.random);
        (start, (start + self.random as usize % reach).min(capacity))
    }

    fn add(&mut self, order: Order) {
        let numbers = [order.pence, order.sheets].into_iter().chain(order.classes);
        for (sum, number) in self.sums.iter_mut().zip(numbers) {
            *sum = sum.wrapping_add(number.into());
        }
    }

    #[inline(never)]
    fn round(&mut self, edges: &[u16], reach: usize, calls: u64) {
        let begun = Instant::now();
        for call in 0..calls {
            let (start, end) = self.range(edges.len(), reach);
            let order = self.sets[call as usize % SETS].price(edges, start, end);
            self.add(order.expect("each sheet has an edge"));
        }
        black_box(&self.sums);
        self.least = self.least.min(begun.elapsed().as_nanos() as f64 / calls as f64);
    }
}

/// One row: the ratio of the port to the Rust, or the words that say that they do not agree.
fn row(capacity: usize, fill: u64, reach: usize, assignments: u64, rounds: usize) -> Result<f64, String> {
    let mut random = 7;
    let mut edge = || {
        random = drawn(random);
        (1 + random % 1500) as u16
    };
    let mut edges: Vec<u16> = (0..capacity).map(|_| edge()).collect();
    let mut rust = Side::<RangeBitset>::new(capacity, fill, assignments);
    let mut port = Side::<Port>::new(capacity, fill, assignments);
    // so many calls that a round looks at some four million positions
    let calls = (1 << 23) / if reach == 0 { capacity } else { reach / 2 } as u64 / SETS as u64 * SETS as u64;
    for _ in 0..rounds {
        rust.round(&edges, reach, calls);
        port.round(&edges, reach, calls);
    }
    let sheets = rust.sums[1] as f64 / calls as f64 / rounds as f64;
    let name = format!("{} after {fill}", if reach == 0 { "the whole set".into() } else { format!("up to {reach}") });
    if rust.sums != port.sums {
        return Err(format!("estimate of {name}: the Rust's answers sum to {:?}, the port's to {:?}", rust.sums, port.sums));
    }
    edges[capacity / 2] = 0;
    for (rust, port) in rust.sets.iter().zip(&port.sets) {
        let (wanted, got) = (rust.price(&edges, 0, capacity), port.price(&edges, 0, capacity));
        if wanted != got {
            return Err(format!("estimate of {name} with an edge missing: the Rust {wanted:?}, the port {got:?}"));
        }
    }
    let ratio = port.least / rust.least;
    println!("{capacity:>8}  {name:<26}{sheets:10.0}{:12.0}{:12.0}{ratio:8.3}", rust.least, port.least);
    Ok(ratio)
}

/// The table, and the geometric mean of the ratios.
pub fn table(assignments: u64, rounds: usize) -> Result<(), String> {
    println!("\ncapacity  estimate of                   sheets        Rust        port   ratio");
    let mut ratios = Vec::new();
    for capacity in [4096, 262144] {
        for fill in [200, 5000, 100_000] {
            for reach in [0, 5000] {
                ratios.push(row(capacity, fill, reach, assignments, rounds)?);
            }
        }
    }
    let mean = (ratios.iter().map(|ratio: &f64| ratio.ln()).sum::<f64>() / ratios.len() as f64).exp();
    let worst = ratios.iter().copied().fold(0.0, f64::max);
    println!("geometric mean of the {} ratios {mean:.3}, the largest {worst:.3}; all sums agree", ratios.len());
    Ok(())
}
