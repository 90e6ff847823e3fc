//! The rows of select, which the Rust has not: the port beside libroaring and, where its source is found, a trial in Rust.
//!
//! The sets are filled as for the other rows, and the ordinals are uniform below the population. Every side must give the
//! sum of answers that a walk over the Rust's `get` gives.

use super::{Kind, Nothing, Port, RangeBitset, Side, Third};

#[cfg(trial)]
type Trial = super::trial::Trial;
#[cfg(not(trial))]
type Trial = Nothing;

/// The sum of the answers, by a walk from 0 that notes each position which the Rust has.
fn wanted(capacity: usize, fill: u64, calls: u64, rounds: usize) -> u64 {
    let mut rust = Side::<RangeBitset>::new(capacity, fill, calls, Kind::Select);
    let ones: Vec<usize> = (0..capacity).filter(|&at| rust.set.get(at)).collect();
    for _ in 0..calls * rounds as u64 {
        let n = rust.ordinal(ones.len() as u64);
        rust.add(ones.get(n).map_or(0, |&at| at as u64));
    }
    rust.sum
}

/// One row: the ratio of the port to libroaring, if that is there, or the words that say that a side does not agree.
fn row(capacity: usize, fill: u64, calls: u64, rounds: usize) -> Result<Option<f64>, String> {
    let kind = Kind::Select;
    let mut port = Side::<Port>::new(capacity, fill, calls, kind);
    let mut alone = Side::<Nothing>::new(capacity, fill, calls, kind);
    let mut third = Side::<Third>::new(capacity, fill, calls, kind);
    let mut trial = Side::<Trial>::new(capacity, fill, calls, kind);
    for _ in 0..rounds {
        port.round(kind, capacity, fill, calls);
        alone.round(kind, capacity, fill, calls);
        if cfg!(roaring) {
            third.round(kind, capacity, fill, calls);
        }
        if cfg!(trial) {
            trial.round(kind, capacity, fill, calls);
        }
    }
    let sum = wanted(capacity, fill, calls, rounds);
    let sides = [("port", true, port.sum), ("roaring", cfg!(roaring), third.sum), ("trial", cfg!(trial), trial.sum)];
    if let Some((side, _, other)) = sides.into_iter().find(|&(_, there, other)| there && other != sum) {
        return Err(format!("select after {fill}: the answers sum to {sum} by a walk, {side}'s to {other}"));
    }
    let ratio = cfg!(roaring).then_some(port.least / third.least);
    let beside = ratio.map_or(format!("{:>10}{:>14}", "-", "-"), |ratio| format!("{:10.2}{ratio:14.3}", third.least));
    let tried = if cfg!(trial) { format!("{:9.2}", trial.least) } else { String::new() };
    let name = format!("select after {fill}");
    println!("{capacity:>8}  {name:<26}{:9.2}{beside}{tried}{:12.2}", port.least, alone.least);
    Ok(ratio)
}

/// The table, and the geometric mean of the ratios in the largest set.
pub fn table(calls: u64, rounds: usize) -> Result<(), String> {
    let trial = if cfg!(trial) { "    trial" } else { "" };
    println!("\ncapacity  call                         port   roaring  port/roaring{trial}  loop alone");
    let mut largest = Vec::new();
    for capacity in [4096, 262144] {
        for fill in [200, 5000, 100_000] {
            let ratio = row(capacity, fill, calls, rounds)?;
            largest.extend(ratio.filter(|_| capacity == 262144));
        }
    }
    if cfg!(roaring) {
        let mean = largest.iter().map(|ratio| ratio.ln()).sum::<f64>() / largest.len() as f64;
        print!("geometric mean of port/roaring at 262144 {:.3}; ", mean.exp());
    }
    println!("all sums agree");
    Ok(())
}
