//! The rows of the searches: a whole run by one call of the port, beside the Rust's two searches, which give the same, beside its single
//! search, and beside libroaring's, which give where the run starts alone.
//!
//! The sets are filled as for the other rows, and each search begins at a random position and ends at the capacity. The port must give the
//! runs of the two searches, and each single search must give where they start.

use super::{Kind, Nothing, Port, RangeBitset, Side, Third};

/// A side of a row of this kind.
fn side<S: super::Set>(capacity: usize, fill: u64, calls: u64, kind: Kind) -> Side<S> {
    Side::new(capacity, fill, calls, kind)
}

/// One row: its times, or the words that say that the sides do not agree.
fn row(capacity: usize, fill: u64, value: bool, calls: u64, rounds: usize) -> Result<f64, String> {
    let (run, next) = if value { (Kind::OneRun, Kind::NextOne) } else { (Kind::ZeroRun, Kind::NextZero) };
    let mut two = side::<RangeBitset>(capacity, fill, calls, run);
    let mut one = side::<RangeBitset>(capacity, fill, calls, next);
    let mut port = side::<Port>(capacity, fill, calls, run);
    let mut starts = side::<Port>(capacity, fill, calls, next);
    let mut alone = side::<Nothing>(capacity, fill, calls, next);
    let mut third = side::<Third>(capacity, fill, calls, next);
    let has_third = cfg!(roaring) && value;
    for _ in 0..rounds {
        two.round(run, capacity, fill, calls);
        port.round(run, capacity, fill, calls);
        one.round(next, capacity, fill, calls);
        alone.round(next, capacity, fill, calls);
        if has_third {
            third.round(next, capacity, fill, calls);
        }
    }
    starts.round(next, capacity, fill, calls * rounds as u64);
    let name = format!("next_{} after {fill}", if value { "one" } else { "zero" });
    if two.sum != port.sum || one.sum != starts.sum || has_third && one.sum != third.sum {
        return Err(format!("{name}: the runs sum to {}, the port's to {}", two.sum, port.sum));
    }
    let ratio = port.least / two.least;
    let beside = if has_third { format!("{:10.2}", third.least) } else { format!("{:>10}", "-") };
    println!(
        "{capacity:>8}  {name:<26}{:9.2}{:9.2}{ratio:8.3}{:12.2}{:8.3}{beside}{:12.2}",
        two.least,
        port.least,
        one.least,
        port.least / one.least,
        alone.least
    );
    Ok(ratio)
}

/// The table, with the geometric mean of the ratios and the largest.
pub fn table(calls: u64, rounds: usize) -> Result<(), String> {
    println!("\ncapacity  call, a whole run            Rust 2     port   ratio      Rust 1   ratio   roaring  loop alone");
    let (mut product, mut worst, mut rows) = (0.0, 0.0f64, 0);
    for capacity in [4096, 262144] {
        for fill in [200, 5000, 100_000] {
            for value in [true, false] {
                let ratio = row(capacity, fill, value, calls, rounds)?;
                (product, worst, rows) = (product + ratio.ln(), worst.max(ratio), rows + 1);
            }
        }
    }
    let mean = (product / rows as f64).exp();
    println!("geometric mean of the {rows} ratios to two searches {mean:.3}, the largest {worst:.3}; all runs agree");
    Ok(())
}
