//! How the planners' time grows with the number of jobs, for ordinary orders and for the worst known.

use crate::planning::{ORDERS, PLAN};
use crate::room::compare;
use crate::shapes::first;
use crate::timing::measure;
use trials::{dense_order, full_order, packed, Order, Random};

/// The numbers of jobs.
const JOBS: [usize; 8] = [1, 2, 4, 8, 16, 24, 32, 48];

/// What the four times of a number of jobs belong to.
pub const LINES: [&str; 4] =
    ["Leafanchor, ordinary", "plain Rust, ordinary", "Leafanchor, worst", "plain Rust, worst"];

/// A number of jobs and the microseconds that an order of so many takes, by LINES.
pub type Step = (usize, [f64; 4]);

/// Times every number of jobs, after a comparison, and prints the table.
pub fn time_growth(random: &mut Random) -> Vec<Step> {
    println!("\nHow the time of planning grows, microseconds an order:");
    println!("jobs{}", LINES.map(|line| format!("{line:>23}")).concat());
    JOBS.iter().map(|&jobs| step(random, jobs)).collect()
}

/// Times one number of jobs and prints its line.
fn step(random: &mut Random, jobs: usize) -> Step {
    let mut times = [0.0; 4];
    for (draw, pair) in [ordinary, worst].into_iter().zip(times.chunks_mut(2)) {
        let orders: Vec<Vec<u8>> = (0..ORDERS).map(|_| packed(&draw(random, jobs))).collect();
        compare(PLAN, &orders);
        let measure = measure(PLAN, &orders);
        pair.copy_from_slice(&[measure.ours / 1_000.0, measure.plain / 1_000.0]);
    }
    println!("{jobs:>4}{}", times.map(|time| format!("{time:>23.2}")).concat());
    (jobs, times)
}

/// An ordinary morning. Six jobs are the fewest whose weights sum to 300; fewer have a weight of 50 each.
fn ordinary(random: &mut Random, jobs: usize) -> Order {
    first(full_order(random, jobs.max(6)), jobs)
}

/// The front of one of the worst orders known.
fn worst(random: &mut Random, jobs: usize) -> Order {
    first(dense_order(random), jobs)
}
