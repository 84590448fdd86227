//! Repeating jobs whose frame is an order in range: drawn at random, they hardly ever have a frame at all.

use crate::orders::REST;
use crate::{Random, Repeating};

/// Frames with many divisors, and some with few; the last is the longest.
const FRAMES: [i32; 24] = [
    16, 31, 60, 120, 240, 272, 300, 360, 420, 600, 840, 1_001, 1_200, 1_800, 2_520, 3_600, 5_040, 7_200,
    10_080, 21_600, 30_030, 43_200, 83_160, 86_400,
];

/// What the repeats of all jobs may come to together.
#[derive(Clone, Copy, Debug)]
pub struct Most {
    pub repeats: usize,
    pub weight: i32,
}

/// So many repeating jobs, at most 16, whose periods divide one frame: no more repeats than so many, which is at least
/// the number of jobs, and no more weight.
pub fn repeating_of(random: &mut Random, n: usize, most: Most) -> Vec<Repeating> {
    let frame = random.one_of(&FRAMES);
    let critical_once_in = random.one_of(&[2, 4, 8, 100]);
    let grid = random.one_of(&[1, 1, 5, 20, 100]);
    let (mut repeats, mut weight) = (most.repeats, most.weight);
    let mut jobs = Vec::with_capacity(n);
    for place in 0..n {
        let times = times_of(random, frame, repeats - (n - place - 1));
        let mut job = timed(random, frame / times, grid);
        if weight < times || random.once_in(critical_once_in) {
            job.critical = 1;
        } else {
            let most = (weight / times).min(50);
            job.weight = random.within(1, most).min(random.within(1, most));
        }
        repeats -= times as usize;
        weight -= times * job.weight;
        jobs.push(job);
    }
    jobs
}

/// How often a job repeats in a frame: a divisor that leaves a period of 16 at least.
fn times_of(random: &mut Random, frame: i32, most: usize) -> i32 {
    let all: Vec<i32> =
        (1..=most as i32).filter(|&times| frame % times == 0 && frame / times > REST).collect();
    let times = random.one_of(&all);
    if random.once_in(3) {
        times
    } else {
        times.min(random.one_of(&all))
    }
}

/// A job with times and length alone. Its phase is often on the grid, so that jobs meet, or as late as it may be.
fn timed(random: &mut Random, period: i32, grid: i32) -> Repeating {
    let spare = period - REST; // for phase and deadline
    let phase = match random.below(4) {
        0 => random.within(0, spare - 1),
        1 => 0,
        _ => grid * random.within(0, (spare - 1) / grid),
    };
    let deadline = if random.once_in(3) { spare - phase } else { random.within(1, spare - phase) };
    let part = deadline / random.one_of(&[2, 4, 8, 16]);
    let length = match random.below(24) {
        0 => 10_000,
        1 => (deadline + 1).min(10_000),
        2..=5 => deadline.min(10_000),
        _ => random.within(1, 1 + part).min(10_000),
    };
    Repeating { critical: 0, weight: 0, phase, length, deadline, period }
}
