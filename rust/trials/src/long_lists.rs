//! Orders whose prefixes have many scheduling points, which is what the planner's time depends on.

use crate::orders::{full_order, LATEST, REST};
use crate::{Job, Order, Random};

/// An order of 48 optional jobs whose weights sum to 300, with windows that nearly every choice meets.
pub fn wide_order(random: &mut Random) -> Order {
    let mut order = full_order(random, 48);
    for job in &mut order.jobs {
        job.ready = random.within(-600, 600);
        job.length = random.within(20, 400);
        job.deadline = random.within(4_000, 12_000);
    }
    order
}

/// The same with one job in six critical, which has time after every choice: each starts the whole list anew.
pub fn wide_critical_order(random: &mut Random) -> Order {
    let mut order = wide_order(random);
    for job in &mut order.jobs {
        if random.once_in(6) {
            *job = Job { critical: 1, weight: 0, deadline: 60_000, ..*job };
        }
    }
    order
}

/// The first 24 jobs of a wide order: lists grow long, and are soon at an end.
pub fn wide_short_order(random: &mut Random) -> Order {
    let mut order = wide_order(random);
    order.jobs.truncate(24);
    order
}

/// A wide order whose windows are half as wide and lie one behind the other, so that they cut lists.
pub fn half_wide_order(random: &mut Random) -> Order {
    let mut order = wide_order(random);
    for job in &mut order.jobs {
        job.ready = random.within(-600, 3_000);
        job.deadline = job.ready + random.within(1_500, 5_000);
    }
    order
}

/// A wide order of equal weights: of six weights one at most is a point.
pub fn wide_equal_order(random: &mut Random) -> Order {
    let mut order = wide_order(random);
    order.jobs.iter_mut().for_each(|job| job.weight = 6);
    order
}

/// Weights of 48 jobs that sum to 300: after each job every weight up to the sum so far can be kept. The lists
/// grow long early.
const EVERY_SUM: [i32; 48] = [
    1, 2, 4, 8, 16, 25, 19, 29, 19, 12, 40, 19, 16, 36, // 246 in all
    2, 2, 2, 2, 2, 2, 2, 2, 2, 2, 2, 2, 2, 2, 2, 2, 2, 2, 2, 2, // 40
    1, 1, 1, 1, 1, 1, 1, 1, 1, 1, 1, 1, 1, 1,
];

/// The worst order that was found for lists: no window binds, and each job takes somewhat longer than the fastest
/// way to one weight less. So nearly every weight is a point, and the two lists of a merge alternate at random.
pub fn dense_order(random: &mut Random) -> Order {
    let mut fastest = vec![0]; // by the weight kept
    let job = |(place, &weight): (usize, &i32)| {
        let takes = fastest[weight as usize - 1] + random.within(REST + 1, 300);
        keep(&mut fastest, weight as usize, takes);
        Job {
            number: place as i32,
            pack: 0,
            critical: 0,
            weight,
            ready: -LATEST,
            length: takes - REST,
            deadline: LATEST,
        }
    };
    Order { t0: -LATEST, jobs: EVERY_SUM.iter().enumerate().map(job).collect() }
}

/// What a job of this weight makes of the fastest ways: each weight with or without it.
fn keep(fastest: &mut Vec<i32>, weight: usize, takes: i32) {
    let without = fastest.clone();
    fastest.resize(without.len() + weight, i32::MAX);
    for (with, way) in fastest[weight..].iter_mut().zip(without) {
        *with = (*with).min(way + takes);
    }
}

/// An order that the search for dear ones found (tools/speed.sh --search prints it so): its name, t0, and of each job
/// number, critical mark, weight, ready time, length and deadline.
pub type Found = (&'static str, i32, &'static [[i32; 6]]);

/// A variation of an order that was found.
pub fn found_order(random: &mut Random, (_, t0, jobs): &Found) -> Order {
    let job = |&[number, critical, weight, ready, length, deadline]: &[i32; 6]| Job {
        number,
        pack: 0,
        critical,
        weight,
        ready,
        length,
        deadline,
    };
    varied(random, &Order { t0: *t0, jobs: jobs.iter().map(job).collect() })
}

/// The order with each ready time, length and deadline some seconds off.
pub fn varied(random: &mut Random, order: &Order) -> Order {
    let mut order = order.clone();
    for job in &mut order.jobs {
        job.ready = (job.ready + random.within(-5, 5)).clamp(-LATEST, LATEST);
        job.length = (job.length + random.within(-2, 2)).clamp(1, 10_000);
        job.deadline = (job.deadline + random.within(-5, 5)).clamp(-LATEST, LATEST);
    }
    order
}
