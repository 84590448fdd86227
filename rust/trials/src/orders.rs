//! Orders and profiles in several styles. Every order here is in range unless its style says otherwise.

use crate::{Job, Order, Random};

/// The latest t0, ready time and deadline; less it the earliest.
pub(crate) const LATEST: i32 = 100_000;

/// The seconds that the contactor rests after every job. A point's time reaches that far past LATEST.
pub(crate) const REST: i32 = 15;

/// Two jobs of a second that start here and straight after the first's rest end at LATEST.
const LAST_TWO: i32 = LATEST - REST - 2;

/// What an order is like.
#[derive(Clone, Copy, Debug, PartialEq, Eq)]
pub enum Style {
    /// Few different times, lengths and weights: ties and tight windows.
    Tight,
    /// Groups of rivals for one window with a gap behind it, so that an earlier bus-free time wins nothing.
    Gaps,
    /// The whole range of times, lengths and weights.
    Wide,
    /// The ends of every range.
    Ends,
    /// Windows that grow with the place, as on an orderly morning: many jobs fit.
    Morning,
}

impl Style {
    /// All styles.
    pub const ALL: [Style; 5] = [Style::Tight, Style::Gaps, Style::Wide, Style::Ends, Style::Morning];
}

/// An order of `n` jobs whose weights sum to at most `most`, which is at least the number of jobs.
pub fn order_of(random: &mut Random, style: Style, n: usize, most: i32) -> Order {
    let numbers = numbers_below(random, 64, n);
    let critical_once_in = random.one_of(&[2, 4, 4, 8, 100]);
    let mut left = most;
    let mut jobs = Vec::with_capacity(n);
    for (place, number) in numbers.into_iter().enumerate() {
        let mut job = timed(random, style, place);
        job.number = number;
        job.critical = i32::from(random.once_in(critical_once_in));
        if job.critical == 0 {
            job.weight = weight_from(random, style, &mut left, n - place - 1);
        }
        jobs.push(job);
    }
    Order { t0: bus_free(random, style), jobs }
}

/// An order of `n` optional jobs whose weights sum to 300 exactly, with windows that let most jobs run.
pub fn full_order(random: &mut Random, n: usize) -> Order {
    let mut order = order_of(random, Style::Morning, n, 300);
    let mut weights = vec![300 / n as i32; n];
    weights[0] += 300 % n as i32;
    for _ in 0..4 * n {
        let (from, to) = (random.below(n), random.below(n));
        let moved = random.within(0, 20).min(weights[from] - 1).min(50 - weights[to]);
        weights[from] -= moved;
        weights[to] += moved;
    }
    for (job, weight) in order.jobs.iter_mut().zip(weights) {
        job.critical = 0;
        job.weight = weight;
    }
    order
}

/// A valid profile of `points` points, at most 301, with weights up to `heaviest` (at least points - 1).
pub fn profile_of(random: &mut Random, style: Style, points: usize, heaviest: i32) -> Vec<i32> {
    let weights = rising(random, points, 0, heaviest);
    let times = match style {
        Style::Wide => rising(random, points, -LATEST, LATEST + REST),
        Style::Ends => {
            let span = 40.max(2 * points as i32);
            let low = random.one_of(&[-LATEST, LATEST + REST - span]);
            rising(random, points, low, low + span)
        }
        _ => rising(random, points, -20, 40.max(2 * points as i32)),
    };
    times.into_iter().zip(weights).flat_map(|(time, weight)| [time, weight]).collect()
}

/// `count` different numbers from `low` to `high`, rising.
fn rising(random: &mut Random, count: usize, low: i32, high: i32) -> Vec<i32> {
    let mut all = Vec::with_capacity(count);
    while all.len() < count {
        let number = random.within(low, high);
        if let Err(place) = all.binary_search(&number) {
            all.insert(place, number);
        }
    }
    all
}

/// `n` different job numbers below `end` in any order.
pub(crate) fn numbers_below(random: &mut Random, end: usize, n: usize) -> Vec<i32> {
    let mut numbers: Vec<i32> = (0..end as i32).collect();
    for place in 0..n {
        let other = place + random.below(end - place);
        numbers.swap(place, other);
    }
    numbers.truncate(n);
    numbers
}

/// A bus-free time.
pub(crate) fn bus_free(random: &mut Random, style: Style) -> i32 {
    match style {
        Style::Tight | Style::Gaps => random.within(-3, 3),
        Style::Wide => random.within(-LATEST, LATEST),
        Style::Ends => random.one_of(&[-LATEST, -1, 0, LAST_TWO, LAST_TWO + 1, LATEST - 1, LATEST]),
        Style::Morning => random.within(-600, 0),
    }
}

/// A weight taken from what is left. One is kept back for each job to come, so that none is without a weight.
pub(crate) fn weight_from(random: &mut Random, style: Style, left: &mut i32, to_come: usize) -> i32 {
    let weight = weight_of(random, style).min(*left - to_come as i32);
    *left -= weight;
    weight
}

/// A weight from 1 to 50.
fn weight_of(random: &mut Random, style: Style) -> i32 {
    match style {
        Style::Tight => random.one_of(&[1, 2, 2, 3, 5]),
        Style::Gaps => random.one_of(&[2, 2, 2, 3]),
        Style::Wide => random.within(1, 50),
        Style::Ends => random.one_of(&[1, 49, 50]),
        Style::Morning => random.within(1, 12),
    }
}

/// A job with times and length alone.
pub(crate) fn timed(random: &mut Random, style: Style, place: usize) -> Job {
    let place = place as i32;
    let (ready, length, window) = match style {
        Style::Tight => {
            // Room for up to three rests.
            let window = random.within(0, 12) + REST * random.within(0, 3);
            (random.within(-4, 12), random.within(1, 4), window)
        }
        Style::Gaps => {
            // One or two of the rivals fit, and the rest after them ends before the next group.
            let window = random.within(3, 5) + REST * random.within(0, 1);
            (place / 3 * (8 + 2 * REST), random.within(1, 4), window)
        }
        Style::Wide => (random.within(-LATEST, LATEST), random.within(1, 10_000), random.within(0, LATEST)),
        Style::Ends => {
            let ends = [-LATEST, -LATEST, 1 - LATEST, -1, 0, LAST_TWO, LAST_TWO + 1, LATEST - 1, LATEST];
            let ready = random.one_of(&ends);
            (ready, random.one_of(&[1, 1, 2, 9_999, 10_000]), random.one_of(&[0, 1, 2, 2 * LATEST]))
        }
        Style::Morning => {
            (90 * place + random.within(-200, 200), random.within(20, 150), random.within(150, 900))
        }
    };
    let deadline = (ready + window).clamp(-LATEST, LATEST);
    Job { number: 0, pack: 0, critical: 0, weight: 0, ready, length, deadline }
}
