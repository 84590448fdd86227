//! Orders of halves: long checks that are split into a critical job and, at times, an optional one behind it.

use crate::orders::{bus_free, numbers_below, timed, weight_from, LATEST};
use crate::{Job, Order, Random, Style};

/// How far an optional half's number lies above its critical half's, which is itself below this.
const APART: i32 = 32;

/// Seconds that an optional half takes for each weight.
const PER_WEIGHT: i32 = 60;

/// An order of `n` halves, at most 48, whose weights sum to at most `most`, which is at least the number of jobs.
pub fn halves_of(random: &mut Random, style: Style, n: usize, most: i32) -> Order {
    let mut numbers = numbers_below(random, APART as usize, APART as usize);
    let mut awaited = Vec::new(); // the numbers of optional halves whose critical one has come
    let mut left = most;
    let mut jobs = Vec::with_capacity(n);
    for place in 0..n {
        let mut job = timed(random, style, place);
        if awaited.is_empty() || (random.once_in(2) && !numbers.is_empty()) {
            // Where none is awaited as many optional halves have come as critical ones, so numbers are left.
            job.number = numbers.pop().expect("a number is left");
            job.critical = 1;
            awaited.push(job.number + APART);
        } else {
            job.number = awaited.swap_remove(random.below(awaited.len()));
            job.weight = weight_from(random, style, &mut left, n - place - 1);
        }
        jobs.push(drawn_out(random, style, job));
    }
    Order { t0: stretch(style) * bus_free(random, style), jobs }
}

/// How much longer a style's times are made, so that optional halves find room beside each other.
fn stretch(style: Style) -> i32 {
    match style {
        Style::Tight | Style::Gaps => 20,
        Style::Morning => 4,
        Style::Wide | Style::Ends => 1,
    }
}

/// A half with the length that belongs to it and times drawn out. It may wait as long as the style's window is, to the
/// second or one off; for half of the optional ones that is not drawn out, so that a plan often leaves them out.
fn drawn_out(random: &mut Random, style: Style, job: Job) -> Job {
    let by = stretch(style);
    let length = if job.critical == 1 { by * job.length } else { PER_WEIGHT * job.weight };
    let wait = if job.critical == 1 { by } else { random.one_of(&[1, by]) };
    let (ready, spare) = (by * job.ready, wait * (job.deadline - job.ready) + random.within(-1, 1));
    Job { ready, length, deadline: (ready + length + spare).min(LATEST), ..job }
}
