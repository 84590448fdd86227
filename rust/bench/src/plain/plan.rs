//! Planning an order.

use super::order::{judged, Job, Order};
use super::rows::{self, from_rows, in_rows, NONE, ROW};
use leafanchor::calls::PlanAnswer;
use leafanchor::{LEFT_OUT, REST, WORK_AREA};
use trials::answer;

/// Plans an order: the same call as the library's.
pub fn plan(bytes: &[u8], starts: &mut [i32], work: &mut [i32]) -> PlanAnswer {
    let refused = |refusal, place, field| answer!(PlanAnswer { refusal, place, field });
    let order = match judged(bytes) {
        Ok(order) => order,
        Err((refusal, place, field)) => return refused(refusal, place, field),
    };
    if starts.len() < order.jobs().len() || work.len() < WORK_AREA {
        return refused(10, 0, 0);
    }
    let work = &mut work[..WORK_AREA];
    let answer = match best_choice(&order, work) {
        None => refused(11, 0, 0),
        Some(Choice { mask, weight, finish }) => {
            write_starts(&order, mask, starts);
            answer!(PlanAnswer {
                mask,
                kept: mask.count_ones(),
                kept_weight: weight as u32,
                lost_weight: (order.weight - weight) as u32,
                finish,
                points: rows::points(order.jobs(), work),
            })
        }
    };
    work.fill(0);
    answer
}

/// The choice of a plan.
pub struct Choice {
    pub mask: u64,
    pub weight: usize,
    pub finish: i32,
}

/// Fills the rows and finds the plan's choice, if any is feasible.
pub fn best_choice(order: &Order, work: &mut [i32]) -> Option<Choice> {
    let (weight, bus_free) = rows::heaviest(last_row(order, work), NONE - 1)?;
    let mask = walk_back(order, work, weight, bus_free);
    Some(Choice { mask, weight, finish: from_rows(bus_free) })
}

/// Fills the rows of an order and gives the last.
pub fn last_row<'a>(order: &Order, work: &'a mut [i32]) -> &'a [i32] {
    work[0] = in_rows(order.t0);
    let top = rows::fill(order.jobs(), 0, work);
    &work[ROW * order.jobs().len()..][..=top]
}

/// The plan's mask: from the last job back, left out wherever the weight can still be had in time without it.
fn walk_back(order: &Order, work: &[i32], mut weight: usize, mut by: i32) -> u64 {
    let (mut mask, mut top) = (0, order.weight);
    for (k, job) in order.jobs().iter().enumerate().rev() {
        top -= job.weight;
        if job.critical || weight > top || work[ROW * k + weight] > by {
            mask |= bit(k);
            weight -= job.weight;
            by = (by - REST).min(in_rows(job.deadline)) - job.length;
        }
    }
    mask
}

/// The bit of a place in a mask.
pub fn bit(place: usize) -> u64 {
    1 << (63 - place)
}

/// Writes the starts of the jobs in the mask.
fn write_starts(order: &Order, mask: u64, starts: &mut [i32]) {
    let mut bus_free = order.t0;
    for (k, (job, start)) in order.jobs().iter().zip(starts).enumerate() {
        *start = LEFT_OUT;
        if mask & bit(k) != 0 {
            *start = start_of(job, &mut bus_free);
        }
    }
}

/// The start of a job that is kept where the bus is free at a time, which then is when it is free again.
pub fn start_of(job: &Job, bus_free: &mut i32) -> i32 {
    let start = job.ready.max(*bus_free);
    *bus_free = start + job.length + REST;
    start
}
