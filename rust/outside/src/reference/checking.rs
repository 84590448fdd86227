//! Packed plans of any planner: reading them bit by bit, refusals 14 and 15, and when a plan is legal and when best.

use super::packing::{bits, signed_bits};
use super::{Refused, REST};
use trials::Order;

/// The places of the jobs that a plan keeps, rising, each with its start.
pub type Kept = Vec<(usize, i32)>;

/// The plan in packed bytes for so many jobs, or refusal 14 or 15.
pub fn sent(bytes: &[u8], jobs: usize) -> Result<Kept, Refused> {
    if bytes.len() < 6 {
        return Err(Refused::new(14));
    }
    let is_set = |at: &usize| bits(bytes, *at, 1) == 1;
    let places: Vec<usize> = (0..48).filter(is_set).collect();
    let end = 48 + 18 * places.len();
    if bytes.len() != (end + 7) / 8 {
        return Err(Refused::new(14));
    }
    if (jobs..48).chain(end..8 * bytes.len()).any(|at| is_set(&at)) {
        return Err(Refused::new(15));
    }
    let start = |at: usize| signed_bits(bytes, 48 + 18 * at, 18);
    Ok(places.into_iter().enumerate().map(|(at, place)| (place, start(at))).collect())
}

/// What a start must meet.
#[derive(Clone, Copy, Debug, PartialEq, Eq, PartialOrd, Ord)]
pub enum Condition {
    BusFree,
    Ready,
    Rest,
    Deadline,
}

/// The seconds that each start has to spare against each condition; below 0 it is broken.
pub fn spare(order: &Order, kept: &[(usize, i32)]) -> Vec<(Condition, i32)> {
    let finish = |(place, start): (usize, i32)| start + order.jobs[place].length;
    let mut all = Vec::new();
    for (at, &(place, start)) in kept.iter().enumerate() {
        let job = &order.jobs[place];
        all.push((Condition::BusFree, start - order.t0));
        all.push((Condition::Ready, start - job.ready));
        all.push((Condition::Deadline, job.deadline - finish((place, start))));
        if at > 0 {
            all.push((Condition::Rest, start - finish(kept[at - 1]) - REST));
        }
    }
    all
}

/// Whether every critical job is kept.
pub fn keeps_critical(order: &Order, kept: &[(usize, i32)]) -> bool {
    let keeps = |place: usize| kept.iter().any(|&(at, _)| at == place);
    order.jobs.iter().enumerate().all(|(place, job)| job.critical == 0 || keeps(place))
}

/// Whether a plan is legal.
pub fn is_legal(order: &Order, kept: &[(usize, i32)]) -> bool {
    keeps_critical(order, kept) && spare(order, kept).iter().all(|&(_, seconds)| seconds >= 0)
}

/// The weight that a plan keeps.
pub fn weight_of(order: &Order, kept: &[(usize, i32)]) -> i32 {
    kept.iter().map(|&(place, _)| order.jobs[place].weight).sum()
}
