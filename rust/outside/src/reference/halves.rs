//! Orders of halves: the places that offend, refusal 13, and the optional seconds that a plan loses.

use super::{judged, Best, Refused};
use trials::{Job, Order};

/// Whether `job` is the optional half of `partner`.
fn belongs(job: &Job, partner: &Job) -> bool {
    partner.critical == 1 && (0..=31).contains(&partner.number) && job.number == partner.number + 32
}

/// Whether the job at a place offends.
fn offends(jobs: &[Job], place: usize) -> bool {
    let job = &jobs[place];
    if job.critical == 1 {
        return job.number > 31;
    }
    job.length != 60 * job.weight || !jobs[..place].iter().any(|partner| belongs(job, partner))
}

/// All places that offend, rising.
pub fn offending(jobs: &[Job]) -> Vec<usize> {
    (0..jobs.len()).filter(|&place| offends(jobs, place)).collect()
}

/// The order of halves in packed bytes, or a refusal 1 to 7, 9, 13 or 19.
pub fn judged_halves(bytes: &[u8]) -> Result<Order, Refused> {
    let order = judged(bytes)?;
    match offending(&order.jobs).first() {
        Some(&place) => Err(Refused::at(13, place)),
        None => Ok(order),
    }
}

/// The lengths of the non-critical jobs that a choice leaves out, added.
pub fn seconds_lost(order: &Order, best: Best) -> u32 {
    let left_out = |place: usize| best.choice >> place & 1 == 0;
    let lost = order.jobs.iter().enumerate().filter(|&(place, job)| left_out(place) && job.critical == 0);
    lost.map(|(_, job)| job.length as u32).sum()
}
