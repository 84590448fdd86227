//! The packs of an order's jobs, which decide the kind of its records.

use crate::{Order, Random};

/// Gives the jobs of an order packs: all of them, one in four or hardly any, and one at least, at times the last, a pack
/// other than 0. So the records are of kind 1 where there is a job.
pub fn put_packs(random: &mut Random, order: &mut Order) {
    let once_in = random.one_of(&[1, 4, 1_000]);
    for job in &mut order.jobs {
        job.pack = if random.once_in(once_in) { random.within(0, 255) } else { 0 };
    }
    let last = order.jobs.len().saturating_sub(1);
    let place = if random.once_in(4) { last } else { random.below(last + 1) };
    if let Some(job) = order.jobs.get_mut(place) {
        job.pack = random.one_of(&[1, 3, 64, 128, 255]);
    }
}
