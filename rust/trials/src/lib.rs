//! Generated orders and profiles, the same on every machine: a fixed generator, plain orders in several
//! styles that make ties, tight windows, critical jobs and infeasible orders frequent, orders of halves, orders
//! with many scheduling points, packs, repeating jobs, and a plain bit-by-bit packer of orders and plans. Beside them
//! a way to write down the answer that a call must give.

mod answer;
mod found;
mod halves;
mod long_lists;
mod orders;
mod packing;
mod packs;
mod random;
mod repeating;

pub use found::FOUND;
pub use halves::halves_of;
pub use long_lists::{
    dense_order, found_order, half_wide_order, varied, wide_critical_order, wide_equal_order, wide_order,
    wide_short_order, Found,
};
pub use orders::{full_order, order_of, profile_of, Style};
pub use packing::{packed, packed_as, packed_plan};
pub use packs::put_packs;
pub use random::Random;
pub use repeating::{repeating_of, Most};

/// A job as its seven fields, which may be out of range.
#[derive(Clone, Copy, Debug, PartialEq, Eq)]
pub struct Job {
    pub number: i32,
    pub pack: i32,
    pub critical: i32,
    pub weight: i32,
    pub ready: i32,
    pub length: i32,
    pub deadline: i32,
}

impl Job {
    /// The fields in the order in which they are packed and unpacked.
    pub fn numbers(&self) -> [i32; 7] {
        [self.number, self.pack, self.critical, self.weight, self.ready, self.length, self.deadline]
    }
}

/// A repeating job as its six fields, which may be out of range.
#[derive(Clone, Copy, Debug, PartialEq, Eq)]
pub struct Repeating {
    pub critical: i32,
    pub weight: i32,
    pub phase: i32,
    pub length: i32,
    pub deadline: i32,
    pub period: i32,
}

impl Repeating {
    /// The fields in the order in which they are given.
    pub fn numbers(&self) -> [i32; 6] {
        [self.critical, self.weight, self.phase, self.length, self.deadline, self.period]
    }
}

/// A bus-free time and the jobs in their order.
#[derive(Clone, Debug, PartialEq, Eq)]
pub struct Order {
    pub t0: i32,
    pub jobs: Vec<Job>,
}

impl Order {
    /// Seven numbers a job.
    pub fn numbers(&self) -> Vec<i32> {
        self.jobs.iter().flat_map(Job::numbers).collect()
    }

    /// The kind of its records: 1 where a job has a pack other than 0.
    pub fn kind(&self) -> usize {
        usize::from(self.jobs.iter().any(|job| job.pack != 0))
    }
}
