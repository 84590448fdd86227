//! The plan that loses the least weight (R7 to R10), and that of an order of halves (R34, R35).

use crate::calls::{self, PlanAnswer};
use crate::order::{List, Order};
use crate::refusal::Refusal;
use crate::work::WorkArea;
use crate::{LEFT_OUT, MOST_JOBS};
use core::fmt;
use core::iter::FusedIterator;
use core::ops::Deref;

/// The plan of an order: its figures, and for each job its start or none. Later versions may add figures.
///
/// ```
/// use leafanchor::{Job, Order, WorkArea, ORDER_BYTES};
///
/// // Two jobs want the bus from 0 to 10: the first is kept.
/// let jobs = [4, 9].map(|number| Job::optional(number).weight(10).ready(0).length(10).deadline(10));
/// let mut room = [0; ORDER_BYTES];
/// let plan = Order::pack(0, &jobs, &mut room)?.plan(&mut WorkArea::new())?;
/// assert_eq!((plan.kept_weight, plan.lost_weight, plan.finish), (10, 10, 25));
/// assert!(plan.starts().eq([Some(0), None]));
/// assert!(plan.kept_places().eq([0]));
/// assert_eq!(
///     plan.to_string(),
///     "job 4: start 0\n\
///      job 9: left out\n\
///      1 of 2 jobs kept; weight 10 kept, 10 lost; bus free at 25"
/// );
/// # Ok::<(), leafanchor::Refusal>(())
/// ```
#[derive(Clone, Copy, PartialEq, Eq, Hash)]
#[must_use]
pub struct Plan {
    /// The jobs kept, the highest bit for place 0.
    pub mask: u64,
    /// How many jobs are kept.
    pub kept: u32,
    /// The weight of the jobs kept.
    pub kept_weight: u32,
    /// The weight of the jobs left out.
    pub lost_weight: u32,
    /// When the bus is free after the plan: 15 seconds after the last kept job's finish, t0 where none is
    /// kept. From 100,001 to 100,015 it is no t0 of a next order, though a valid time of a point.
    pub finish: i32,
    /// The points in the profiles of the order's prefixes, together.
    pub points: u32,
    jobs: usize,
    /// The jobs' numbers, which are below 64, and their starts; 0 behind the last of them.
    numbers: [u8; MOST_JOBS],
    starts: [i32; MOST_JOBS],
}

impl Plan {
    /// The plan of an order.
    pub(crate) fn of(order: Order<'_>, work: &mut WorkArea) -> Result<Self, Refusal> {
        let mut starts = [0; MOST_JOBS];
        let answer = calls::plan(order.bytes(), &mut starts, work.numbers()).accepted()?;
        Ok(Plan::told(order, answer, starts))
    }

    /// The plan that an accepted answer and the starts beside it tell.
    fn told(order: Order<'_>, answer: PlanAnswer, starts: [i32; MOST_JOBS]) -> Self {
        let mut numbers = [0; MOST_JOBS];
        for (number, job) in numbers.iter_mut().zip(order.jobs()) {
            *number = job.number as u8;
        }
        Plan {
            mask: answer.mask,
            kept: answer.kept,
            kept_weight: answer.kept_weight,
            lost_weight: answer.lost_weight,
            finish: answer.finish,
            points: answer.points,
            jobs: order.count(),
            numbers,
            starts,
        }
    }

    /// The starts in place order, one a job: none for a job left out.
    #[must_use]
    pub fn starts(&self) -> impl ExactSizeIterator<Item = Option<i32>> + DoubleEndedIterator + Clone + '_ {
        self.starts[..self.jobs].iter().map(|&start| if start == LEFT_OUT { None } else { Some(start) })
    }

    /// The start of the job at a place; none if it is left out or there is no such place.
    #[must_use]
    pub fn start(&self, place: usize) -> Option<i32> {
        self.starts().nth(place).flatten()
    }

    /// Whether the job at a place is kept.
    #[must_use]
    pub fn keeps(&self, place: usize) -> bool {
        self.start(place).is_some()
    }

    /// The places of the jobs kept, rising.
    #[must_use]
    pub fn kept_places(&self) -> KeptPlaces {
        KeptPlaces(self.mask)
    }
}

impl fmt::Display for Plan {
    /// One job a line, in the order's sequence, then the jobs and the weight kept, the weight lost and when the bus is
    /// free.
    fn fmt(&self, f: &mut fmt::Formatter<'_>) -> fmt::Result {
        for (number, start) in self.numbers.iter().zip(self.starts()) {
            match start {
                Some(start) => writeln!(f, "job {number}: start {start}")?,
                None => writeln!(f, "job {number}: left out")?,
            }
        }
        let Plan { kept, jobs, kept_weight, lost_weight, finish, .. } = self;
        write!(
            f,
            "{kept} of {jobs} jobs kept; weight {kept_weight} kept, {lost_weight} lost; bus free at {finish}"
        )
    }
}

impl fmt::Debug for Plan {
    fn fmt(&self, f: &mut fmt::Formatter<'_>) -> fmt::Result {
        f.debug_struct("Plan")
            .field("mask", &format_args!("{:#x}", self.mask))
            .field("kept", &self.kept)
            .field("kept_weight", &self.kept_weight)
            .field("lost_weight", &self.lost_weight)
            .field("finish", &self.finish)
            .field("points", &self.points)
            .field("numbers", &&self.numbers[..self.jobs])
            .field("starts", &List(self.starts()))
            .finish()
    }
}

/// The plan of an order of halves: all that a [`Plan`] gives, and the optional seconds lost.
///
/// ```
/// use leafanchor::{Job, Order, WorkArea, ORDER_BYTES};
///
/// // Check 4, whose optional half is job 36, and check 9, whose optional half is job 41: a minute a weight.
/// let jobs = [
///     Job::critical(4).ready(-900).length(300).deadline(-300),
///     Job::optional(36).weight(5).ready(-900).length(300).deadline(0),
///     Job::critical(9).ready(-900).length(200).deadline(0),
///     Job::optional(41).weight(8).ready(-900).length(480).deadline(300),
/// ];
/// let mut room = [0; ORDER_BYTES];
/// let plan = Order::pack(-900, &jobs, &mut room)?.plan_halves(&mut WorkArea::new())?;
/// assert!(plan.starts().eq([Some(-900), None, Some(-585), Some(-370)]));
/// assert_eq!((plan.lost_weight, plan.seconds_lost(), plan.finish), (5, 300, 125));
/// assert!(plan.to_string().ends_with("bus free at 125; 300 optional seconds lost"));
/// # Ok::<(), leafanchor::Refusal>(())
/// ```
#[derive(Clone, Copy, Debug, PartialEq, Eq, Hash)]
#[must_use]
pub struct HalvesPlan {
    plan: Plan,
    seconds_lost: u32,
}

impl HalvesPlan {
    /// The plan of an order of halves.
    pub(crate) fn of(order: Order<'_>, work: &mut WorkArea) -> Result<Self, Refusal> {
        let mut starts = [0; MOST_JOBS];
        let answer = calls::plan_halves(order.bytes(), &mut starts, work.numbers()).accepted()?;
        Ok(HalvesPlan { plan: Plan::told(order, answer.into(), starts), seconds_lost: answer.seconds_lost })
    }

    /// The optional seconds lost: the lengths of the non-critical jobs left out, added.
    #[must_use]
    pub const fn seconds_lost(&self) -> u32 {
        self.seconds_lost
    }
}

impl fmt::Display for HalvesPlan {
    /// As for [`Plan`], with the optional seconds lost at the end.
    fn fmt(&self, f: &mut fmt::Formatter<'_>) -> fmt::Result {
        write!(f, "{}; {} optional seconds lost", self.plan, self.seconds_lost)
    }
}

impl Deref for HalvesPlan {
    type Target = Plan;

    /// The plan without the seconds lost.
    fn deref(&self) -> &Plan {
        &self.plan
    }
}

/// The places of a plan's kept jobs, rising: those of the ones in its mask.
#[derive(Clone, Debug)]
pub struct KeptPlaces(u64);

impl Iterator for KeptPlaces {
    type Item = usize;

    fn next(&mut self) -> Option<usize> {
        if self.0 == 0 {
            return None;
        }
        let place = self.0.leading_zeros();
        self.0 &= !(1 << (63 - place));
        Some(place as usize)
    }

    fn size_hint(&self) -> (usize, Option<usize>) {
        let left = self.0.count_ones() as usize;
        (left, Some(left))
    }
}

impl ExactSizeIterator for KeptPlaces {}
impl FusedIterator for KeptPlaces {}
