//! Orders whose bytes have been checked, and packing (R2, R3, R21, R22).

use crate::calls;
use crate::job::Job;
use crate::kind::Kind;
use crate::packed_plan::PackedPlan;
use crate::plan::{HalvesPlan, Plan};
use crate::profile::Profile;
use crate::refusal::Refusal;
use crate::repeating::Repeating;
use crate::work::WorkArea;
use crate::{HEADER_BYTES, JOB_NUMBERS, MOST_JOBS, MOST_REPEATING, ORDER_NUMBERS, REPEATING_NUMBERS};
use core::fmt;

/// A packed order that passed every check of an order, over the caller's bytes.
///
/// The proved library judges the bytes once, in `try_from`, with the refusals 1 to 7, 9 and 19, their places and the
/// field of 6. No call refuses an `Order` for any of these again, save that [`Profile::extended`] adds the weight
/// that the profile brings. With the feature `alloc` an [`OrderBuf`](crate::OrderBuf) owns its bytes.
///
/// ```
/// use leafanchor::{Job, Order};
///
/// # let bytes = [0x07, 0xFD, 0xA8, 0, 0x1E, 0x03, 0xFD, 0xA8, 0x07, 0xBC, 0, 0];
/// let order = Order::try_from(&bytes)?;
/// assert_eq!((order.t0(), order.count()), (-600, 1));
/// assert_eq!(order.jobs().next(), Some(Job::critical(7).ready(-600).length(495).deadline(0)));
/// assert_eq!(
///     order.to_string(),
///     "bus free at -600\n\
///      job 7: critical, ready -600, length 495, deadline 0"
/// );
/// # Ok::<(), leafanchor::Refusal>(())
/// ```
#[derive(Clone, Copy, PartialEq, Eq, Hash)]
#[must_use]
pub struct Order<'a> {
    bytes: &'a [u8],
    t0: i32,
    count: usize,
}

impl<'a> TryFrom<&'a [u8]> for Order<'a> {
    type Error = Refusal;

    /// Checks packed bytes.
    fn try_from(bytes: &'a [u8]) -> Result<Self, Refusal> {
        let mut numbers = [0; ORDER_NUMBERS];
        let answer = calls::unpack(bytes, &mut numbers).accepted()?;
        Ok(Order { bytes, t0: answer.t0, count: answer.jobs })
    }
}

impl<'a, const N: usize> TryFrom<&'a [u8; N]> for Order<'a> {
    type Error = Refusal;

    /// Checks packed bytes.
    fn try_from(bytes: &'a [u8; N]) -> Result<Self, Refusal> {
        Order::try_from(&bytes[..])
    }
}

#[cfg(feature = "alloc")]
impl<'a> TryFrom<&'a alloc::vec::Vec<u8>> for Order<'a> {
    type Error = Refusal;

    /// Checks packed bytes.
    fn try_from(bytes: &'a alloc::vec::Vec<u8>) -> Result<Self, Refusal> {
        Order::try_from(&bytes[..])
    }
}

impl<'a> Order<'a> {
    /// Packs a bus-free time, -100,000 to 100,000, and jobs into the front of `room`;
    /// [`ORDER_BYTES`](crate::ORDER_BYTES) are enough for any order. Where a job has a pack, the records are of
    /// [`Kind::WithPacks`].
    ///
    /// ```
    /// use leafanchor::{Job, Kind, Order, WorkArea, ORDER_BYTES};
    ///
    /// let heat_up = Job::critical(7).ready(-600).length(495).deadline(0);
    /// let (mut room, mut other) = ([0; ORDER_BYTES], [0; ORDER_BYTES]);
    /// let plain = Order::pack(-600, &[heat_up], &mut room)?;
    /// let of_pack_3 = Order::pack(-600, &[heat_up.pack(3)], &mut other)?;
    /// assert_eq!((plain.kind(), plain.bytes().len()), (Kind::Plain, 12));
    /// assert_eq!((of_pack_3.kind(), of_pack_3.bytes().len()), (Kind::WithPacks, 13));
    /// assert_eq!(of_pack_3.jobs().next().map(|job| job.pack), Some(3));
    ///
    /// let mut work = WorkArea::new();
    /// assert_eq!(of_pack_3.plan(&mut work), plain.plan(&mut work));
    /// # Ok::<(), leafanchor::Refusal>(())
    /// ```
    ///
    /// # Errors
    /// Refusals 3, 5 to 7, 9 and 10; `room` then stays as it was.
    pub fn pack(t0: i32, jobs: &[Job], room: &'a mut [u8]) -> Result<Self, Refusal> {
        // Room for one job more than an order has: of too many jobs that many are enough for refusal 3.
        let mut numbers = [0; ORDER_NUMBERS + JOB_NUMBERS];
        let unpacked = jobs.iter().take(MOST_JOBS + 1);
        let length = JOB_NUMBERS * unpacked.len();
        for (place, job) in numbers.chunks_exact_mut(JOB_NUMBERS).zip(unpacked) {
            place.copy_from_slice(&job.numbers());
        }
        let answer = calls::pack(t0, &numbers[..length], room).accepted()?;
        Ok(Order { bytes: &room[..answer.bytes], t0, count: jobs.len() })
    }

    /// Packs the order of one frame of repeating jobs into the front of `room`, and gives it with the frame's seconds
    /// (R43); [`ORDER_BYTES`](crate::ORDER_BYTES) are enough for any frame.
    ///
    /// The frame is the least common multiple of the periods, 1 without jobs. Each job is ready at its phase and every
    /// period from there, below the frame. The order has these repeats by ready time and then by the place given,
    /// numbered 0, 1, 2 and so on; its t0 and every pack are 0. Two frames joined, the second set one frame later, keep twice what one
    /// keeps.
    ///
    /// ```
    /// use leafanchor::{Order, Repeating, WorkArea, LONGEST_FRAME, ORDER_BYTES};
    ///
    /// let checks = [
    ///     Repeating::critical().phase(0).length(60).deadline(300).period(1200), // a coolant pump
    ///     Repeating::optional().weight(5).phase(100).length(120).deadline(400).period(1800), // a fan
    /// ];
    /// let mut room = [0; ORDER_BYTES];
    /// let (order, frame) = Order::frame(&checks, &mut room)?;
    /// assert_eq!((frame, LONGEST_FRAME / frame), (3600, 24));
    /// assert!(order.jobs().map(|job| job.ready).eq([0, 100, 1200, 1900, 2400]));
    /// assert_eq!(order.plan(&mut WorkArea::new())?.kept_weight, 10);
    ///
    /// // The fan's deadline and the rest after it would pass its period.
    /// let late = Order::frame(&[checks[0], checks[1].phase(1386)], &mut room).unwrap_err();
    /// assert_eq!(late.to_string(), "job at place 1: out of range, or its deadline late");
    /// # Ok::<(), leafanchor::Refusal>(())
    /// ```
    ///
    /// # Errors
    /// Refusal 3 for more than 16 repeating jobs, 16 with the place of the first that is out of range or late, 17, then
    /// 3 and 9 of the order made, then 10; `room` then stays as it was.
    pub fn frame(repeating: &[Repeating], room: &'a mut [u8]) -> Result<(Self, u32), Refusal> {
        // Room for one job more than a frame has: of too many jobs that many are enough for refusal 3.
        let mut numbers = [0; REPEATING_NUMBERS + Repeating::NUMBERS];
        let given = repeating.iter().take(MOST_REPEATING + 1);
        let length = Repeating::NUMBERS * given.len();
        for (place, job) in numbers.chunks_exact_mut(Repeating::NUMBERS).zip(given) {
            place.copy_from_slice(&job.numbers());
        }
        let answer = calls::frame(&numbers[..length], room).accepted()?;
        let bytes = &room[..answer.bytes];
        let count = (bytes.len() - HEADER_BYTES) / Kind::Plain.record_bytes();
        Ok((Order { bytes, t0: 0, count }, answer.frame))
    }

    /// The order in bytes that were checked before, with the bus-free time and the number of jobs that they hold.
    #[cfg(feature = "alloc")]
    pub(crate) const fn checked(bytes: &'a [u8], t0: i32, count: usize) -> Self {
        Order { bytes, t0, count }
    }

    /// The packed bytes, header first.
    #[must_use]
    pub const fn bytes(self) -> &'a [u8] {
        self.bytes
    }

    /// The packed jobs, without the header.
    #[must_use]
    pub fn records(self) -> &'a [u8] {
        &self.bytes[HEADER_BYTES..]
    }

    /// The kind of the packed jobs.
    #[must_use]
    pub const fn kind(self) -> Kind {
        Kind::of(self.bytes[HEADER_BYTES - 1] as u32)
    }

    /// The bus-free time.
    #[must_use]
    pub const fn t0(self) -> i32 {
        self.t0
    }

    /// How many jobs there are.
    #[must_use]
    pub const fn count(self) -> usize {
        self.count
    }

    /// The job at a place, if there is one.
    #[must_use]
    pub fn job(self, place: usize) -> Option<Job> {
        calls::step(self.bytes, place).job()
    }

    /// The jobs in their order.
    #[must_use]
    pub fn jobs(self) -> impl ExactSizeIterator<Item = Job> + DoubleEndedIterator + Clone + 'a {
        // Every place below the count has a job, by the checks that the order passed.
        (0..self.count).map(move |place| calls::step(self.bytes, place).fields())
    }

    /// The order's profile: at each time the greatest weight that can have been kept with the bus free by
    /// then. It is empty if no choice is feasible.
    pub fn profile(self, work: &mut WorkArea) -> Profile {
        Profile::of(self, work)
    }

    /// The plan that loses the least weight.
    ///
    /// # Errors
    /// Refusal 11 if no choice is feasible.
    pub fn plan(self, work: &mut WorkArea) -> Result<Plan, Refusal> {
        Plan::of(self, work)
    }

    /// The same for an order of halves, and the optional seconds that the plan loses (R34, R35). Long checks
    /// are split into a critical half and an optional one: each non-critical job comes behind the critical one
    /// whose optional half it is, its number [`HALVES_APART`](crate::HALVES_APART) above that one's and its
    /// length [`SECONDS_PER_WEIGHT`](crate::SECONDS_PER_WEIGHT) times its weight, and no critical job is
    /// numbered above [`HIGHEST_HALF`](crate::HIGHEST_HALF).
    ///
    /// # Errors
    /// Refusal 13 with the place of the first job that does not fit this; else 11 if no choice is feasible.
    pub fn plan_halves(self, work: &mut WorkArea) -> Result<HalvesPlan, Refusal> {
        HalvesPlan::of(self, work)
    }

    /// The plan in packed bytes (R37, R40), as the hangar reads plans. It is legal and best.
    ///
    /// # Errors
    /// Refusal 11 if no choice is feasible.
    pub fn write_plan(self, work: &mut WorkArea) -> Result<PackedPlan, Refusal> {
        PackedPlan::of(self, work)
    }

    /// Whether a packed plan, of any planner, is legal (R38): it keeps every critical job, starts none before the
    /// bus-free time or the job's ready time, leaves [`REST`](crate::REST) seconds between a finish and the next
    /// start, and meets every deadline. Idle time is legal.
    ///
    /// # Errors
    /// Refusals 14 and 15 if the bytes are no plan for this order's number of jobs.
    pub fn is_legal(self, plan: &[u8]) -> Result<bool, Refusal> {
        Ok(calls::legal(self.bytes, plan).accepted()?.yes == 1)
    }

    /// Whether a packed plan, of any planner, is best (R39): legal, and no feasible choice keeps more weight.
    ///
    /// # Errors
    /// As for [`is_legal`](Order::is_legal).
    pub fn is_best(self, plan: &[u8], work: &mut WorkArea) -> Result<bool, Refusal> {
        Ok(calls::best(self.bytes, plan, work.numbers()).accepted()?.yes == 1)
    }
}

impl AsRef<[u8]> for Order<'_> {
    /// The packed bytes, header first.
    fn as_ref(&self) -> &[u8] {
        self.bytes
    }
}

impl fmt::Display for Order<'_> {
    /// The bus-free time, then one job a line.
    fn fmt(&self, f: &mut fmt::Formatter<'_>) -> fmt::Result {
        write!(f, "bus free at {}", self.t0)?;
        self.jobs().try_for_each(|job| write!(f, "\n{job}"))
    }
}

impl fmt::Debug for Order<'_> {
    fn fmt(&self, f: &mut fmt::Formatter<'_>) -> fmt::Result {
        f.debug_struct("Order").field("t0", &self.t0).field("jobs", &List(self.jobs())).finish()
    }
}

/// What an iterator gives, shown as a list.
pub(crate) struct List<I>(pub I);

impl<I: Iterator + Clone> fmt::Debug for List<I>
where
    I::Item: fmt::Debug,
{
    fn fmt(&self, f: &mut fmt::Formatter<'_>) -> fmt::Result {
        f.debug_list().entries(self.0.clone()).finish()
    }
}
