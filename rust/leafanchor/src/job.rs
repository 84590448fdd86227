//! One job of an order (R2).

use crate::JOB_NUMBERS;
use core::fmt;

/// What a field holds until it is given: it is out of range, so that packing names a field that was forgotten.
const NOT_GIVEN: i32 = i32::MIN;

/// A job. Any numbers may stand here; packing refuses those out of range.
///
/// A job is begun by [`Job::critical`] or [`Job::optional`] with its number, and each other field is given by its
/// name. Nothing is guessed: packing refuses a job whose weight, ready time, length or deadline was not given, and
/// names that field. The pack alone may be left out, and is then 0. Later versions may add fields; a job that does not
/// give them stays as it was.
///
/// ```
/// use leafanchor::Job;
///
/// let heat_up = Job::critical(7).ready(-600).length(495).deadline(0);
/// assert_eq!(heat_up.to_string(), "job 7: critical, ready -600, length 495, deadline 0");
/// let mut top_up = Job::optional(3).weight(20).ready(-200).length(300).deadline(250);
/// assert_eq!(top_up.to_string(), "job 3: weight 20, ready -200, length 300, deadline 250");
/// top_up.deadline += 60;
/// assert_eq!(top_up, top_up.deadline(310));
/// assert_eq!(top_up.pack(31).to_string(), "job 3 for pack 31: weight 20, ready -200, length 300, deadline 310");
/// ```
#[non_exhaustive]
#[derive(Clone, Copy, Debug, PartialEq, Eq, Hash)]
#[must_use]
pub struct Job {
    /// The job's number, 0 to 63, unlike any other in its order.
    pub number: i32,
    /// The battery pack that the job is for. No plan and no profile depends on it.
    pub pack: u8,
    /// Whether the job stays in every plan.
    pub critical: bool,
    /// 0 for a critical job, else 1 to 50.
    pub weight: u32,
    /// The earliest start, -100,000 to 100,000.
    pub ready: i32,
    /// Seconds on the bus, 1 to 10,000.
    pub length: i32,
    /// The latest finish, -100,000 to 100,000; the rest after it does not count.
    pub deadline: i32,
}

impl Job {
    /// A job that stays in every plan, by its number: 0 to 63, unlike any other in its order. Its ready time, length
    /// and deadline are to be given.
    pub const fn critical(number: i32) -> Self {
        Job {
            number,
            pack: 0,
            critical: true,
            weight: 0,
            ready: NOT_GIVEN,
            length: NOT_GIVEN,
            deadline: NOT_GIVEN,
        }
    }

    /// A job that may be left out at the loss of its weight, by its number as for [`Job::critical`]. Its weight is to
    /// be given too.
    pub const fn optional(number: i32) -> Self {
        Job { critical: false, ..Job::critical(number) }
    }

    /// For this battery pack.
    pub const fn pack(self, pack: u8) -> Self {
        Job { pack, ..self }
    }

    /// With this weight: 1 to 50, or 0 for a critical job.
    pub const fn weight(self, weight: u32) -> Self {
        Job { weight, ..self }
    }

    /// With this earliest start, -100,000 to 100,000.
    pub const fn ready(self, ready: i32) -> Self {
        Job { ready, ..self }
    }

    /// With so many seconds on the bus, 1 to 10,000.
    pub const fn length(self, length: i32) -> Self {
        Job { length, ..self }
    }

    /// With this latest finish, -100,000 to 100,000; the rest after it does not count.
    pub const fn deadline(self, deadline: i32) -> Self {
        Job { deadline, ..self }
    }

    /// The job unpacked. A weight that no number holds becomes a negative one, which is out of range too.
    pub(crate) fn numbers(&self) -> [i32; JOB_NUMBERS] {
        let (pack, critical, weight) = (self.pack.into(), self.critical.into(), self.weight as i32);
        [self.number, pack, critical, weight, self.ready, self.length, self.deadline]
    }
}

impl fmt::Display for Job {
    fn fmt(&self, f: &mut fmt::Formatter<'_>) -> fmt::Result {
        write!(f, "job {}", self.number)?;
        if self.pack != 0 {
            write!(f, " for pack {}", self.pack)?;
        }
        if self.critical {
            write!(f, ": critical")?;
        } else {
            write!(f, ": weight {}", self.weight)?;
        }
        write!(f, ", ready {}, length {}, deadline {}", self.ready, self.length, self.deadline)
    }
}
