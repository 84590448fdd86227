//! One repeating job of a frame (R41).

use core::fmt;

/// What a field holds until it is given: it is out of range, so that a job with a forgotten field is refused.
const NOT_GIVEN: i32 = i32::MIN;

/// A job that comes again with every period. Any numbers may stand here; [`Order::frame`](crate::Order::frame) refuses
/// those out of range.
///
/// A repeating job is begun by [`Repeating::critical`] or [`Repeating::optional`], and each other field is given by its
/// name. Nothing is guessed: a job whose weight, phase, length, deadline or period was not given is refused with its
/// place. Phase, deadline and [`REST`](crate::REST), added, may not pass the period. Later versions may add fields; a
/// job that does not give them stays as it was.
///
/// ```
/// use leafanchor::Repeating;
///
/// let pump = Repeating::critical().phase(0).length(60).deadline(300).period(1200);
/// assert_eq!(pump.to_string(), "critical, phase 0, length 60, deadline 300, period 1200");
/// let mut fan = Repeating::optional().weight(5).phase(100).length(120).deadline(400).period(1800);
/// assert_eq!(fan.to_string(), "weight 5, phase 100, length 120, deadline 400, period 1800");
/// fan.phase += 60;
/// assert_eq!(fan, fan.phase(160));
/// ```
#[non_exhaustive]
#[derive(Clone, Copy, Debug, PartialEq, Eq, Hash)]
#[must_use]
pub struct Repeating {
    /// Whether every repeat stays in every plan.
    pub critical: bool,
    /// The weight of each repeat: 0 for a critical job, else 1 to 50.
    pub weight: u32,
    /// The earliest start of the first repeat, 0 or more.
    pub phase: i32,
    /// Seconds on the bus, 1 to 10,000.
    pub length: i32,
    /// The latest finish of a repeat in seconds from its earliest start, 1 to 86,400; the rest after it does not count.
    pub deadline: i32,
    /// Seconds from one earliest start to the next, 1 to 86,400.
    pub period: i32,
}

impl Repeating {
    /// How many numbers it is.
    pub(crate) const NUMBERS: usize = 6;

    /// A job whose every repeat stays in every plan. Its phase, length, deadline and period are to be given.
    pub const fn critical() -> Self {
        Repeating {
            critical: true,
            weight: 0,
            phase: NOT_GIVEN,
            length: NOT_GIVEN,
            deadline: NOT_GIVEN,
            period: NOT_GIVEN,
        }
    }

    /// A job of which each repeat may be left out at the loss of its weight. Its weight is to be given too.
    pub const fn optional() -> Self {
        Repeating { critical: false, ..Repeating::critical() }
    }

    /// With this weight of each repeat: 1 to 50, or 0 for a critical job.
    pub const fn weight(self, weight: u32) -> Self {
        Repeating { weight, ..self }
    }

    /// With this earliest start of the first repeat, 0 or more.
    pub const fn phase(self, phase: i32) -> Self {
        Repeating { phase, ..self }
    }

    /// With so many seconds on the bus, 1 to 10,000.
    pub const fn length(self, length: i32) -> Self {
        Repeating { length, ..self }
    }

    /// With this latest finish of a repeat in seconds from its earliest start, 1 to 86,400; the rest after it does not
    /// count.
    pub const fn deadline(self, deadline: i32) -> Self {
        Repeating { deadline, ..self }
    }

    /// With so many seconds from one earliest start to the next, 1 to 86,400.
    pub const fn period(self, period: i32) -> Self {
        Repeating { period, ..self }
    }

    /// The job as its six numbers. A weight that no number holds becomes a negative one, which is out of range too.
    pub(crate) fn numbers(&self) -> [i32; Repeating::NUMBERS] {
        let (critical, weight) = (i32::from(self.critical), self.weight as i32);
        [critical, weight, self.phase, self.length, self.deadline, self.period]
    }
}

impl fmt::Display for Repeating {
    fn fmt(&self, f: &mut fmt::Formatter<'_>) -> fmt::Result {
        if self.critical {
            write!(f, "critical")?;
        } else {
            write!(f, "weight {}", self.weight)?;
        }
        let Repeating { phase, length, deadline, period, .. } = self;
        write!(f, ", phase {phase}, length {length}, deadline {deadline}, period {period}")
    }
}
