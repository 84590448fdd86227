//! Profiles: the greatest weight that can have been kept with the bus free by each time (R11 to R15).

use crate::calls::{self, Point};
use crate::order::Order;
use crate::refusal::Refusal;
use crate::work::WorkArea;
use crate::PROFILE_ROOM;
use core::fmt;

/// A valid profile: up to 301 points, times and weights both strictly rising, times from -100,000 to 100,015.
///
/// It owns its points, in some 2,400 bytes, and allocates nothing. It comes from an order
/// ([`Order::profile`]), from another profile, or from points or alternating numbers that are checked.
///
/// ```
/// use leafanchor::Profile;
///
/// let slow = Profile::try_from(&[0, 0, 20, 7])?; // alternating: time 0, weight 0, time 20, weight 7
/// let quick = Profile::try_from(&[5, 7])?;
/// let better = slow.better_of(&quick);
/// assert_eq!(better.to_string(), "(0, 0), (5, 7)");
/// assert_eq!((better.lookup(-1), better.lookup(4), better.lookup(5)), (None, Some(0), Some(7)));
/// # Ok::<(), leafanchor::Refusal>(())
/// ```
#[derive(Clone, PartialEq, Eq, Hash)]
#[must_use]
pub struct Profile {
    /// The points as alternating times and weights; 0 behind the last of them.
    numbers: [i32; PROFILE_ROOM],
    points: usize,
}

impl Profile {
    /// The profile of an order: the point (t0, 0) extended by it.
    pub(crate) fn of(order: Order<'_>, work: &mut WorkArea) -> Self {
        let mut profile = Profile::default();
        let answer = calls::extend(&[order.t0(), 0], order.bytes(), &mut profile.numbers, work.numbers());
        debug_assert_eq!(answer.refusal, 0, "an order that passed its checks has a profile");
        profile.points = answer.points;
        profile
    }

    /// This profile extended by an order: over every point and every feasible choice run from that point's
    /// time. The order's own bus-free time has no effect.
    ///
    /// # Errors
    /// Refusal 9 if the profile's last weight and the order's weights sum to more than 300.
    pub fn extended(&self, order: Order<'_>, work: &mut WorkArea) -> Result<Self, Refusal> {
        let mut profile = Profile::default();
        let answer = calls::extend(self.numbers(), order.bytes(), &mut profile.numbers, work.numbers());
        profile.points = answer.accepted()?.points;
        Ok(profile)
    }

    /// The shortest profile that gives at each time the greater weight of the two.
    pub fn better_of(&self, other: &Profile) -> Self {
        let mut profile = Profile::default();
        let answer = calls::better_of(self.numbers(), other.numbers(), &mut profile.numbers);
        debug_assert_eq!(answer.refusal, 0, "two valid profiles have a better-of");
        profile.points = answer.points;
        profile
    }

    /// The weight of the last point at or before `t`; none before the first point.
    #[must_use]
    pub fn lookup(&self, t: i32) -> Option<u32> {
        calls::lookup(self.numbers(), t).weight()
    }

    /// The points, times rising.
    #[must_use]
    pub fn points(&self) -> impl ExactSizeIterator<Item = Point> + DoubleEndedIterator + Clone + '_ {
        // The weights of a valid profile are not negative.
        self.numbers().chunks_exact(2).map(|pair| Point { time: pair[0], weight: pair[1] as u32 })
    }

    /// The points as alternating times and weights: twice as many numbers as points.
    #[must_use]
    pub fn numbers(&self) -> &[i32] {
        &self.numbers[..2 * self.points]
    }

    /// Whether there is no point, as for an order without a feasible choice.
    #[must_use]
    pub const fn is_empty(&self) -> bool {
        self.points == 0
    }
}

impl Default for Profile {
    /// The profile without a point.
    fn default() -> Self {
        Profile { numbers: [0; PROFILE_ROOM], points: 0 }
    }
}

impl TryFrom<&[i32]> for Profile {
    type Error = Refusal;

    /// A profile from alternating times and weights; refusal 8 if they are none.
    fn try_from(numbers: &[i32]) -> Result<Self, Refusal> {
        let _valid = calls::lookup(numbers, 0).accepted()?;
        let mut profile = Profile { points: numbers.len() / 2, ..Profile::default() };
        profile.numbers[..numbers.len()].copy_from_slice(numbers);
        Ok(profile)
    }
}

impl TryFrom<&[Point]> for Profile {
    type Error = Refusal;

    /// A profile from points; refusal 8 if they are none.
    fn try_from(points: &[Point]) -> Result<Self, Refusal> {
        let _valid = calls::lookup_records(points, 0).accepted()?;
        let mut profile = Profile { points: points.len(), ..Profile::default() };
        for (pair, point) in profile.numbers.chunks_exact_mut(2).zip(points) {
            pair.copy_from_slice(&[point.time, point.weight as i32]);
        }
        Ok(profile)
    }
}

/// Takes arrays and vectors of an element as slices of it are taken.
macro_rules! as_slices {
    ($($element:ty),*) => {
        $(
            impl<const N: usize> TryFrom<&[$element; N]> for Profile {
                type Error = Refusal;

                /// As for a slice.
                fn try_from(list: &[$element; N]) -> Result<Self, Refusal> {
                    Profile::try_from(&list[..])
                }
            }

            #[cfg(feature = "alloc")]
            impl TryFrom<&alloc::vec::Vec<$element>> for Profile {
                type Error = Refusal;

                /// As for a slice.
                fn try_from(list: &alloc::vec::Vec<$element>) -> Result<Self, Refusal> {
                    Profile::try_from(&list[..])
                }
            }
        )*
    };
}

as_slices!(i32, Point);

impl fmt::Display for Profile {
    fn fmt(&self, f: &mut fmt::Formatter<'_>) -> fmt::Result {
        if self.is_empty() {
            return f.write_str("no point");
        }
        for (place, point) in self.points().enumerate() {
            f.write_str(if place == 0 { "" } else { ", " })?;
            write!(f, "{point}")?;
        }
        Ok(())
    }
}

impl fmt::Debug for Profile {
    fn fmt(&self, f: &mut fmt::Formatter<'_>) -> fmt::Result {
        f.debug_list().entries(self.points()).finish()
    }
}
