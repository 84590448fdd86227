//! A plan in packed bytes (R37), as planners exchange it.

use crate::calls;
use crate::order::Order;
use crate::refusal::Refusal;
use crate::work::WorkArea;
use crate::PLAN_BYTES;
use core::fmt;
use core::ops::Deref;

/// The packed bytes of an order's own plan: 48 bits for the jobs kept, then 18 for the start of each, and zero bits to
/// the next whole byte. It holds them itself and derefs to them.
///
/// ```
/// use leafanchor::{Job, Order, WorkArea, ORDER_BYTES};
///
/// // Two jobs want the bus at once: the first is kept, which weighs more.
/// let jobs = [
///     Job::optional(4).weight(10).ready(0).length(10).deadline(10),
///     Job::optional(9).weight(9).ready(0).length(10).deadline(12),
/// ];
/// let (mut room, mut work) = ([0; ORDER_BYTES], WorkArea::new());
/// let order = Order::pack(0, &jobs, &mut room)?;
///
/// let ours = order.write_plan(&mut work)?;
/// assert_eq!(ours.as_bytes(), [0x80, 0, 0, 0, 0, 0, 0, 0, 0]);
/// assert!(order.is_legal(&ours)? && order.is_best(&ours, &mut work)?);
///
/// let hangar = [0x40, 0, 0, 0, 0, 0, 0, 0, 0x80]; // the second job, from 2 to 12
/// assert!(order.is_legal(&hangar)? && !order.is_best(&hangar, &mut work)?);
/// let late = [0x40, 0, 0, 0, 0, 0, 0, 0, 0xC0]; // from 3 to 13
/// assert!(!order.is_legal(&late)?);
/// # Ok::<(), leafanchor::Refusal>(())
/// ```
#[derive(Clone, Copy, PartialEq, Eq, Hash)]
#[must_use]
pub struct PackedPlan {
    bytes: [u8; PLAN_BYTES],
    length: usize,
}

impl PackedPlan {
    /// The plan of an order.
    pub(crate) fn of(order: Order<'_>, work: &mut WorkArea) -> Result<Self, Refusal> {
        let mut bytes = [0; PLAN_BYTES];
        let answer = calls::write_plan(order.bytes(), &mut bytes, work.numbers()).accepted()?;
        Ok(PackedPlan { bytes, length: answer.bytes })
    }

    /// The bytes.
    #[must_use]
    pub fn as_bytes(&self) -> &[u8] {
        &self.bytes[..self.length]
    }
}

impl AsRef<[u8]> for PackedPlan {
    fn as_ref(&self) -> &[u8] {
        self.as_bytes()
    }
}

impl Deref for PackedPlan {
    type Target = [u8];

    /// The bytes.
    fn deref(&self) -> &[u8] {
        self.as_bytes()
    }
}

impl fmt::Debug for PackedPlan {
    fn fmt(&self, f: &mut fmt::Formatter<'_>) -> fmt::Result {
        f.debug_tuple("PackedPlan").field(&self.as_bytes()).finish()
    }
}
