//! An order that owns its packed bytes.

use crate::job::Job;
use crate::order::Order;
use crate::refusal::Refusal;
use crate::repeating::Repeating;
use crate::ORDER_BYTES;
use alloc::vec::Vec;
use core::fmt;

/// A packed order that passed every check of an order and owns its bytes: it can be kept, sent and returned.
///
/// All that an order can do stands at [`Order`], which [`as_order`](OrderBuf::as_order) lends at no cost.
///
/// ```
/// use leafanchor::{Job, OrderBuf, Refusal, WorkArea};
///
/// fn morning() -> Result<OrderBuf, Refusal> {
///     OrderBuf::pack(-600, &[Job::critical(7).ready(-600).length(495).deadline(0)])
/// }
///
/// let order = morning()?;
/// assert_eq!(order.as_order().plan(&mut WorkArea::boxed())?.finish, -90);
/// // Bytes are checked as they are taken over.
/// assert_eq!(OrderBuf::try_from(order.clone().into_bytes()), Ok(order));
/// assert_eq!(OrderBuf::try_from(vec![0; 3]), Err(Refusal::OrderTooShort));
/// # Ok::<(), leafanchor::Refusal>(())
/// ```
#[derive(Clone, PartialEq, Eq, Hash)]
#[must_use]
pub struct OrderBuf {
    bytes: Vec<u8>,
    t0: i32,
    count: usize,
}

impl OrderBuf {
    /// Packs a bus-free time, -100,000 to 100,000, and jobs.
    ///
    /// # Errors
    /// Refusals 3, 5 to 7 and 9.
    pub fn pack(t0: i32, jobs: &[Job]) -> Result<Self, Refusal> {
        Order::pack(t0, jobs, &mut [0; ORDER_BYTES]).map(OrderBuf::from)
    }

    /// Packs the order of one frame of repeating jobs, and gives it with the frame's seconds, as
    /// [`Order::frame`] does.
    ///
    /// # Errors
    /// Refusals 3, 16, 17 and 9.
    pub fn frame(repeating: &[Repeating]) -> Result<(Self, u32), Refusal> {
        Order::frame(repeating, &mut [0; ORDER_BYTES]).map(|(order, frame)| (OrderBuf::from(order), frame))
    }

    /// The order over these bytes, which are not checked again.
    pub fn as_order(&self) -> Order<'_> {
        Order::checked(&self.bytes, self.t0, self.count)
    }

    /// The packed bytes, header first.
    #[must_use]
    pub fn into_bytes(self) -> Vec<u8> {
        self.bytes
    }
}

impl TryFrom<Vec<u8>> for OrderBuf {
    type Error = Refusal;

    /// Checks packed bytes and keeps them.
    fn try_from(bytes: Vec<u8>) -> Result<Self, Refusal> {
        let order = Order::try_from(&bytes)?;
        let (t0, count) = (order.t0(), order.count());
        Ok(OrderBuf { bytes, t0, count })
    }
}

impl From<Order<'_>> for OrderBuf {
    /// A copy of the order's bytes, which are not checked again.
    fn from(order: Order<'_>) -> Self {
        OrderBuf { bytes: order.bytes().to_vec(), t0: order.t0(), count: order.count() }
    }
}

impl<'a> From<&'a OrderBuf> for Order<'a> {
    fn from(order: &'a OrderBuf) -> Self {
        order.as_order()
    }
}

impl AsRef<[u8]> for OrderBuf {
    /// The packed bytes, header first.
    fn as_ref(&self) -> &[u8] {
        &self.bytes
    }
}

impl fmt::Display for OrderBuf {
    /// As for [`Order`].
    fn fmt(&self, f: &mut fmt::Formatter<'_>) -> fmt::Result {
        self.as_order().fmt(f)
    }
}

impl fmt::Debug for OrderBuf {
    /// As for [`Order`].
    fn fmt(&self, f: &mut fmt::Formatter<'_>) -> fmt::Result {
        self.as_order().fmt(f)
    }
}
