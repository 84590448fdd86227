//! The memory that planning works in (R29).

use crate::WORK_AREA;
use core::fmt;

/// The memory that planning works in, 58,996 bytes. Make it once, in a static or on the heap where stacks are
/// small, and lend it to every call; no call keeps anything in it.
///
/// ```
/// use leafanchor::{Order, WorkArea};
///
/// # #[cfg(feature = "alloc")] {
/// let mut work = WorkArea::boxed();
/// let order = Order::try_from(&[0; 4])?;
/// assert_eq!(order.plan(&mut work)?.finish, 0);
/// # }
/// # Ok::<(), leafanchor::Refusal>(())
/// ```
#[repr(transparent)]
pub struct WorkArea([i32; WORK_AREA]);

impl WorkArea {
    /// A cleared work area.
    #[must_use]
    pub const fn new() -> Self {
        WorkArea([0; WORK_AREA])
    }

    /// A cleared work area on the heap; none of it passes over the stack.
    #[cfg(feature = "alloc")]
    #[must_use]
    pub fn boxed() -> alloc::boxed::Box<Self> {
        crate::ffi::boxed_work_area()
    }

    pub(crate) fn numbers(&mut self) -> &mut [i32] {
        &mut self.0
    }
}

impl Default for WorkArea {
    fn default() -> Self {
        WorkArea::new()
    }
}

impl fmt::Debug for WorkArea {
    fn fmt(&self, f: &mut fmt::Formatter<'_>) -> fmt::Result {
        f.debug_struct("WorkArea").finish_non_exhaustive()
    }
}
