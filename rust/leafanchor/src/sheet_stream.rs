//! The sheet of a stream of orders that comes in pieces (R48).

use crate::calls;
use crate::refusal::Refusal;
use crate::sheet::Sheet;
use crate::work::WorkArea;
use crate::{SHEET_FEED, SHEET_FIGURES, SHEET_FRONT};
use core::fmt;

/// A stream of orders, each behind the number of its bytes in two bytes, the highest first. It is fed in pieces of any
/// size, wherever they are cut, and gives the sheet of its whole entries. It holds 553 bytes, however long the stream
/// is, and allocates nothing.
///
/// ```
/// use leafanchor::{SheetStream, WorkArea};
///
/// let mut work = WorkArea::new();
/// let mut stream = SheetStream::new();
/// stream.feed(&[0, 4, 0, 0], &mut work)?; // half an order of no jobs
/// assert!(stream.is_cut());
/// assert_eq!(stream.sheet().orders(), 0);
/// stream.feed(&[0, 0, 0, 0], &mut work)?; // the other half, and an entry of no bytes
/// assert!(!stream.is_cut());
/// assert_eq!((stream.sheet().feasible(), stream.sheet().refused(1)), (1, 1));
/// assert!(stream.to_string().ends_with("\n0 0\n1/1\n-\nwhole"));
/// # Ok::<(), leafanchor::Refusal>(())
/// ```
///
/// From a file it reads so:
///
/// ```no_run
/// # #[cfg(feature = "std")] {
/// use leafanchor::{SheetStream, WorkArea};
/// use std::io::Read;
///
/// let mut file = std::fs::File::open("week")?;
/// let (mut stream, mut work, mut piece) = (SheetStream::new(), WorkArea::boxed(), [0; 65_536]);
/// loop {
///     match file.read(&mut piece)? {
///         0 => break,
///         bytes => stream.feed(&piece[..bytes], &mut work)?,
///     }
/// }
/// println!("{stream}");
/// # }
/// # Ok::<(), Box<dyn std::error::Error>>(())
/// ```
#[derive(Clone)]
#[must_use]
pub struct SheetStream {
    feed: [u32; SHEET_FEED],
    front: [u8; SHEET_FRONT],
}

impl SheetStream {
    /// A stream of which nothing has come.
    pub const fn new() -> Self {
        SheetStream { feed: [0; SHEET_FEED], front: [0; SHEET_FRONT] }
    }

    /// Takes the next piece.
    ///
    /// # Errors
    /// Refusal 18 once there are more than 10,000 whole entries. The stream is over then, and takes nothing more.
    pub fn feed(&mut self, piece: &[u8], work: &mut WorkArea) -> Result<(), Refusal> {
        calls::sheet_feed(&mut self.feed, &mut self.front, piece, work.numbers()).accepted().map(drop)
    }

    /// The sheet of the whole entries so far; it is over where the stream is.
    pub fn sheet(&self) -> Sheet {
        let mut figures = [0; SHEET_FIGURES];
        figures.copy_from_slice(&self.feed[..SHEET_FIGURES]);
        Sheet::from_figures(figures)
    }

    /// Whether a stream that ends here is cut: in a length, or in an entry.
    #[must_use]
    pub const fn is_cut(&self) -> bool {
        self.feed[SHEET_FIGURES] != 0
    }

    /// Whether there were more than 10,000 whole entries.
    #[must_use]
    pub fn is_over(&self) -> bool {
        self.sheet().is_over()
    }
}

impl Default for SheetStream {
    /// A stream of which nothing has come.
    fn default() -> Self {
        SheetStream::new()
    }
}

impl fmt::Display for SheetStream {
    /// The 28 lines of the stream that ends here (R47), the last of them `cut` or `whole`; `18 0 0` where it is over.
    fn fmt(&self, f: &mut fmt::Formatter<'_>) -> fmt::Result {
        self.sheet().show(self.is_cut(), f)
    }
}

impl fmt::Debug for SheetStream {
    fn fmt(&self, f: &mut fmt::Formatter<'_>) -> fmt::Result {
        let begun = &self.feed[SHEET_FIGURES..];
        f.debug_struct("SheetStream")
            .field("sheet", &self.sheet())
            .field("known", &begun[0])
            .field("size", &begun[1])
            .field("got", &begun[2])
            .finish_non_exhaustive()
    }
}
