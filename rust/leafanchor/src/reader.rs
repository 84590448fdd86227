//! The reader that stands over unchecked bytes and moves job by job (R23).

use crate::calls;
use crate::job::Job;
use crate::refusal::Refusal;
use core::iter::FusedIterator;

/// A reader over packed bytes of which only the header and the kind have been checked. It needs no memory beside them.
///
/// As an iterator it ends after the last job or the first refusal; [`Reader::step`] stays at a refused job
/// and says so again. It does not judge repeated numbers or the sum of the weights:
/// [`Order`](crate::Order) does.
///
/// ```
/// use leafanchor::Reader;
///
/// # let bytes = [0x07, 0xFD, 0xA8, 0, 0x1E, 0x03, 0xFD, 0xA8, 0x07, 0xBC, 0, 0];
/// for job in Reader::open(&bytes)? {
///     println!("{}", job?);
/// }
/// # Ok::<(), leafanchor::Refusal>(())
/// ```
#[derive(Clone, Debug)]
#[must_use]
pub struct Reader<'a> {
    bytes: &'a [u8],
    jobs: usize,
    place: usize,
    refused: bool,
}

impl<'a> Reader<'a> {
    /// A reader at the first job.
    ///
    /// # Errors
    /// Refusals 1 to 5 and 19.
    pub fn open(bytes: &'a [u8]) -> Result<Self, Refusal> {
        let answer = calls::open(bytes).accepted()?;
        Ok(Reader { bytes, jobs: answer.jobs, place: 0, refused: false })
    }

    /// The jobs of the whole order.
    #[must_use]
    pub const fn jobs(&self) -> usize {
        self.jobs
    }

    /// The place of the job that comes next.
    #[must_use]
    pub const fn place(&self) -> usize {
        self.place
    }

    /// The next job, or none at the end.
    ///
    /// # Errors
    /// Refusal 6 at a job out of range, with its field; the reader stays there.
    pub fn step(&mut self) -> Result<Option<Job>, Refusal> {
        let answer = calls::step(self.bytes, self.place);
        self.place = answer.next;
        Ok(answer.accepted()?.job())
    }
}

impl Iterator for Reader<'_> {
    type Item = Result<Job, Refusal>;

    fn next(&mut self) -> Option<Self::Item> {
        if self.refused {
            return None;
        }
        let job = self.step();
        self.refused = job.is_err();
        job.transpose()
    }

    fn size_hint(&self) -> (usize, Option<usize>) {
        let left = if self.refused { 0 } else { self.jobs - self.place };
        // The next job may be refused and end the iteration.
        (left.min(1), Some(left))
    }
}

impl FusedIterator for Reader<'_> {}
