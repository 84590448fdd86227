//! How the jobs of an order are packed (R21).

/// The kind of an order's records. An order has one packed form: packing writes records with packs exactly where a job
/// has a pack other than 0.
#[non_exhaustive]
#[derive(Clone, Copy, Debug, PartialEq, Eq, PartialOrd, Ord, Hash)]
pub enum Kind {
    /// 0: eight bytes a job, without its pack, which is then 0.
    Plain,
    /// 1: nine bytes a job, with its pack.
    WithPacks,
}

impl Kind {
    /// The kind's number, as in the header of packed bytes and in the answers of the calls.
    #[must_use]
    pub const fn number(self) -> u32 {
        match self {
            Kind::Plain => 0,
            Kind::WithPacks => 1,
        }
    }

    /// Bytes of a packed job.
    #[must_use]
    pub const fn record_bytes(self) -> usize {
        match self {
            Kind::Plain => 8,
            Kind::WithPacks => 9,
        }
    }

    /// The kind of a number that the library has accepted.
    pub(crate) const fn of(number: u32) -> Self {
        match number {
            0 => Kind::Plain,
            _ => Kind::WithPacks,
        }
    }
}
