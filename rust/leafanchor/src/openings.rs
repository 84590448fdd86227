//! Choosing between two openings of a morning (R17, R18).

use crate::calls;
use crate::kind::Kind;
use crate::order::Order;
use crate::refusal::Refusal;
use crate::work::WorkArea;

/// One of the two openings.
#[derive(Clone, Copy, Debug, PartialEq, Eq, PartialOrd, Ord, Hash)]
pub enum Opening {
    /// The first, which also wins where both are worth the same and the [`Tie`] does not tell them apart.
    First,
    /// The second.
    Second,
}

impl Opening {
    fn of(winner: u32) -> Self {
        if winner == 1 {
            Opening::First
        } else {
            Opening::Second
        }
    }
}

/// The opening that won. Later versions may tell more of it.
#[non_exhaustive]
#[derive(Clone, Copy, Debug, PartialEq, Eq, Hash)]
#[must_use]
pub struct Winner<'a> {
    /// Which opening won.
    pub opening: Opening,
    /// Its order.
    pub order: Order<'a>,
    /// Its packed jobs, without the header.
    pub records: &'a [u8],
    /// How they are packed.
    pub kind: Kind,
}

/// Which of two openings wins where both are worth the same weight (R17).
#[derive(Clone, Copy, Debug, Default, PartialEq, Eq, Hash)]
pub enum Tie {
    /// The one that reaches this weight sooner, and the first where both reach it at once.
    #[default]
    Sooner,
    /// Always the first: the night desk's rule, and the only one before version 0.6.
    First,
}

/// Which opening is worth more at time `t`, with equal weight to the one that reaches it sooner.
///
/// # Errors
/// As for [`question_by`].
pub fn question(
    first: Order<'_>,
    second: Order<'_>,
    t: i32,
    work: &mut WorkArea,
) -> Result<Opening, Refusal> {
    question_by(Tie::default(), first, second, t, work)
}

/// Which opening is worth more at time `t`, with equal weight by the tie. The openings may be of unlike
/// [kinds](Order::kind).
///
/// # Errors
/// Refusal 11 if neither has a point by then.
pub fn question_by(
    tie: Tie,
    first: Order<'_>,
    second: Order<'_>,
    t: i32,
    work: &mut WorkArea,
) -> Result<Opening, Refusal> {
    let ask = match tie {
        Tie::Sooner => calls::question,
        Tie::First => calls::question_first,
    };
    let answer = ask(first.bytes(), second.bytes(), t, work.numbers()).accepted()?;
    Ok(Opening::of(answer.winner))
}

/// As [`question`], with the winner's order and records.
///
/// # Errors
/// As for [`question_by`].
pub fn choose<'a>(
    first: Order<'a>,
    second: Order<'a>,
    t: i32,
    work: &mut WorkArea,
) -> Result<Winner<'a>, Refusal> {
    choose_by(Tie::default(), first, second, t, work)
}

/// As [`question_by`], with the winner's order and records.
///
/// ```
/// use leafanchor::{choose, choose_by, Job, Opening, Order, Tie, WorkArea, ORDER_BYTES};
///
/// let (mut slow, mut quick) = ([0; ORDER_BYTES], [0; ORDER_BYTES]);
/// let job = Job::optional(1).weight(10).ready(0).deadline(10);
/// let slow = Order::pack(0, &[job.length(10)], &mut slow)?;
/// let quick = Order::pack(0, &[job.length(5)], &mut quick)?;
/// let mut work = WorkArea::new();
///
/// // The bus is free at 25 after the slow one, at 20 after the quick one: at 24 the quick one alone has weight 10.
/// let winner = choose_by(Tie::First, slow, quick, 24, &mut work)?;
/// assert_eq!((winner.opening, winner.order), (Opening::Second, quick));
/// // At 25 both have it, and the quick one had it sooner.
/// assert_eq!(choose_by(Tie::Sooner, slow, quick, 25, &mut work)?.opening, Opening::Second);
/// assert_eq!(choose_by(Tie::First, slow, quick, 25, &mut work)?.opening, Opening::First);
/// assert_eq!(choose(slow, quick, 25, &mut work)?.order, quick);
/// # Ok::<(), leafanchor::Refusal>(())
/// ```
///
/// # Errors
/// As for [`question_by`].
pub fn choose_by<'a>(
    tie: Tie,
    first: Order<'a>,
    second: Order<'a>,
    t: i32,
    work: &mut WorkArea,
) -> Result<Winner<'a>, Refusal> {
    let choose = match tie {
        Tie::Sooner => calls::choose,
        Tie::First => calls::choose_first,
    };
    let answer = choose(first.bytes(), second.bytes(), t, work.numbers()).accepted()?;
    let opening = Opening::of(answer.winner);
    let order = match opening {
        Opening::First => first,
        Opening::Second => second,
    };
    let records = &order.bytes()[answer.offset..answer.offset + answer.length];
    Ok(Winner { opening, order, records, kind: Kind::of(answer.kind) })
}
