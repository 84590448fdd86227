//! The exact figures of a list of orders (R46, R47, R49).

use crate::calls;
use crate::refusal::Refusal;
use crate::work::WorkArea;
use crate::{SHEET_FIGURES, SHEET_ORDERS, SHEET_REFUSALS, SHEET_TEXT};
use core::fmt;

/// Where the figures behind the refusals stand.
const FEASIBLE: usize = SHEET_REFUSALS + 1;
const OFFERED: usize = FEASIBLE + 1;
const KEPT: usize = FEASIBLE + 2;
const JOBS: usize = FEASIBLE + 3;
const TOP: usize = FEASIBLE + 4;
const PLACE: usize = FEASIBLE + 5;

/// The sheet of a list of at most 10,000 orders: how many there are, how many are refused by each number, and the sums
/// of the feasible ones. An order is any bytes, and counts whatever planning says of it.
///
/// ```
/// use leafanchor::{Job, Order, Sheet, WorkArea, ORDER_BYTES};
///
/// let jobs = [4, 9].map(|number| Job::optional(number).weight(10).ready(0).length(10).deadline(10));
/// let (mut room, mut work) = ([0; ORDER_BYTES], WorkArea::new());
/// let rivals = Order::pack(0, &jobs, &mut room)?; // one of them can be kept
///
/// let mut monday = Sheet::new();
/// monday.add(&[], &mut work)?; // no order at all: refused with 1, and counted
/// monday.add(rivals.bytes(), &mut work)?;
/// let mut week = monday;
/// week.join(&monday)?; // Tuesday is as Monday
///
/// assert_eq!((week.orders(), week.refused(1), week.feasible()), (4, 2, 2));
/// assert_eq!((week.offered_weight(), week.kept_weight(), week.jobs_kept()), (40, 20, 2));
/// assert_eq!(week.busiest(), Some((4, 1))); // 4 points, in the order at place 1
/// assert_eq!((week.ability(), week.loss()), (Some((1, 1)), Some((1, 2))));
/// assert!(week.to_string().ends_with("\n4 1\n1/1\n1/2\nwhole"));
/// # Ok::<(), leafanchor::Refusal>(())
/// ```
///
/// With the feature `alloc` orders are collected into a sheet, and a sheet is extended by orders: by all that are
/// `AsRef<[u8]>`, so by an [`Order`](crate::Order), an `OrderBuf` and bytes. Neither can refuse: of more than 10,000
/// orders the sheet keeps the figures of the first 10,000, but its number of orders is 10,001 from then on, as a
/// stream's is (R48). [`is_over`](Sheet::is_over) says it, [`add`](Sheet::add) and [`join`](Sheet::join) refuse it with
/// 18, and it is shown as `18 0 0`.
///
/// ```
/// use leafanchor::Sheet;
///
/// # #[cfg(feature = "alloc")] {
/// let no_jobs = [0; 4];
/// let mut sheet: Sheet = std::iter::repeat(no_jobs).take(9_999).collect();
/// sheet.extend([&no_jobs[..], &[]]);
/// assert!(sheet.is_over());
/// assert_eq!((sheet.feasible(), sheet.refused(1), sheet.to_string()), (10_000, 0, "18 0 0".to_string()));
/// # }
/// ```
///
/// Sheets have no `+=`: it could not say that two are too many together, or that figures from outside are no sheet's.
#[derive(Clone, Copy, PartialEq, Eq, Hash)]
#[must_use]
pub struct Sheet {
    figures: [u32; SHEET_FIGURES],
}

impl Sheet {
    /// The sheet of no order.
    pub const fn new() -> Self {
        Sheet { figures: [0; SHEET_FIGURES] }
    }

    /// A sheet from the figures of another machine's, in the sequence of [`figures`](Sheet::figures). Any numbers may
    /// come in. Those that no sheet of at most 10,000 orders has are refused with 18 by [`add`](Sheet::add) and
    /// [`join`](Sheet::join), and are shown as `18 0 0`.
    ///
    /// ```
    /// use leafanchor::{Refusal, Sheet, WorkArea};
    ///
    /// let mut sheet = Sheet::new();
    /// sheet.add(&[0; 4], &mut WorkArea::new())?; // an order of no jobs
    /// let mut figures = sheet.figures();
    /// assert_eq!(Sheet::from_figures(figures), sheet);
    /// figures[0] = 2; // one of the two is neither refused nor feasible
    /// assert_eq!(sheet.join(&Sheet::from_figures(figures)), Err(Refusal::NoSheet));
    /// # Ok::<(), leafanchor::Refusal>(())
    /// ```
    pub const fn from_figures(figures: [u32; SHEET_FIGURES]) -> Self {
        Sheet { figures }
    }

    /// The figures, for sheets that travel: the orders, those refused by 1 to 19, the feasible ones, the weight offered
    /// and kept, the jobs kept, the greatest point total and 1 (0 with no feasible order), and its place.
    #[must_use]
    pub const fn figures(&self) -> [u32; SHEET_FIGURES] {
        self.figures
    }

    /// Counts one order more, in the packed bytes given or in what should be some.
    ///
    /// # Errors
    /// Refusal 18 if there are 10,000 orders already, or the figures are no sheet's; the sheet then stays as it was.
    pub fn add(&mut self, order: &[u8], work: &mut WorkArea) -> Result<(), Refusal> {
        calls::sheet_add(&mut self.figures, order, work.numbers()).accepted().map(drop)
    }

    /// Counts the orders of another sheet behind those of this one.
    ///
    /// # Errors
    /// Refusal 18 if there are more than 10,000 orders together, or the figures of either are no sheet's; the sheet
    /// then stays as it was.
    pub fn join(&mut self, other: &Sheet) -> Result<(), Refusal> {
        calls::sheet_join(&mut self.figures, &other.figures).accepted().map(drop)
    }

    /// How many orders there are.
    #[must_use]
    pub const fn orders(&self) -> u32 {
        self.figures[0]
    }

    /// How many orders are refused by a number; none by one that is not 1 to 19.
    #[must_use]
    pub const fn refused(&self, number: u32) -> u32 {
        if 0 < number && number <= SHEET_REFUSALS as u32 {
            self.figures[number as usize]
        } else {
            0
        }
    }

    /// How many orders have a plan.
    #[must_use]
    pub const fn feasible(&self) -> u32 {
        self.figures[FEASIBLE]
    }

    /// All weights of the feasible orders, added.
    #[must_use]
    pub const fn offered_weight(&self) -> u32 {
        self.figures[OFFERED]
    }

    /// The weight that the plans of the feasible orders keep.
    #[must_use]
    pub const fn kept_weight(&self) -> u32 {
        self.figures[KEPT]
    }

    /// The jobs that the plans of the feasible orders keep.
    #[must_use]
    pub const fn jobs_kept(&self) -> u32 {
        self.figures[JOBS]
    }

    /// The greatest point total of a feasible order, and the place of the first order that has it, from 0 and refused
    /// ones counted; none with no feasible order.
    #[must_use]
    pub fn busiest(&self) -> Option<(u32, usize)> {
        self.figures[TOP].checked_sub(1).map(|points| (points, self.figures[PLACE] as usize))
    }

    /// Scheduling ability: the feasible orders over these and those refused with 11, in lowest terms; none where there
    /// is none of either.
    #[must_use]
    pub fn ability(&self) -> Option<(u32, u32)> {
        lowest(self.feasible(), self.feasible().checked_add(self.refused(11))?)
    }

    /// Loss: the weight lost over the weight offered, in lowest terms; none where no weight is offered.
    #[must_use]
    pub fn loss(&self) -> Option<(u32, u32)> {
        lowest(self.offered_weight().checked_sub(self.kept_weight())?, self.offered_weight())
    }

    /// Whether there were more than 10,000 orders.
    #[must_use]
    pub const fn is_over(&self) -> bool {
        self.orders() > SHEET_ORDERS
    }

    /// Shows the text of a sheet that is cut or whole, without the end of its last line.
    pub(crate) fn show(&self, cut: bool, f: &mut fmt::Formatter<'_>) -> fmt::Result {
        let mut text = [0; SHEET_TEXT];
        match calls::sheet_text(&self.figures, u32::from(cut), &mut text).accepted() {
            Ok(told) => {
                let text = core::str::from_utf8(&text[..told.bytes]).map_err(|_| fmt::Error)?;
                f.write_str(text.trim_end())
            }
            Err(refusal) => write!(f, "{} 0 0", refusal.number()),
        }
    }
}

/// A fraction in lowest terms; none where its lower number is 0.
fn lowest(upper: u32, lower: u32) -> Option<(u32, u32)> {
    let (mut divisor, mut rest) = (upper, lower);
    while rest != 0 {
        (divisor, rest) = (rest, divisor % rest);
    }
    if lower == 0 {
        return None;
    }
    Some((upper / divisor, lower / divisor))
}

impl Default for Sheet {
    /// The sheet of no order.
    fn default() -> Self {
        Sheet::new()
    }
}

#[cfg(feature = "alloc")]
impl<B: AsRef<[u8]>> Extend<B> for Sheet {
    /// Counts these orders in a work area on the heap. With the 10,001st the sheet is over, and no more are taken;
    /// none is where its figures are no sheet's.
    fn extend<I: IntoIterator<Item = B>>(&mut self, orders: I) {
        let mut work = WorkArea::boxed();
        for order in orders {
            if self.add(order.as_ref(), &mut work).is_err() {
                // Figures that are no sheet's stay as they are, and are none with one order more.
                self.figures[0] += u32::from(self.orders() == SHEET_ORDERS);
                return;
            }
        }
    }
}

#[cfg(feature = "alloc")]
impl<B: AsRef<[u8]>> FromIterator<B> for Sheet {
    /// The sheet of these orders, counted in a work area on the heap.
    fn from_iter<I: IntoIterator<Item = B>>(orders: I) -> Self {
        let mut sheet = Sheet::new();
        sheet.extend(orders);
        sheet
    }
}

impl fmt::Display for Sheet {
    /// The 28 lines of R47, the last of them `whole`; `18 0 0` where it is over, or its figures are no sheet's.
    fn fmt(&self, f: &mut fmt::Formatter<'_>) -> fmt::Result {
        self.show(false, f)
    }
}

impl fmt::Debug for Sheet {
    fn fmt(&self, f: &mut fmt::Formatter<'_>) -> fmt::Result {
        f.debug_struct("Sheet")
            .field("orders", &self.orders())
            .field("refused", &&self.figures[1..FEASIBLE])
            .field("feasible", &self.feasible())
            .field("offered_weight", &self.offered_weight())
            .field("kept_weight", &self.kept_weight())
            .field("jobs_kept", &self.jobs_kept())
            .field("busiest", &self.busiest())
            .finish()
    }
}
