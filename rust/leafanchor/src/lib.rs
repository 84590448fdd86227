//! Plans the work on the one service bus of an air-taxi stand: the safe face of the proved library
//! libleafanchor.a.
//!
//! An [`Order`] is packed bytes that the library has checked once, or that it has packed from [`Job`]s, or from
//! [`Repeating`] jobs for one frame. It gives its jobs, its [`Plan`] and its [`Profile`], and where its checks are
//! split into halves its [`HalvesPlan`]; profiles are extended, joined and looked up. It writes its plan in packed
//! bytes, and says of another planner's bytes whether that plan is legal and whether it is best. A [`Sheet`] counts a
//! week of orders, one by one or as a [`SheetStream`]. Whatever is not in order is a [`Refusal`]. Nothing here
//! allocates but [`WorkArea::boxed`], collecting into a [`Sheet`], and [`OrderBuf`], an order that owns its bytes;
//! planning works in the caller's [`WorkArea`]. Times are whole signed seconds, and weights are `u32` in every type.
//!
//! A job's finish is its start plus its length. The contactor rests 15 seconds after every job: the bus is
//! free 15 seconds after the finish, and the next job kept starts then at the earliest. A deadline binds the
//! finish alone. A job's pack says which battery pack it is for; plans and profiles do not read it.
//!
//! ```
//! use leafanchor::{Job, Order, WorkArea, ORDER_BYTES};
//!
//! let jobs = [
//!     Job::critical(7).ready(-600).length(495).deadline(0),
//!     Job::optional(3).weight(20).ready(-200).length(300).deadline(250),
//! ];
//! let mut room = [0; ORDER_BYTES];
//! let order = Order::pack(-600, &jobs, &mut room)?; // or Order::try_from(bytes)?
//!
//! let mut work = WorkArea::new();
//! let plan = order.plan(&mut work)?;
//! println!("{plan}");
//! assert!(plan.starts().eq([Some(-600), Some(-90)])); // the first ends at -105, and the contactor rests
//! assert_eq!(plan.finish, 225); // the second ends at 210
//! assert_eq!(order.profile(&mut work).to_string(), "(-90, 0), (225, 20)");
//! # Ok::<(), leafanchor::Refusal>(())
//! ```
//!
//! docs/RULES.md has the exact rules; `R7` here cites one of them.
//!
//! Features: `alloc` (an order that owns its bytes, a work area on the heap, orders collected into a sheet) and `std`
//! (a refusal is a `std::error::Error`), both on unless default features are off.

#![no_std]
#![deny(missing_docs)]
#![deny(unsafe_code)]

#[cfg(feature = "alloc")]
extern crate alloc;
#[cfg(feature = "std")]
extern crate std;

mod answers;
mod ffi;
mod field;
mod job;
mod kind;
mod openings;
mod order;
#[cfg(feature = "alloc")]
mod order_buf;
mod packed_plan;
mod plan;
mod profile;
mod reader;
mod refusal;
mod repeating;
mod sheet;
mod sheet_stream;
mod work;

pub use answers::Point;
pub use field::Field;
pub use job::Job;
pub use kind::Kind;
pub use openings::{choose, choose_by, question, question_by, Opening, Tie, Winner};
pub use order::Order;
#[cfg(feature = "alloc")]
pub use order_buf::OrderBuf;
pub use packed_plan::PackedPlan;
pub use plan::{HalvesPlan, KeptPlaces, Plan};
pub use profile::Profile;
pub use reader::Reader;
pub use refusal::Refusal;
pub use repeating::Repeating;
pub use sheet::Sheet;
pub use sheet_stream::SheetStream;
pub use work::WorkArea;

/// The library's calls as they stand, for those who lend their own buffers: they take any bytes and any
/// numbers, and answer in figures as in C (R25 to R30). `accepted` turns an answer into a [`Result`].
///
/// A refusal writes nothing, save that 11 leaves the work area cleared, and that 18 comes behind the entries of a
/// stream that were counted. What lies past the part that a call writes stays as it was. Later versions may add
/// figures to an answer.
///
/// ```
/// use leafanchor::{calls, MOST_JOBS, WORK_AREA};
///
/// let (mut starts, mut work) = ([0; MOST_JOBS], [0; WORK_AREA]);
/// # let bytes = [0x07, 0xFD, 0xA8, 0, 0x1E, 0x03, 0xFD, 0xA8, 0x07, 0xBC, 0, 0];
/// let answer = calls::plan(&bytes, &mut starts, &mut work).accepted()?;
/// assert_eq!((answer.kept, answer.finish, starts[0]), (1, -90, -600));
/// # Ok::<(), leafanchor::Refusal>(())
/// ```
pub mod calls {
    pub use crate::answers::{
        BetterAnswer, ChooseAnswer, ExtendAnswer, FrameAnswer, HalvesAnswer, HeatAnswer, LookupAnswer,
        OpenAnswer, PackAnswer, PlanAnswer, Point, QuestionAnswer, SheetAnswer, SheetTextAnswer, StepAnswer,
        UnpackAnswer, VerdictAnswer,
    };
    pub use crate::ffi::{
        best, better_of, choose, choose_first, extend, frame, heat_up, legal, lookup, lookup_records, open,
        pack, plan, plan_halves, question, question_first, sheet_add, sheet_feed, sheet_join, sheet_text,
        step, unpack, write_plan,
    };
}

/// The README's program, which the tests of the documentation run.
#[cfg(doctest)]
#[doc = include_str!("../../../README.md")]
pub struct Readme;

/// Jobs of one order, at most.
pub const MOST_JOBS: usize = 48;
/// Bytes of a packed order's header.
pub const HEADER_BYTES: usize = 4;
/// Bytes of the longest packed order: one with packs.
pub const ORDER_BYTES: usize = HEADER_BYTES + Kind::WithPacks.record_bytes() * MOST_JOBS;
/// Numbers of an unpacked job.
pub const JOB_NUMBERS: usize = 7;
/// Numbers of the longest unpacked order.
pub const ORDER_NUMBERS: usize = JOB_NUMBERS * MOST_JOBS;
/// Repeating jobs of one frame, at most.
pub const MOST_REPEATING: usize = 16;
/// Numbers of so many repeating jobs, six each.
pub const REPEATING_NUMBERS: usize = Repeating::NUMBERS * MOST_REPEATING;
/// Seconds of the longest frame, and of the longest period.
pub const LONGEST_FRAME: u32 = 86_400;
/// Bytes of the longest packed plan: 48 bits for the jobs kept, and 18 for the start of each.
pub const PLAN_BYTES: usize = (48 + 18 * MOST_JOBS) / 8;
/// Points of one profile, at most.
pub const MOST_POINTS: usize = 301;
/// Numbers that extending and better-of ask room for.
pub const PROFILE_ROOM: usize = 2 * MOST_POINTS;
/// Numbers of the work area.
pub const WORK_AREA: usize = (MOST_JOBS + 1) * MOST_POINTS;
/// What stands among the starts for a job that is left out.
pub const LEFT_OUT: i32 = 200_000;
/// Seconds from a job's finish until the bus is free.
pub const REST: i32 = 15;
/// The highest number of a critical half.
pub const HIGHEST_HALF: i32 = 31;
/// An optional half's number less that of its critical half.
pub const HALVES_APART: i32 = 32;
/// Seconds that an optional half takes for each weight.
pub const SECONDS_PER_WEIGHT: i32 = 60;
/// Numbers of a sheet.
pub const SHEET_FIGURES: usize = SHEET_REFUSALS + 7;
/// Those of them that count refusals, 1 to 19.
pub const SHEET_REFUSALS: usize = 19;
/// Orders of one sheet, at most.
pub const SHEET_ORDERS: u32 = 10_000;
/// Bytes that a sheet's text asks room for, however short it is.
pub const SHEET_TEXT: usize = 336;
/// Numbers held of a stream: its sheet's, and three of the entry begun.
pub const SHEET_FEED: usize = SHEET_FIGURES + 3;
/// Bytes held of a stream: the longest order's, and one more.
pub const SHEET_FRONT: usize = ORDER_BYTES + 1;

/// The seconds of heating for the sampler's byte, which is a signed number of degrees (R19, R20).
///
/// ```
/// assert_eq!(leafanchor::heat_up(255), Ok(495)); // -1 degree
/// assert_eq!(leafanchor::heat_up(225), Err(leafanchor::Refusal::CellTooCold)); // -31 degrees
/// ```
///
/// # Errors
/// Refusal 12 below -30 degrees.
pub fn heat_up(byte: u8) -> Result<u32, Refusal> {
    Ok(calls::heat_up(byte).accepted()?.seconds)
}
