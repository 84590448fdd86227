//! The C boundary: the calls of libleafanchor.a, and one safe function over slices for each of them. This is
//! the only module with unsafe code.
//!
//! Why every call here is sound: the library's contracts ask for pointers that are not null, lengths that are
//! true, and that a buffer which a call writes overlaps no other. A slice's pointer is never null and its
//! length is true, and a `&mut` slice overlaps no other slice that is lent beside it. Given that, each call
//! is proved to stay in its slices and to end, whatever they hold; it keeps no pointer, and never unwinds.
#![allow(unsafe_code)]

use crate::answers::{
    BetterAnswer, ChooseAnswer, ExtendAnswer, FrameAnswer, HalvesAnswer, HeatAnswer, LookupAnswer,
    OpenAnswer, PackAnswer, PlanAnswer, Point, QuestionAnswer, SheetAnswer, SheetTextAnswer, StepAnswer,
    UnpackAnswer, VerdictAnswer,
};

#[rustfmt::skip]
extern "C" {
    fn leafanchor_heat_up(byte: u8) -> HeatAnswer;
    fn leafanchor_unpack(
        order: *const u8, order_len: usize, numbers: *mut i32, numbers_len: usize,
    ) -> UnpackAnswer;
    fn leafanchor_pack(
        t0: i32, numbers: *const i32, numbers_len: usize, order: *mut u8, order_len: usize,
    ) -> PackAnswer;
    fn leafanchor_frame(
        repeating: *const i32, repeating_len: usize, order: *mut u8, order_len: usize,
    ) -> FrameAnswer;
    fn leafanchor_open(order: *const u8, order_len: usize) -> OpenAnswer;
    fn leafanchor_step(order: *const u8, order_len: usize, place: usize) -> StepAnswer;
    fn leafanchor_lookup(profile: *const i32, profile_len: usize, t: i32) -> LookupAnswer;
    fn leafanchor_lookup_records(points: *const Point, points_len: usize, t: i32) -> LookupAnswer;
    fn leafanchor_better_of(
        p: *const i32, p_len: usize, q: *const i32, q_len: usize, out: *mut i32, out_len: usize,
    ) -> BetterAnswer;
    fn leafanchor_extend(
        profile: *const i32, profile_len: usize, order: *const u8, order_len: usize,
        out: *mut i32, out_len: usize, work: *mut i32, work_len: usize,
    ) -> ExtendAnswer;
    fn leafanchor_plan(
        order: *const u8, order_len: usize, starts: *mut i32, starts_len: usize,
        work: *mut i32, work_len: usize,
    ) -> PlanAnswer;
    fn leafanchor_plan_halves(
        order: *const u8, order_len: usize, starts: *mut i32, starts_len: usize,
        work: *mut i32, work_len: usize,
    ) -> HalvesAnswer;
    fn leafanchor_write_plan(
        order: *const u8, order_len: usize, out: *mut u8, out_len: usize, work: *mut i32, work_len: usize,
    ) -> PackAnswer;
    fn leafanchor_legal(
        order: *const u8, order_len: usize, plan: *const u8, plan_len: usize,
    ) -> VerdictAnswer;
    fn leafanchor_best(
        order: *const u8, order_len: usize, plan: *const u8, plan_len: usize,
        work: *mut i32, work_len: usize,
    ) -> VerdictAnswer;
    fn leafanchor_question(
        first: *const u8, first_len: usize, second: *const u8, second_len: usize, t: i32,
        work: *mut i32, work_len: usize,
    ) -> QuestionAnswer;
    fn leafanchor_question_first(
        first: *const u8, first_len: usize, second: *const u8, second_len: usize, t: i32,
        work: *mut i32, work_len: usize,
    ) -> QuestionAnswer;
    fn leafanchor_choose(
        first: *const u8, first_len: usize, second: *const u8, second_len: usize, t: i32,
        work: *mut i32, work_len: usize,
    ) -> ChooseAnswer;
    fn leafanchor_choose_first(
        first: *const u8, first_len: usize, second: *const u8, second_len: usize, t: i32,
        work: *mut i32, work_len: usize,
    ) -> ChooseAnswer;
    fn leafanchor_sheet_add(
        figures: *mut u32, figures_len: usize, order: *const u8, order_len: usize,
        work: *mut i32, work_len: usize,
    ) -> SheetAnswer;
    fn leafanchor_sheet_join(
        figures: *mut u32, figures_len: usize, more: *const u32, more_len: usize,
    ) -> SheetAnswer;
    fn leafanchor_sheet_feed(
        feed: *mut u32, feed_len: usize, front: *mut u8, front_len: usize,
        piece: *const u8, piece_len: usize, work: *mut i32, work_len: usize,
    ) -> SheetAnswer;
    fn leafanchor_sheet_text(
        figures: *const u32, figures_len: usize, cut: u32, text: *mut u8, text_len: usize,
    ) -> SheetTextAnswer;
}

/// The heat-up length for a byte of the sampler. Refusal 12.
pub fn heat_up(byte: u8) -> HeatAnswer {
    // SAFETY: it takes no memory.
    unsafe { leafanchor_heat_up(byte) }
}

/// Unpacks an order into the front of `numbers`, seven a job. Refusals 1 to 7, 9, 10 and 19.
pub fn unpack(order: &[u8], numbers: &mut [i32]) -> UnpackAnswer {
    // SAFETY: the bytes are only read, the numbers are lent alone; both lengths are the slices' own.
    unsafe { leafanchor_unpack(order.as_ptr(), order.len(), numbers.as_mut_ptr(), numbers.len()) }
}

/// Packs a bus-free time and seven numbers a job into the front of `order`: 4 bytes, and 8 a job where every pack is
/// 0, else 9 (R21). Refusals 3 to 7, 9 and 10.
pub fn pack(t0: i32, numbers: &[i32], order: &mut [u8]) -> PackAnswer {
    // SAFETY: the numbers are only read, the bytes are lent alone; both lengths are the slices' own.
    unsafe { leafanchor_pack(t0, numbers.as_ptr(), numbers.len(), order.as_mut_ptr(), order.len()) }
}

/// Packs the order of one frame of repeating jobs, six numbers a job, into the front of `order`: 4 bytes, and 8 a
/// repeat (R43). Refusals 3 and 4 of the numbers, 16 and 17, then 3 and 9 of the order made, then 10.
pub fn frame(repeating: &[i32], order: &mut [u8]) -> FrameAnswer {
    // SAFETY: the numbers are only read, the bytes are lent alone; both lengths are the slices' own.
    unsafe { leafanchor_frame(repeating.as_ptr(), repeating.len(), order.as_mut_ptr(), order.len()) }
}

/// Whether a reader may stand over these bytes, and how many jobs it will meet. Refusals 1 to 5 and 19.
pub fn open(order: &[u8]) -> OpenAnswer {
    // SAFETY: the bytes are only read; the length is the slice's own.
    unsafe { leafanchor_open(order.as_ptr(), order.len()) }
}

/// One step of a reader that stands at `place`. Refusals 1 to 6 and 19.
pub fn step(order: &[u8], place: usize) -> StepAnswer {
    // SAFETY: the bytes are only read; the length is the slice's own. The place is any number.
    unsafe { leafanchor_step(order.as_ptr(), order.len(), place) }
}

/// Looks a time up in a profile of alternating numbers. Refusal 8.
pub fn lookup(profile: &[i32], t: i32) -> LookupAnswer {
    // SAFETY: the numbers are only read; the length is the slice's own.
    unsafe { leafanchor_lookup(profile.as_ptr(), profile.len(), t) }
}

/// Looks a time up in a profile of point records. Refusal 8.
pub fn lookup_records(points: &[Point], t: i32) -> LookupAnswer {
    // SAFETY: the records are only read and laid out as in C, whose weight is any 32 bits; the length is the slice's
    // own.
    unsafe { leafanchor_lookup_records(points.as_ptr(), points.len(), t) }
}

/// Writes the better of two profiles into the front of `out`, which has room for
/// [`PROFILE_ROOM`](crate::PROFILE_ROOM) numbers. Refusals 8 and 10.
pub fn better_of(p: &[i32], q: &[i32], out: &mut [i32]) -> BetterAnswer {
    // SAFETY: p and q are only read, and may be one slice; out is lent alone; the lengths are the slices'
    // own.
    unsafe { leafanchor_better_of(p.as_ptr(), p.len(), q.as_ptr(), q.len(), out.as_mut_ptr(), out.len()) }
}

/// Writes a profile extended by an order into the front of `out`, which has room for
/// [`PROFILE_ROOM`](crate::PROFILE_ROOM) numbers; `work` has room for [`WORK_AREA`](crate::WORK_AREA).
/// Refusals 1 to 10 and 19.
pub fn extend(profile: &[i32], order: &[u8], out: &mut [i32], work: &mut [i32]) -> ExtendAnswer {
    // SAFETY: profile and order are only read; out and work are each lent alone; the lengths are the slices'
    // own.
    unsafe {
        leafanchor_extend(
            profile.as_ptr(),
            profile.len(),
            order.as_ptr(),
            order.len(),
            out.as_mut_ptr(),
            out.len(),
            work.as_mut_ptr(),
            work.len(),
        )
    }
}

/// Plans an order and writes its starts into the front of `starts`, one a job,
/// [`LEFT_OUT`](crate::LEFT_OUT) for a job left out; `work` has room for [`WORK_AREA`](crate::WORK_AREA).
/// Refusals 1 to 7, 9 to 11 and 19.
pub fn plan(order: &[u8], starts: &mut [i32], work: &mut [i32]) -> PlanAnswer {
    // SAFETY: the order is only read; starts and work are each lent alone; the lengths are the slices' own.
    unsafe {
        leafanchor_plan(
            order.as_ptr(),
            order.len(),
            starts.as_mut_ptr(),
            starts.len(),
            work.as_mut_ptr(),
            work.len(),
        )
    }
}

/// Plans an order of halves as [`plan`] does, and tells the optional seconds lost (R34, R35). Refusals 1 to 7, 9 and
/// 19, then 13, whatever the buffers, then 10 and 11.
pub fn plan_halves(order: &[u8], starts: &mut [i32], work: &mut [i32]) -> HalvesAnswer {
    // SAFETY: as for `plan`.
    unsafe {
        leafanchor_plan_halves(
            order.as_ptr(),
            order.len(),
            starts.as_mut_ptr(),
            starts.len(),
            work.as_mut_ptr(),
            work.len(),
        )
    }
}

/// Writes an order's plan in packed bytes into the front of `out`, which has room for
/// [`PLAN_BYTES`](crate::PLAN_BYTES) (R37, R40); `work` has room for [`WORK_AREA`](crate::WORK_AREA). Refusals 1
/// to 7, 9 to 11 and 19.
pub fn write_plan(order: &[u8], out: &mut [u8], work: &mut [i32]) -> PackAnswer {
    // SAFETY: the order is only read; out and work are each lent alone; the lengths are the slices' own.
    unsafe {
        leafanchor_write_plan(
            order.as_ptr(),
            order.len(),
            out.as_mut_ptr(),
            out.len(),
            work.as_mut_ptr(),
            work.len(),
        )
    }
}

/// Whether a packed plan is legal for an order (R38). Refusals 1 to 7, 9 and 19 of the order, then 14 and 15 of the
/// plan.
pub fn legal(order: &[u8], plan: &[u8]) -> VerdictAnswer {
    // SAFETY: both are only read, and may be one slice; the lengths are the slices' own.
    unsafe { leafanchor_legal(order.as_ptr(), order.len(), plan.as_ptr(), plan.len()) }
}

/// Whether a packed plan is best for an order (R39); `work` has room for [`WORK_AREA`](crate::WORK_AREA).
/// Refusals 1 to 7, 9 and 19 of the order, 14 and 15 of the plan, then 10.
pub fn best(order: &[u8], plan: &[u8], work: &mut [i32]) -> VerdictAnswer {
    // SAFETY: order and plan are only read, and may be one slice; work is lent alone; the lengths are the
    // slices' own.
    unsafe {
        leafanchor_best(order.as_ptr(), order.len(), plan.as_ptr(), plan.len(), work.as_mut_ptr(), work.len())
    }
}

/// A call of the library on two openings.
type OnOpenings<A> = unsafe extern "C" fn(*const u8, usize, *const u8, usize, i32, *mut i32, usize) -> A;

/// Makes such a call, with the slices' own lengths.
///
/// # Safety
/// The call only reads the openings, which may be one slice, and writes no more than `work`, which is lent alone.
unsafe fn on_openings<A>(call: OnOpenings<A>, first: &[u8], second: &[u8], t: i32, work: &mut [i32]) -> A {
    call(first.as_ptr(), first.len(), second.as_ptr(), second.len(), t, work.as_mut_ptr(), work.len())
}

/// Asks which opening is worth more at time `t`; equal weight goes to the one that reaches it sooner, and only then
/// to the first (R17); the kind of the winner's records is told too. `work` has room for
/// [`WORK_AREA`](crate::WORK_AREA). Refusals 1 to 7, 9 and 19 of the first, then of the second, then 10 and 11; the
/// field of 6 is told, and no place.
pub fn question(first: &[u8], second: &[u8], t: i32, work: &mut [i32]) -> QuestionAnswer {
    // SAFETY: this call of the library does so.
    unsafe { on_openings(leafanchor_question, first, second, t, work) }
}

/// The same by the older rule: equal weight always goes to the first.
pub fn question_first(first: &[u8], second: &[u8], t: i32, work: &mut [i32]) -> QuestionAnswer {
    // SAFETY: as for `question`.
    unsafe { on_openings(leafanchor_question_first, first, second, t, work) }
}

/// Asks as [`question`] does, and tells where the winner's records lie in its bytes (R18).
pub fn choose(first: &[u8], second: &[u8], t: i32, work: &mut [i32]) -> ChooseAnswer {
    // SAFETY: as for `question`.
    unsafe { on_openings(leafanchor_choose, first, second, t, work) }
}

/// Asks as [`question_first`] does, and tells where the winner's records lie in its bytes (R18).
pub fn choose_first(first: &[u8], second: &[u8], t: i32, work: &mut [i32]) -> ChooseAnswer {
    // SAFETY: as for `question`.
    unsafe { on_openings(leafanchor_choose_first, first, second, t, work) }
}

/// Counts one order more, whatever planning says of its bytes, in the sheet at the front of `figures`, which are
/// [`SHEET_FIGURES`](crate::SHEET_FIGURES) numbers (R46); `work` has room for [`WORK_AREA`](crate::WORK_AREA).
/// Refusals 10 and 18.
pub fn sheet_add(figures: &mut [u32], order: &[u8], work: &mut [i32]) -> SheetAnswer {
    // SAFETY: the bytes are only read; figures and work are each lent alone; the lengths are the slices' own.
    unsafe {
        leafanchor_sheet_add(
            figures.as_mut_ptr(),
            figures.len(),
            order.as_ptr(),
            order.len(),
            work.as_mut_ptr(),
            work.len(),
        )
    }
}

/// Joins the sheet at the front of `more` to that at the front of `figures`, both of
/// [`SHEET_FIGURES`](crate::SHEET_FIGURES) numbers (R46). Refusals 10 and 18.
pub fn sheet_join(figures: &mut [u32], more: &[u32]) -> SheetAnswer {
    // SAFETY: more is only read; figures are lent alone; both lengths are the slices' own.
    unsafe { leafanchor_sheet_join(figures.as_mut_ptr(), figures.len(), more.as_ptr(), more.len()) }
}

/// Feeds a stream's next piece (R48). What is held of the stream stands at the fronts of `feed`,
/// [`SHEET_FEED`](crate::SHEET_FEED) numbers that are 0 at first, and of `front`, [`SHEET_FRONT`](crate::SHEET_FRONT)
/// bytes; `work` has room for [`WORK_AREA`](crate::WORK_AREA). Refusals 10 and 18; the piece with the 10,001st whole
/// entry is refused with 18 and counted up to it, and any piece behind it is refused.
pub fn sheet_feed(feed: &mut [u32], front: &mut [u8], piece: &[u8], work: &mut [i32]) -> SheetAnswer {
    // SAFETY: the piece is only read; feed, front and work are each lent alone; the lengths are the slices' own.
    unsafe {
        leafanchor_sheet_feed(
            feed.as_mut_ptr(),
            feed.len(),
            front.as_mut_ptr(),
            front.len(),
            piece.as_ptr(),
            piece.len(),
            work.as_mut_ptr(),
            work.len(),
        )
    }
}

/// Writes the text of the sheet at the front of `figures` into the front of `text`, which has room for
/// [`SHEET_TEXT`](crate::SHEET_TEXT) bytes: 28 lines, the last of them `whole` where `cut` is 0, else `cut` (R47).
/// Refusals 10 and 18.
pub fn sheet_text(figures: &[u32], cut: u32, text: &mut [u8]) -> SheetTextAnswer {
    // SAFETY: the figures are only read; the text is lent alone; both lengths are the slices' own.
    unsafe { leafanchor_sheet_text(figures.as_ptr(), figures.len(), cut, text.as_mut_ptr(), text.len()) }
}

/// A cleared work area on the heap.
#[cfg(feature = "alloc")]
pub(crate) fn boxed_work_area() -> alloc::boxed::Box<crate::WorkArea> {
    let numbers = alloc::boxed::Box::into_raw(alloc::vec![0_i32; crate::WORK_AREA].into_boxed_slice());
    // SAFETY: the box has just been taken apart. A work area is an array of as many numbers and nothing else
    // (repr(transparent)), so that its size and alignment are those of the slice.
    unsafe { alloc::boxed::Box::from_raw(numbers.cast()) }
}
