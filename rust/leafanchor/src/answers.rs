//! The answers of the library's calls, laid out as in C. A weight is a `u32` as in every type of this crate; where the
//! header has an `int32_t` for one, these are the same 32 bits.

use crate::job::Job;
use crate::refusal::Refusal;
use core::fmt;

/// Declares an answer: its refusal, the place and the field where it has them, and its other figures in the
/// header's order.
macro_rules! answers {
    ($(
        $(#[$about:meta])*
        $name:ident($refusal:ident $(, $place:ident)? $(; $field:ident)?) {
            $($(#[$told:meta])* $figure:ident: $kind:ty,)*
        }
    )*) => {
        $(
            $(#[$about])*
            #[repr(C)]
            #[non_exhaustive]
            #[derive(Clone, Copy, Debug, Default, PartialEq, Eq)]
            #[must_use]
            pub struct $name {
                /// The number of the refusal, 0 if there is none.
                pub $refusal: u32,
                $(
                    /// The place of the refused job, 0 where the refusal is not about one.
                    pub $place: usize,
                )?
                $(
                    /// The field of the refused job that is out of range, for refusal 6; else 0.
                    pub $field: u32,
                )?
                $($(#[$told])* pub $figure: $kind,)*
            }

            impl $name {
                /// The answer, if it is not a refusal.
                ///
                /// # Errors
                /// The refusal by its name, with a place where the answer tells one.
                pub fn accepted(self) -> Result<Self, Refusal> {
                    // What the answer has, else none and 0.
                    let place = [$(Some(self.$place),)? None][0];
                    let field = [$(self.$field,)? 0][0];
                    Refusal::check(self.refusal, place, field).map(|()| self)
                }
            }
        )*
    };
}

answers! {
    /// The answer of [`heat_up`](crate::calls::heat_up).
    HeatAnswer(refusal) {
        /// Seconds of heating.
        seconds: u32,
    }
    /// The answer of [`unpack`](crate::calls::unpack).
    UnpackAnswer(refusal, place; field) {
        /// How many jobs the order has.
        jobs: usize,
        /// Its bus-free time.
        t0: i32,
    }
    /// The answer of [`pack`](crate::calls::pack) and [`write_plan`](crate::calls::write_plan).
    PackAnswer(refusal, place; field) {
        /// Bytes written.
        bytes: usize,
    }
    /// The answer of [`frame`](crate::calls::frame).
    FrameAnswer(refusal, place) {
        /// Bytes written.
        bytes: usize,
        /// The frame's seconds: the least common multiple of the periods.
        frame: u32,
    }
    /// The answer of [`open`](crate::calls::open).
    OpenAnswer(refusal) {
        /// How many jobs the order has.
        jobs: usize,
    }
    /// The answer of [`step`](crate::calls::step).
    StepAnswer(refusal, place; field) {
        /// 1 at the end of the order, else 0.
        end: u32,
        /// The job's number; this and the next six are 0 where no job is given.
        number: i32,
        /// Its pack, 0 to 255.
        pack: i32,
        /// 1 for a critical job, else 0.
        critical: i32,
        /// Its weight.
        weight: u32,
        /// Its ready time.
        ready: i32,
        /// Its length.
        length: i32,
        /// Its deadline.
        deadline: i32,
        /// The place where the reader then stands, refused or not.
        next: usize,
    }
    /// The answer of [`lookup`](crate::calls::lookup) and [`lookup_records`](crate::calls::lookup_records).
    LookupAnswer(refusal) {
        /// 1 or 0.
        found: u32,
        /// The weight found, else 0.
        weight: u32,
    }
    /// The answer of [`better_of`](crate::calls::better_of).
    BetterAnswer(refusal) {
        /// Points written, two numbers each.
        points: usize,
    }
    /// The answer of [`extend`](crate::calls::extend).
    ExtendAnswer(refusal, place; field) {
        /// Points written, two numbers each.
        points: usize,
    }
    /// The answer of [`legal`](crate::calls::legal) and [`best`](crate::calls::best).
    VerdictAnswer(refusal, place; field) {
        /// 1 where the plan is, else 0.
        yes: u32,
    }
    /// The answer of [`question`](crate::calls::question) and
    /// [`question_first`](crate::calls::question_first).
    QuestionAnswer(refusal; field) {
        /// 1 or 2, 0 if refused.
        winner: u32,
        /// The kind of the winner's records, 0 or 1; 0 if refused.
        kind: u32,
    }
    /// The answer of [`choose`](crate::calls::choose) and [`choose_first`](crate::calls::choose_first).
    ChooseAnswer(refusal; field) {
        /// 1 or 2, 0 if refused.
        winner: u32,
        /// Where the winner's records begin in its bytes.
        offset: usize,
        /// How many bytes they are.
        length: usize,
        /// Their kind, 0 or 1; 0 if refused.
        kind: u32,
    }
    /// The answer of [`sheet_add`](crate::calls::sheet_add), [`sheet_join`](crate::calls::sheet_join) and
    /// [`sheet_feed`](crate::calls::sheet_feed).
    SheetAnswer(refusal) {}
    /// The answer of [`sheet_text`](crate::calls::sheet_text).
    SheetTextAnswer(refusal) {
        /// Bytes written.
        bytes: usize,
    }
}

/// Declares the answers that have a plan's figures, each with what it tells behind them.
macro_rules! plan_answers {
    ($($(#[$about:meta])* $name:ident { $($more:tt)* })*) => {
        answers! {
            $(
                $(#[$about])*
                $name(refusal, place; field) {
                    /// The jobs kept, the highest bit for place 0.
                    mask: u64,
                    /// How many jobs are kept.
                    kept: u32,
                    /// The weight of the jobs kept.
                    kept_weight: u32,
                    /// The weight of the jobs left out.
                    lost_weight: u32,
                    /// When the bus is free after the plan: 15 seconds after the last kept job's finish, t0
                    /// where none is kept.
                    finish: i32,
                    /// The points in the profiles of the order's prefixes, together.
                    points: u32,
                    $($more)*
                }
            )*
        }
    };
}

plan_answers! {
    /// The answer of [`plan`](crate::calls::plan).
    PlanAnswer {}
    /// The answer of [`plan_halves`](crate::calls::plan_halves).
    HalvesAnswer {
        /// The optional seconds lost: the lengths of the non-critical jobs left out, added.
        seconds_lost: u32,
    }
}

impl From<HalvesAnswer> for PlanAnswer {
    /// What is told beside the seconds lost.
    fn from(answer: HalvesAnswer) -> Self {
        PlanAnswer {
            refusal: answer.refusal,
            place: answer.place,
            field: answer.field,
            mask: answer.mask,
            kept: answer.kept,
            kept_weight: answer.kept_weight,
            lost_weight: answer.lost_weight,
            finish: answer.finish,
            points: answer.points,
        }
    }
}

impl StepAnswer {
    /// The job, if there is one: none at the end or if refused.
    #[must_use]
    pub fn job(&self) -> Option<Job> {
        if self.refusal != 0 || self.end == 1 {
            return None;
        }
        Some(self.fields())
    }

    /// The seven fields, whether or not they are a job's.
    pub(crate) fn fields(&self) -> Job {
        Job {
            number: self.number,
            pack: self.pack as u8, // the library gives 0 to 255
            critical: self.critical == 1,
            weight: self.weight,
            ready: self.ready,
            length: self.length,
            deadline: self.deadline,
        }
    }
}

impl LookupAnswer {
    /// The weight, if one was found.
    #[must_use]
    pub fn weight(&self) -> Option<u32> {
        if self.found == 1 {
            Some(self.weight)
        } else {
            None
        }
    }
}

/// One point of a profile: from this time on, the bus can be free with this weight kept.
#[repr(C)]
#[derive(Clone, Copy, Debug, Default, PartialEq, Eq, PartialOrd, Ord, Hash)]
pub struct Point {
    /// A bus-free time, -100,000 to 100,015: 15 seconds after a job's finish where one is kept.
    pub time: i32,
    /// The weight kept, 0 to 300.
    pub weight: u32,
}

impl fmt::Display for Point {
    fn fmt(&self, f: &mut fmt::Formatter<'_>) -> fmt::Result {
        write!(f, "({}, {})", self.time, self.weight)
    }
}
