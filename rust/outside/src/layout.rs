//! Prints the size and alignment of every answer and the offset of every field, as tools/layout.c does on the C
//! side.

use leafanchor::calls::{
    BetterAnswer, ChooseAnswer, ExtendAnswer, FrameAnswer, HalvesAnswer, HeatAnswer, LookupAnswer,
    OpenAnswer, PackAnswer, PlanAnswer, Point, QuestionAnswer, SheetAnswer, SheetTextAnswer, StepAnswer,
    UnpackAnswer, VerdictAnswer,
};
use std::mem::{align_of, size_of};

/// Prints one struct: its C name, size and alignment, then each field's offset.
macro_rules! layout {
    ($kind:ty, $name:literal, $($field:ident),*) => {{
        let value = <$kind>::default();
        let start = &value as *const $kind as usize;
        println!("{} {}, aligned to {}", $name, size_of::<$kind>(), align_of::<$kind>());
        $(println!("{}.{} {}", $name, stringify!($field), &value.$field as *const _ as usize - start);)*
    }};
}

/// Prints all of them, in the order of the header.
pub fn print() {
    layout!(HeatAnswer, "heat_answer", refusal, seconds);
    layout!(UnpackAnswer, "unpack_answer", refusal, place, field, jobs, t0);
    layout!(PackAnswer, "pack_answer", refusal, place, field, bytes);
    layout!(FrameAnswer, "frame_answer", refusal, place, bytes, frame);
    layout!(OpenAnswer, "open_answer", refusal, jobs);
    layout!(
        StepAnswer,
        "step_answer",
        refusal,
        place,
        field,
        end,
        number,
        pack,
        critical,
        weight,
        ready,
        length,
        deadline,
        next
    );
    layout!(Point, "point", time, weight);
    layout!(LookupAnswer, "lookup_answer", refusal, found, weight);
    layout!(BetterAnswer, "better_answer", refusal, points);
    layout!(ExtendAnswer, "extend_answer", refusal, place, field, points);
    layout!(
        PlanAnswer,
        "plan_answer",
        refusal,
        place,
        field,
        mask,
        kept,
        kept_weight,
        lost_weight,
        finish,
        points
    );
    layout!(
        HalvesAnswer,
        "halves_answer",
        refusal,
        place,
        field,
        mask,
        kept,
        kept_weight,
        lost_weight,
        finish,
        points,
        seconds_lost
    );
    layout!(VerdictAnswer, "verdict_answer", refusal, place, field, yes);
    layout!(QuestionAnswer, "question_answer", refusal, field, winner, kind);
    layout!(ChooseAnswer, "choose_answer", refusal, field, winner, offset, length, kind);
    layout!(SheetAnswer, "sheet_answer", refusal);
    layout!(SheetTextAnswer, "sheet_text_answer", refusal, bytes);
}
