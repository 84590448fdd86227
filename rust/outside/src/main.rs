//! Compares every call of the library, over the C boundary, and the wrapper's types with a plain reference
//! written from docs/RULES.md, on inputs from a fixed generator; ends with a failure if anything differs.
//! `outside layout` prints how the answers are laid out.

mod calls;
mod frames;
mod inputs;
mod kinds;
mod layout;
mod lent;
mod plans;
mod reference;
mod sheet_inputs;
mod sheets;
mod tally;
mod verdicts;

use calls::Trial;
use std::process::ExitCode;

/// Rounds of the trial; each makes 21 calls, and one in LONG a plan of a long order beside them.
const ROUNDS: usize = 15_000;
const LONG: usize = 10;

/// Rounds with orders whose prefixes have many points.
const ROUNDS_OF_LONG_LISTS: usize = 200;

/// Rounds with orders of halves; one in LONG plans two long ones beside the rest.
const ROUNDS_OF_HALVES: usize = 5_000;

/// Rounds with plans to be judged, each of about ten; one in LONG judges as many for a long order beside them.
const ROUNDS_OF_PLANS: usize = 4_200;

/// Rounds with repeating jobs; one in EVERY_ROOM tries a frame with every room beside the rest.
const ROUNDS_OF_FRAMES: usize = 24_000;
const EVERY_ROOM: usize = 400;

/// Rounds with sheets; one in EVERY_PIECE feeds a stream in pieces of every kind beside the rest.
const ROUNDS_OF_SHEETS: usize = 20_000;
const EVERY_PIECE: usize = 150;

fn main() -> ExitCode {
    if std::env::args().nth(1).as_deref() == Some("layout") {
        layout::print();
        return ExitCode::SUCCESS;
    }
    let mut trial = Trial::new(0x1EAF_A4C4_0A11_5EED);
    trial.heat_up();
    for round in 0..ROUNDS {
        trial.unpack();
        trial.pack();
        trial.read();
        trial.lookup();
        trial.lookup_records();
        trial.better_of();
        trial.extend();
        trial.plan();
        trial.plan_order();
        trial.plan_order();
        if round % LONG == 0 {
            trial.plan_long_order();
        }
        trial.openings();
        trial.rival_openings();
    }
    for round in 0..ROUNDS_OF_HALVES {
        trial.halves();
        trial.plan_order_of_halves();
        trial.plan_halves();
        if round % LONG == 0 {
            trial.plan_long_halves();
        }
    }
    for _ in 0..ROUNDS_OF_LONG_LISTS {
        trial.long_lists();
    }
    trial.check_lengths();
    for round in 0..ROUNDS_OF_PLANS {
        trial.check_plans();
        trial.check_any_bytes();
        if round % LONG == 0 {
            trial.check_plans_of_long_order();
        }
    }
    for round in 0..ROUNDS_OF_FRAMES {
        trial.frame();
        if round % EVERY_ROOM == 0 {
            trial.frame_rooms();
        }
    }
    for round in 0..ROUNDS_OF_SHEETS {
        trial.sheet_add();
        trial.sheet_join();
        trial.sheet_text();
        trial.sheet_feed();
        if round % LONG == 0 {
            trial.sheet_past_10_000();
        }
        if round % EVERY_PIECE == 0 {
            trial.sheet_pieces();
        }
    }
    trial.sheet_of_10_000();
    if trial.tally.report() {
        ExitCode::SUCCESS
    } else {
        ExitCode::FAILURE
    }
}
