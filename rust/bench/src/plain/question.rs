//! Which of two openings is worth more at a time.

use super::order::{judged, Order, Refused, LATEST};
use super::plan::last_row;
use super::rows::{heaviest, in_rows};
use leafanchor::calls::QuestionAnswer;
use leafanchor::{REST, WORK_AREA};
use trials::answer;

/// Asks which opening wins: the same call as the library's.
pub fn question(first: &[u8], second: &[u8], t: i32, work: &mut [i32]) -> QuestionAnswer {
    match winner(first, second, t, work) {
        Ok((winner, kind)) => answer!(QuestionAnswer { winner, kind }),
        Err((refusal, _, field)) => answer!(QuestionAnswer { refusal, field }),
    }
}

/// The winner and the kind of its records, or a refusal.
fn winner(first: &[u8], second: &[u8], t: i32, work: &mut [i32]) -> Result<(u32, u32), Refused> {
    let (first, second) = (judged(first)?, judged(second)?);
    if work.len() < WORK_AREA {
        return Err((10, 0, 0));
    }
    let work = &mut work[..WORK_AREA];
    let worth = [&first, &second].map(|opening| worth(opening, t, work));
    work.fill(0);
    match worth {
        [None, None] => Err((11, 0, 0)),
        [one, other] if one >= other => Ok((1, first.kind)),
        _ => Ok((2, second.kind)),
    }
}

/// What an opening keeps by a time, and how soon; no point by then is worth least.
fn worth(opening: &Order, t: i32, work: &mut [i32]) -> Option<(usize, i32)> {
    // No bus-free time lies past the latest deadline's rest, and none before the earliest t0.
    let by = in_rows(t.clamp(-LATEST - 1, LATEST + REST));
    heaviest(last_row(opening, work), by).map(|(weight, bus_free)| (weight, -bus_free))
}
