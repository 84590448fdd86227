//! Which of two openings wins, by the point of each at the time that is asked for.

use super::Point;
use leafanchor::Tie;
use std::cmp::Ordering;

/// What a point is worth: its weight, and for the tie by the sooner then how early it is. No point is worth least.
fn worth(tie: Tie, point: Option<Point>) -> Option<(i32, i32)> {
    let early = |time: i32| match tie {
        Tie::Sooner => -time,
        Tie::First => 0,
    };
    point.map(|(time, weight)| (weight, early(time)))
}

/// The winner, 1 or 2: what is worth as much goes to the first. None where neither has a point.
pub fn winner(tie: Tie, first: Option<Point>, second: Option<Point>) -> Option<u32> {
    match (worth(tie, first), worth(tie, second)) {
        (None, None) => None,
        (one, two) if one >= two => Some(1),
        _ => Some(2),
    }
}

/// How the times of two points of the same weight compare.
pub fn tied(first: Option<Point>, second: Option<Point>) -> Option<Ordering> {
    let (one, two) = (first?, second?);
    if one.1 == two.1 {
        Some(one.0.cmp(&two.0))
    } else {
        None
    }
}
