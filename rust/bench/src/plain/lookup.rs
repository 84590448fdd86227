//! Profiles as alternating numbers: whether one is valid, and looking a time up in it.

use super::order::{HEAVIEST, LATEST};
use leafanchor::calls::LookupAnswer;
use leafanchor::{PROFILE_ROOM, REST};
use trials::answer;

/// Looks a time up: the same call as the library's.
pub fn lookup(profile: &[i32], t: i32) -> LookupAnswer {
    if !is_profile(profile) {
        return answer!(LookupAnswer { refusal: 8 });
    }
    match points_by(profile, t) {
        0 => LookupAnswer::default(),
        points => answer!(LookupAnswer { found: 1, weight: profile[2 * points - 1] as u32 }),
    }
}

/// Whether numbers are a profile. As both figures rise, the ends alone are held to their ranges; no comparison ends the
/// pass, so that several are made at once.
pub fn is_profile(numbers: &[i32]) -> bool {
    let (first, last) = match numbers {
        [] => return true,
        [time, weight, .., last_time, last_weight] => ((time, weight), (last_time, last_weight)),
        [time, weight] => ((time, weight), (time, weight)),
        _ => return false,
    };
    let rising = numbers.iter().zip(&numbers[2..]).fold(true, |rising, (one, next)| rising & (one < next));
    numbers.len() % 2 == 0
        && numbers.len() <= PROFILE_ROOM
        && rising
        && *first.0 >= -LATEST
        && *first.1 >= 0
        && *last.0 <= LATEST + REST
        && *last.1 <= HEAVIEST as i32
}

/// How many points of a profile are at or before a time.
fn points_by(profile: &[i32], t: i32) -> usize {
    let (mut from, mut to) = (0, profile.len() / 2);
    while from < to {
        let middle = (from + to) / 2;
        if profile[2 * middle] <= t {
            from = middle + 1;
        } else {
            to = middle;
        }
    }
    from
}
