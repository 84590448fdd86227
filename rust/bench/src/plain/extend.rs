//! Extending a profile by an order.

use super::lookup::is_profile;
use super::order::{decoded, Refused};
use super::rows::{self, from_rows, in_rows, NONE, ROW};
use leafanchor::calls::ExtendAnswer;
use leafanchor::{PROFILE_ROOM, WORK_AREA};
use trials::answer;

/// Extends a profile: the same call as the library's.
pub fn extend(profile: &[i32], bytes: &[u8], out: &mut [i32], work: &mut [i32]) -> ExtendAnswer {
    match extended(profile, bytes, out, work) {
        Ok(points) => answer!(ExtendAnswer { points }),
        Err((refusal, place, field)) => answer!(ExtendAnswer { refusal, place, field }),
    }
}

/// How many points are written, or a refusal.
fn extended(profile: &[i32], bytes: &[u8], out: &mut [i32], work: &mut [i32]) -> Result<usize, Refused> {
    let order = decoded(bytes)?;
    if !is_profile(profile) {
        return Err((8, 0, 0));
    }
    let heaviest = profile.last().map_or(0, |&weight| weight as usize);
    order.weighed_with(heaviest)?;
    if out.len() < PROFILE_ROOM || work.len() < WORK_AREA {
        return Err((10, 0, 0));
    }
    let work = &mut work[..WORK_AREA];
    work[..=heaviest].fill(NONE);
    for point in profile.chunks_exact(2) {
        work[point[1] as usize] = in_rows(point[0]);
    }
    let top = rows::fill(order.jobs(), heaviest, work);
    let points = write_points(&work[ROW * order.jobs().len()..][..=top], out);
    work.fill(0);
    Ok(points)
}

/// Writes the points of a row, the heaviest last; gives how many they are.
fn write_points(row: &[i32], out: &mut [i32]) -> usize {
    let points = rows::points_of(row) as usize;
    let (mut at, mut earliest) = (2 * points, NONE);
    for (weight, &bus_free) in row.iter().enumerate().rev() {
        if bus_free < earliest {
            earliest = bus_free;
            at -= 2;
            out[at] = from_rows(bus_free);
            out[at + 1] = weight as i32;
        }
    }
    points
}
