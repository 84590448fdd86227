//! Feeding a stream of orders to its sheet.

use super::plan;
use leafanchor::calls::SheetAnswer;
use leafanchor::{MOST_JOBS, SHEET_FEED, SHEET_FIGURES, SHEET_FRONT, SHEET_ORDERS, WORK_AREA};
use trials::answer;

/// Takes a piece of a stream: the same call as the library's.
pub fn sheet_feed(feed: &mut [u32], front: &mut [u8], piece: &[u8], work: &mut [i32]) -> SheetAnswer {
    let refused = |refusal| answer!(SheetAnswer { refusal });
    if feed.len() < SHEET_FEED || front.len() < SHEET_FRONT || work.len() < WORK_AREA {
        return refused(10);
    }
    let (figures, part) = feed[..SHEET_FEED].split_at_mut(SHEET_FIGURES);
    if !is_sheet(figures) || !is_part(part) {
        return refused(18);
    }
    let (front, work) = (&mut front[..SHEET_FRONT], &mut work[..WORK_AREA]);
    let mut left = piece;
    while !left.is_empty() && figures[0] <= SHEET_ORDERS {
        left = &left[take(part, front, left)..];
        if part[0] == 2 && part[1] == part[2] {
            let bytes = SHEET_FRONT.min(part[1] as usize);
            add(figures, &front[..bytes], work);
            part.fill(0);
        }
    }
    work.fill(0);
    refused(if figures[0] > SHEET_ORDERS { 18 } else { 0 })
}

/// Takes a byte of a length, or what there is of an entry; gives how many bytes that is.
fn take(part: &mut [u32], front: &mut [u8], left: &[u8]) -> usize {
    if part[0] < 2 {
        part[0] += 1;
        part[1] = 256 * part[1] + u32::from(left[0]);
        return 1;
    }
    let got = part[2] as usize;
    let taken = left.len().min(part[1] as usize - got);
    if let Some(room) = front.get_mut(got..) {
        let kept = taken.min(room.len());
        room[..kept].copy_from_slice(&left[..kept]);
    }
    part[2] += taken as u32;
    taken
}

/// Counts one order more.
fn add(figures: &mut [u32], order: &[u8], work: &mut [i32]) {
    let answer = plan(order, &mut [0; MOST_JOBS], work);
    let place = figures[0];
    figures[0] += 1;
    if answer.refusal != 0 {
        figures[answer.refusal as usize] += 1;
        return;
    }
    figures[20] += 1;
    figures[21] += answer.kept_weight + answer.lost_weight;
    figures[22] += answer.kept_weight;
    figures[23] += answer.kept;
    if answer.points + 1 > figures[24] {
        figures[24] = answer.points + 1;
        figures[25] = place;
    }
}

/// Whether figures are a sheet's.
fn is_sheet(figures: &[u32]) -> bool {
    let [orders, feasible, offered, kept, jobs, top, place] =
        [0, 20, 21, 22, 23, 24, 25].map(|at| u64::from(figures[at]));
    let judged: u64 = figures[1..=20].iter().copied().map(u64::from).sum();
    let placed = match feasible {
        0 => top == 0 && place == 0,
        _ => (1..=14_449).contains(&top) && place < orders,
    };
    orders <= u64::from(SHEET_ORDERS)
        && judged == orders
        && offered <= 300 * feasible
        && kept <= offered
        && jobs <= 48 * feasible
        && placed
}

/// Whether numbers are what has come of an entry.
fn is_part(part: &[u32]) -> bool {
    match part[0] {
        0 => part[1] == 0 && part[2] == 0,
        1 => part[1] <= 255 && part[2] == 0,
        2 => part[1] <= 65_535 && part[2] < part[1],
        _ => false,
    }
}
