//! The weight rows of an order's prefixes in the work area. A cell is the earliest time at which the bus is free after
//! a choice of the first jobs that keeps exactly so much weight.
//! Rows count time from the earliest on, so that no cell is below 0: cells then compare as unsigned numbers, which
//! saves the count of points an instruction a cell.

use super::order::{Job, LATEST};
use leafanchor::REST;

/// Cells of a row.
pub const ROW: usize = 301;
/// The cell of a weight that no feasible choice has; later than every deadline and every bus-free time.
pub const NONE: i32 = 400_000;

/// A time as rows count it.
pub fn in_rows(t: i32) -> i32 {
    t + LATEST
}

/// A cell as a time.
pub fn from_rows(cell: i32) -> i32 {
    cell - LATEST
}

/// Fills the rows behind the first, which has cells up to the weight `top`, each up to its reachable weight; gives that
/// of the last.
pub fn fill(jobs: &[Job], mut top: usize, work: &mut [i32]) -> usize {
    for (k, job) in jobs.iter().enumerate() {
        let (rows, behind) = work.split_at_mut(ROW * (k + 1));
        let old = &rows[ROW * k..][..=top];
        top += job.weight;
        next_row(job, old, &mut behind[..=top]);
    }
    top
}

/// One row to the next: the job left out, or kept after a choice that leaves it time, whichever is earlier.
fn next_row(job: &Job, old: &[i32], new: &mut [i32]) {
    let (ready, takes) = (in_rows(job.ready), job.length + REST);
    let latest = in_rows(job.deadline) - job.length;
    let latest = if ready <= latest { latest } else { -1 }; // no cell is as early
    let kept = |&bus_free: &i32| {
        let rested = bus_free.max(ready) + takes;
        if bus_free <= latest {
            rested
        } else {
            NONE
        }
    };
    if job.critical {
        new.iter_mut().zip(old.iter().map(kept)).for_each(|(cell, with)| *cell = with);
        return;
    }
    // The lightest cells are reached without the job alone, and as many of the heaviest with it alone.
    let alone = job.weight.min(old.len());
    let (light, others) = new.split_at_mut(alone);
    let (middle, heavy) = others.split_at_mut(others.len() - alone);
    light.copy_from_slice(&old[..alone]);
    if job.weight > old.len() {
        middle.fill(NONE);
    }
    for ((cell, with), &without) in middle.iter_mut().zip(old.iter().map(kept)).zip(&old[alone..]) {
        *cell = with.min(without);
    }
    heavy.iter_mut().zip(old[old.len() - alone..].iter().map(kept)).for_each(|(cell, with)| *cell = with);
}

/// The points of the profiles of all rows behind the first, which has one cell.
pub fn points(jobs: &[Job], work: &[i32]) -> u32 {
    let (mut top, mut points) = (0, 0);
    for (jobs, rows) in jobs.chunks(2).zip(work[ROW..].chunks(2 * ROW)) {
        let one = &rows[..=top + jobs[0].weight];
        top += jobs.iter().map(|job| job.weight).sum::<usize>();
        points += match jobs {
            [_, _] => points_of_two(one, &rows[ROW..][..=top]),
            _ => points_of(one),
        };
    }
    points
}

/// The points of a row's profile: the cells earlier than every heavier one.
pub fn points_of(row: &[i32]) -> u32 {
    points_of_two(&[], row)
}

/// The points of two rows, counted side by side, since each row's count waits for the minimum so far.
fn points_of_two(shorter: &[i32], longer: &[i32]) -> u32 {
    let (mut points, mut earliest) = ([0; 2], [NONE as u32; 2]);
    // The minimum comes first: then one comparison serves it and the count.
    let mut count = |row: usize, cell: i32| {
        let (heavier, cell) = (earliest[row], cell as u32);
        earliest[row] = heavier.min(cell);
        points[row] += u32::from(cell < heavier);
    };
    let (common, beyond) = longer.split_at(shorter.len());
    beyond.iter().rev().for_each(|&cell| count(1, cell));
    for (&one, &other) in shorter.iter().zip(common).rev() {
        count(0, one);
        count(1, other);
    }
    points[0] + points[1]
}

/// The heaviest cell of a row that is no later than `by`: its weight and itself.
pub fn heaviest(row: &[i32], by: i32) -> Option<(usize, i32)> {
    let weight = row.iter().rposition(|&bus_free| bus_free <= by)?;
    Some((weight, row[weight]))
}
