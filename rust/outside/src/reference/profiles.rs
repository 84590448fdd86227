//! Profiles from their definition: at each time the greatest weight that can have been kept with the bus free
//! by then.

use super::plans::{run, MOST_JOBS_OF_ALL_CHOICES};
use super::REST;
use trials::Job;

/// A bus-free time and a weight.
pub type Point = (i32, i32);

/// Above this many runs a profile is extended job by job and no longer over all choices.
const MOST_RUNS: usize = 4096;

/// Whether alternating numbers are a profile.
pub fn is_valid(numbers: &[i32]) -> bool {
    let rises = |at: usize| numbers.iter().skip(at).step_by(2).zip(numbers.iter().skip(at + 2).step_by(2));
    numbers.len() % 2 == 0
        && numbers.len() <= 602
        && numbers.iter().step_by(2).all(|time| (-100_000..=100_015).contains(time))
        && numbers.iter().skip(1).step_by(2).all(|weight| (0..=300).contains(weight))
        && rises(0).all(|(a, b)| a < b)
        && rises(1).all(|(a, b)| a < b)
}

/// The last point at or before `t`.
pub fn point_at(profile: &[Point], t: i32) -> Option<Point> {
    profile.iter().rev().find(|point| point.0 <= t).copied()
}

/// The weight of the last point at or before `t`.
pub fn lookup(profile: &[Point], t: i32) -> Option<i32> {
    point_at(profile, t).map(|point| point.1)
}

/// The shortest profile that gives at each time the greatest weight of the points at or before it: of each weight the
/// earliest point, where that is earlier than every heavier one.
pub(super) fn shortest(points: &[Point]) -> Vec<Point> {
    let heaviest = points.iter().map(|point| point.1).max().unwrap_or(0);
    let mut earliest = vec![i32::MAX; heaviest as usize + 1]; // by the weight; MAX where no point has it
    for &(time, weight) in points {
        let so_far = &mut earliest[weight as usize];
        *so_far = time.min(*so_far);
    }
    let mut shortest = Vec::new();
    let mut soonest = i32::MAX;
    for (weight, &time) in earliest.iter().enumerate().rev() {
        if time < soonest {
            soonest = time;
            shortest.push((time, weight as i32));
        }
    }
    shortest.reverse();
    shortest
}

/// The greater of two profiles at each time.
pub fn better_of(p: &[Point], q: &[Point]) -> Vec<Point> {
    shortest(&[p, q].concat())
}

/// A profile extended by jobs. Both ways of doing it must agree where both are done.
pub fn extended(profile: &[Point], jobs: &[Job]) -> Vec<Point> {
    let forward = extended_forward(profile, jobs);
    if jobs.len() <= MOST_JOBS_OF_ALL_CHOICES && profile.len() << jobs.len() <= MOST_RUNS {
        assert_eq!(forward, extended_by_all_choices(profile, jobs), "the two references differ");
    }
    forward
}

/// Over every point and every choice run from that point's time.
fn extended_by_all_choices(profile: &[Point], jobs: &[Job]) -> Vec<Point> {
    let mut points = Vec::new();
    for &(time, weight) in profile {
        for choice in 0..1 << jobs.len() {
            points.extend(run(jobs, time, choice).map(|(bus_free, kept)| (bus_free, weight + kept)));
        }
    }
    shortest(&points)
}

/// What each of these points leads to with a job left out and with it kept.
pub(super) fn led_to(points: &[Point], job: &Job) -> Vec<Point> {
    let mut next = Vec::with_capacity(2 * points.len());
    if job.critical == 0 {
        next.extend_from_slice(points);
    }
    for &(time, weight) in points {
        let finish = time.max(job.ready) + job.length;
        if finish <= job.deadline {
            next.push((finish + REST, weight + job.weight));
        }
    }
    next
}

/// Job by job. What an earlier and no lighter point leads to is never later or lighter, so the points that
/// `shortest` drops are not missed later.
fn extended_forward(profile: &[Point], jobs: &[Job]) -> Vec<Point> {
    jobs.iter().fold(profile.to_vec(), |points, job| shortest(&led_to(&points, job)))
}
