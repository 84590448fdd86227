//! One frame of repeating jobs (R41, R42), with the refusals 3, 4, 16, 17 and 9.

use super::{Refused, REST};
use std::collections::BTreeMap;
use trials::{Job, Order, Repeating};

/// The longest frame, deadline and period.
const LONGEST: i32 = 86_400;

/// The repeating job of six numbers.
pub fn repeating_job(n: &[i32]) -> Repeating {
    Repeating { critical: n[0], weight: n[1], phase: n[2], length: n[3], deadline: n[4], period: n[5] }
}

/// By how many seconds a job's rest ends before its period does, if every field is in its range; below 0 it is late.
pub fn spare_seconds(job: &Repeating) -> Option<i64> {
    let weights = if job.critical == 1 { 0..=0 } else { 1..=50 };
    let fields = [
        (job.critical, 0..=1),
        (job.weight, weights),
        (job.phase, 0..=i32::MAX),
        (job.length, 1..=10_000),
        (job.deadline, 1..=LONGEST),
        (job.period, 1..=LONGEST),
    ];
    let rest_ends = i64::from(job.phase) + i64::from(job.deadline) + i64::from(REST);
    let in_range = fields.iter().all(|(value, range)| range.contains(value));
    Some(i64::from(job.period) - rest_ends).filter(|_| in_range)
}

/// How often each prime divides a number.
fn primes_of(mut number: i32) -> BTreeMap<i32, u32> {
    let mut primes = BTreeMap::new();
    let mut prime = 2;
    while number > 1 {
        if number % prime == 0 {
            *primes.entry(prime).or_default() += 1;
            number /= prime;
        } else {
            prime += 1;
        }
    }
    primes
}

/// The least time that every period divides: each prime as often as it divides any of them. None past the longest.
fn frame_of(repeating: &[Repeating]) -> Option<i32> {
    let mut most = BTreeMap::new();
    for (prime, times) in repeating.iter().flat_map(|job| primes_of(job.period)) {
        let so_far = most.entry(prime).or_insert(0);
        *so_far = times.max(*so_far);
    }
    let mut factors = most.into_iter().flat_map(|(prime, times)| (0..times).map(move |_| prime));
    factors.try_fold(1, |frame: i32, prime| frame.checked_mul(prime).filter(|&frame| frame <= LONGEST))
}

/// The jobs of one frame: again and again the one that is due first, of several the one that was given first.
fn repeats(repeating: &[Repeating], frame: i32) -> Vec<Job> {
    let mut due: Vec<i32> = repeating.iter().map(|job| job.phase).collect();
    let mut jobs = Vec::new();
    while let Some(place) = (0..due.len()).filter(|&place| due[place] < frame).min_by_key(|&place| due[place])
    {
        let Repeating { critical, weight, length, deadline, period, .. } = repeating[place];
        let (number, ready) = (jobs.len() as i32, due[place]);
        let deadline = ready + deadline;
        jobs.push(Job { number, pack: 0, critical, weight, ready, length, deadline });
        due[place] += period;
    }
    jobs
}

/// The order of one frame and its seconds, or a refusal 3, 4, 16, 17 or 9.
pub fn frame(numbers: &[i32]) -> Result<(Order, u32), Refused> {
    if numbers.len() > 96 {
        return Err(Refused::new(3));
    }
    if numbers.len() % 6 != 0 {
        return Err(Refused::new(4));
    }
    let repeating: Vec<Repeating> = numbers.chunks(6).map(repeating_job).collect();
    let fits = |job: &Repeating| spare_seconds(job).map_or(false, |seconds| seconds >= 0);
    if let Some(place) = repeating.iter().position(|job| !fits(job)) {
        return Err(Refused::at(16, place));
    }
    let frame = frame_of(&repeating).ok_or(Refused::new(17))?;
    let jobs = repeats(&repeating, frame);
    if jobs.len() > 48 {
        return Err(Refused::new(3));
    }
    if jobs.iter().map(|job| job.weight).sum::<i32>() > 300 {
        return Err(Refused::new(9));
    }
    Ok((Order { t0: 0, jobs }, frame as u32))
}

/// Two frames joined: the jobs of the second are numbered on and set one frame later. None where they do not fit the
/// limits of an order.
pub fn two_frames(order: &Order, frame: u32) -> Option<Order> {
    let (count, seconds) = (order.jobs.len() as i32, frame as i32);
    let later = |job: &Job| Job {
        number: job.number + count,
        ready: job.ready + seconds,
        deadline: job.deadline + seconds,
        ..*job
    };
    let jobs: Vec<Job> = order.jobs.iter().copied().chain(order.jobs.iter().map(later)).collect();
    let two = Order { t0: order.t0, jobs };
    super::judged_numbers(two.t0, &two.numbers()).ok()
}
