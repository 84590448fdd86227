//! Packed orders: reading them bit by bit, and the refusals 1 to 7, 9 and 19.

use super::Refused;
use trials::{Job, Order};

/// `width` bits from bit `at` on, highest first.
pub(super) fn bits(bytes: &[u8], at: usize, width: usize) -> i32 {
    (at..at + width).fold(0, |sum, bit| 2 * sum + i32::from(bytes[bit / 8] >> (7 - bit % 8) & 1))
}

/// The same in two's complement.
pub(super) fn signed_bits(bytes: &[u8], at: usize, width: usize) -> i32 {
    let plain = bits(bytes, at, width);
    if plain >= 1 << (width - 1) {
        plain - (1 << width)
    } else {
        plain
    }
}

fn is_time(t: i32) -> bool {
    (-100_000..=100_000).contains(&t)
}

/// The fields of a job that are out of range, by their place in a record counted from 1.
pub fn bad_fields(job: &Job) -> Vec<u32> {
    let weights = if job.critical == 1 { 0..=0 } else { 1..=50 };
    let times = -100_000..=100_000;
    let fields = [
        (job.number, 0..=63),
        (job.pack, 0..=255),
        (job.critical, 0..=1),
        (job.weight, weights),
        (job.ready, times.clone()),
        (job.length, 1..=10_000),
        (job.deadline, times),
    ];
    (1..).zip(fields).filter(|(_, (value, range))| !range.contains(value)).map(|(field, _)| field).collect()
}

/// Refusal 6 of the job at a place, with the first of its fields that is out of range.
fn judged_job(place: usize, job: &Job) -> Result<(), Refused> {
    match bad_fields(job).first() {
        Some(&field) => Err(Refused { number: 6, place, field }),
        None => Ok(()),
    }
}

/// What the header of packed bytes says.
#[derive(Clone, Copy, Debug)]
pub struct Header {
    pub count: usize,
    pub t0: i32,
    pub kind: usize,
}

/// The header of packed bytes, or a refusal 1 to 5 or 19.
pub fn header(bytes: &[u8]) -> Result<Header, Refused> {
    if bytes.len() < 4 {
        return Err(Refused::new(1));
    }
    let kind = bits(bytes, 24, 8) as usize;
    if kind > 1 {
        return Err(Refused::new(2));
    }
    let count = bits(bytes, 0, 6) as usize;
    if count > 48 {
        return Err(Refused::new(3));
    }
    if bytes.len() != 4 + (8 + kind) * count {
        return Err(Refused::new(4));
    }
    let t0 = signed_bits(bytes, 6, 18);
    if !is_time(t0) {
        return Err(Refused::new(5));
    }
    if kind == 1 && (0..count).all(|place| job_at(bytes, kind, place).pack == 0) {
        return Err(Refused::new(19));
    }
    Ok(Header { count, t0, kind })
}

/// The job at a place; a record of kind 0 has no bits for its pack.
fn job_at(bytes: &[u8], kind: usize, place: usize) -> Job {
    let at = 32 + (64 + 8 * kind) * place;
    let behind = at + 6 + 8 * kind;
    Job {
        number: bits(bytes, at, 6),
        pack: bits(bytes, at + 6, 8 * kind),
        critical: bits(bytes, behind, 1),
        weight: bits(bytes, behind + 1, 7),
        ready: signed_bits(bytes, behind + 8, 18),
        length: bits(bytes, behind + 26, 14),
        deadline: signed_bits(bytes, behind + 40, 18),
    }
}

/// The job at a place as the reader gives it, none at the end, or a refusal 1 to 6 or 19.
pub fn reader_job(bytes: &[u8], place: usize) -> Result<Option<Job>, Refused> {
    let Header { count, kind, .. } = header(bytes)?;
    if place >= count {
        return Ok(None);
    }
    let job = job_at(bytes, kind, place);
    judged_job(place, &job).map(|()| Some(job))
}

/// Refusals 6, 7 and 9 of jobs.
fn judged_jobs(jobs: &[Job]) -> Result<(), Refused> {
    jobs.iter().enumerate().try_for_each(|(place, job)| judged_job(place, job))?;
    let stood_earlier = |place: usize| jobs[..place].iter().any(|job| job.number == jobs[place].number);
    if let Some(place) = (0..jobs.len()).find(|&place| stood_earlier(place)) {
        return Err(Refused::at(7, place));
    }
    if jobs.iter().map(|job| job.weight).sum::<i32>() > 300 {
        return Err(Refused::new(9));
    }
    Ok(())
}

/// The order in packed bytes, or a refusal 1 to 7, 9 or 19.
pub fn judged(bytes: &[u8]) -> Result<Order, Refused> {
    let Header { count, t0, kind } = header(bytes)?;
    let jobs: Vec<Job> = (0..count).map(|place| job_at(bytes, kind, place)).collect();
    judged_jobs(&jobs)?;
    Ok(Order { t0, jobs })
}

/// The job of seven numbers.
pub fn job_of(n: &[i32]) -> Job {
    Job { number: n[0], pack: n[1], critical: n[2], weight: n[3], ready: n[4], length: n[5], deadline: n[6] }
}

/// The order in a bus-free time and seven numbers a job, or a refusal 3 to 7 or 9.
pub fn judged_numbers(t0: i32, numbers: &[i32]) -> Result<Order, Refused> {
    if numbers.len() > 336 {
        return Err(Refused::new(3));
    }
    if numbers.len() % 7 != 0 {
        return Err(Refused::new(4));
    }
    if !is_time(t0) {
        return Err(Refused::new(5));
    }
    let jobs: Vec<Job> = numbers.chunks(7).map(job_of).collect();
    judged_jobs(&jobs)?;
    Ok(Order { t0, jobs })
}
