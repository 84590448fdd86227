//! Orders in packed bytes, decoded and judged: refusals 1 to 7, 9 and 19.

use leafanchor::MOST_JOBS;

/// The latest t0, ready time and deadline; less it the earliest.
pub const LATEST: i32 = 100_000;
/// The greatest weight of an order, a profile's last weight included where it extends one.
pub const HEAVIEST: usize = 300;

/// What a plan reads of a job.
#[derive(Clone, Copy, Default)]
pub struct Job {
    pub critical: bool,
    pub weight: usize,
    pub ready: i32,
    pub length: i32,
    pub deadline: i32,
}

/// An order whose jobs are in range.
pub struct Order {
    pub t0: i32,
    pub kind: u32,
    pub weight: usize,
    count: usize,
    jobs: [Job; MOST_JOBS],
}

impl Order {
    /// The jobs in their order.
    pub fn jobs(&self) -> &[Job] {
        &self.jobs[..self.count]
    }

    /// Refusal 9, with what is kept before the order.
    pub fn weighed_with(&self, kept_before: usize) -> Result<(), Refused> {
        if self.weight + kept_before > HEAVIEST {
            return Err((9, 0, 0));
        }
        Ok(())
    }
}

/// A refusal: its number, place and field.
pub type Refused = (u32, usize, u32);

/// The order in packed bytes, or the first refusal that applies.
pub fn judged(bytes: &[u8]) -> Result<Order, Refused> {
    let order = decoded(bytes)?;
    order.weighed_with(0)?;
    Ok(order)
}

/// The same, whatever the weights sum to.
pub fn decoded(bytes: &[u8]) -> Result<Order, Refused> {
    let header: [u8; 4] = bytes.get(..4).and_then(|head| head.try_into().ok()).ok_or((1, 0, 0))?;
    let header = u32::from_be_bytes(header);
    let count = (header >> 26) as usize;
    let t0 = (header << 6) as i32 >> 14;
    let kind = header & 0xFF;
    if kind > 1 {
        return Err((2, 0, 0));
    }
    if count > MOST_JOBS {
        return Err((3, 0, 0));
    }
    if bytes.len() != 4 + (8 + kind as usize) * count {
        return Err((4, 0, 0));
    }
    if !is_time(t0) {
        return Err((5, 0, 0));
    }
    let records = &bytes[4..];
    let mut order = Order { t0, kind, weight: 0, count, jobs: [Job::default(); MOST_JOBS] };
    let jobs = &mut order.jobs[..count];
    order.weight = if kind == 0 {
        decode_jobs::<8>(records, jobs)?
    } else {
        if records.chunks_exact(9).all(|record| pack_of(record) == 0) {
            return Err((19, 0, 0));
        }
        decode_jobs::<9>(records, jobs)?
    };
    Ok(order)
}

/// Decodes the jobs' records, of so many bytes each, judges 6 and 7, and gives the sum of the weights. In every kind a
/// record begins with the number, and all that a plan reads of it stands in the last 58 bits.
fn decode_jobs<const BYTES: usize>(records: &[u8], jobs: &mut [Job]) -> Result<usize, Refused> {
    let mut sums = Sums::default();
    for (place, (record, job)) in records.chunks_exact(BYTES).zip(jobs).enumerate() {
        let last = u64::from_be_bytes(record[BYTES - 8..].try_into().unwrap());
        *job = Job {
            critical: last >> 57 & 1 == 1,
            weight: (last >> 50 & 0x7F) as usize,
            ready: ((last << 14) as i64 >> 46) as i32,
            length: (last >> 18 & 0x3FFF) as i32,
            deadline: ((last << 46) as i64 >> 46) as i32,
        };
        let field = bad_field(job);
        if field != 0 {
            return Err((6, place, field));
        }
        sums.add(place, number_of(record), job.weight);
    }
    sums.weight()
}

/// The number in a record's front.
pub fn number_of(record: &[u8]) -> u8 {
    record[0] >> 2
}

/// The pack in the front of a record of kind 1: two bits behind the number and six of the next byte.
pub fn pack_of(record: &[u8]) -> u8 {
    record[0] << 6 | record[1] >> 2
}

/// What is known of an order's jobs together.
#[derive(Default)]
pub struct Sums {
    seen: u64,
    repeated: Option<usize>,
    weight: usize,
}

impl Sums {
    /// Adds the job at a place; its number is below 64.
    pub fn add(&mut self, place: usize, number: u8, weight: usize) {
        let bit = 1 << number;
        if self.seen & bit != 0 && self.repeated.is_none() {
            self.repeated = Some(place);
        }
        self.seen |= bit;
        self.weight += weight;
    }

    /// The sum of the weights, or refusal 7.
    pub fn weight(&self) -> Result<usize, Refused> {
        match self.repeated {
            Some(place) => Err((7, place, 0)),
            None => Ok(self.weight),
        }
    }
}

/// Whether a number is a t0, a ready time or a deadline.
pub fn is_time(t: i32) -> bool {
    (-LATEST..=LATEST).contains(&t)
}

/// The first field of a job that is out of range, from 4 for the weight to 7 for the deadline; 0 if none is.
pub fn bad_field(job: &Job) -> u32 {
    let weighed = if job.critical { job.weight == 0 } else { (1..=50).contains(&job.weight) };
    if !weighed {
        4
    } else if !is_time(job.ready) {
        5
    } else if !(1..=10_000).contains(&job.length) {
        6
    } else if !is_time(job.deadline) {
        7
    } else {
        0
    }
}
