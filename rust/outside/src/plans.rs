//! Plans for an order, as another planner might send them: a choice with its own starts, the same with idle time, with
//! a start at an edge, a job more or less or damaged bytes, and bytes that nobody planned.

use crate::reference::{Kept, REST};
use trials::{packed_plan, Order, Random};

/// What a plan is.
#[derive(Clone, Copy, Debug, PartialEq, Eq, PartialOrd, Ord)]
pub enum Kind {
    /// The library's own.
    Ours,
    /// A choice with its own starts.
    Choice,
    /// One with all starts from some job on moved to later times.
    Idle,
    /// One with a start moved to an edge or a second beside it.
    Moved,
    /// One with a job less, or several.
    Dropped,
    /// One with a job more.
    Added,
    /// Bytes of a plan, damaged.
    Damaged,
    /// Bytes or starts that nobody planned.
    Random,
    /// So many ones in the mask, and as many bytes as it may be.
    OfLength,
}

impl Kind {
    /// How many kinds there are.
    pub const COUNT: usize = Kind::OfLength as usize + 1;
}

/// The ends of a signed field of 18 bits.
const ENDS: [i32; 2] = [-131_072, 131_071];

/// A plan for an order whose own plan keeps `ours`, if it has one: what kind it is, and its bytes.
pub fn plan(random: &mut Random, order: &Order, ours: Option<&Kept>) -> (Kind, Vec<u8>) {
    let mut kept = match ours {
        Some(ours) if random.once_in(2) => ours.clone(),
        _ => choice(random, order),
    };
    match random.below(20) {
        0..=1 => (Kind::Choice, packed_plan(&kept)),
        2..=5 if !kept.is_empty() => {
            idle(random, order, &mut kept);
            (Kind::Idle, packed_plan(&kept))
        }
        6..=10 if !kept.is_empty() => {
            move_one(random, order, &mut kept);
            (Kind::Moved, packed_plan(&kept))
        }
        11 if !kept.is_empty() => {
            kept.remove(random.below(kept.len()));
            (Kind::Dropped, packed_plan(&kept))
        }
        12..=13 if kept.len() < order.jobs.len() => {
            add_one(random, order, &mut kept);
            (Kind::Added, packed_plan(&kept))
        }
        14..=17 => (Kind::Damaged, damaged(random, order.jobs.len(), kept)),
        _ => (Kind::Random, random_bytes(random, order.jobs.len())),
    }
}

/// A choice with its own starts: all critical jobs, and of the others that fit all, most or half.
fn choice(random: &mut Random, order: &Order) -> Kept {
    let left_out_once_in = random.one_of(&[2, 4, 100]);
    let mut kept = Kept::new();
    for (place, job) in order.jobs.iter().enumerate() {
        let start = bus_free(order, &kept).max(job.ready);
        let fits = start + job.length <= job.deadline;
        if job.critical == 1 || fits && !random.once_in(left_out_once_in) {
            kept.push((place, start));
        }
    }
    kept
}

/// When the bus is free after these.
fn bus_free(order: &Order, kept: &[(usize, i32)]) -> i32 {
    kept.last().map_or(order.t0, |&(place, start)| start + order.jobs[place].length + REST)
}

/// Moves all starts from some job on to later times: by a second or two, or as far as the deadlines let them and a second
/// beside it.
fn idle(random: &mut Random, order: &Order, kept: &mut Kept) {
    let from = random.below(kept.len());
    let latest =
        |&(place, start): &(usize, i32)| order.jobs[place].deadline - order.jobs[place].length - start;
    let spare = kept[from..].iter().map(latest).min().unwrap_or(0);
    let by = random.one_of(&[1, 2, spare - 1, spare, spare, spare + 1]).max(1);
    kept[from..].iter_mut().for_each(|(_, start)| *start += by);
}

/// Moves one start to an edge or a second beside it, at times to an end of its field.
fn move_one(random: &mut Random, order: &Order, kept: &mut Kept) {
    let at = random.below(kept.len());
    let (place, start) = kept[at];
    let job = &order.jobs[place];
    let edges = [start, order.t0, job.ready, bus_free(order, &kept[..at]), job.deadline - job.length];
    kept[at].1 =
        if random.once_in(20) { random.one_of(&ENDS) } else { random.one_of(&edges) + random.within(-1, 1) };
}

/// Keeps one job more, at its earliest start or where the bus is free.
fn add_one(random: &mut Random, order: &Order, kept: &mut Kept) {
    let left_out: Vec<usize> =
        (0..order.jobs.len()).filter(|&place| kept.iter().all(|&(at, _)| at != place)).collect();
    let place = random.one_of(&left_out);
    let at = kept.iter().filter(|&&(before, _)| before < place).count();
    let start = bus_free(order, &kept[..at]).max(order.jobs[place].ready);
    kept.insert(at, (place, start));
}

/// Packed bytes of a plan for so many jobs, with one or two damages.
fn damaged(random: &mut Random, jobs: usize, mut kept: Kept) -> Vec<u8> {
    if jobs < 48 && random.once_in(5) {
        // A job that is not there, with the start that it asks for.
        kept.push((jobs + random.below(48 - jobs), random.within(-100, 100)));
    }
    let padding = (8 - (48 + 18 * kept.len()) % 8) % 8;
    let mut bytes = packed_plan(&kept);
    for _ in 0..1 + random.below(2) {
        let last = bytes.len() - 1;
        match random.below(5) {
            0 if padding > 0 => bytes[last] |= 1 << random.below(padding),
            1 => bytes[random.below(last.min(6))] ^= 1 << random.below(8),
            2 => bytes.truncate(last),
            3 => bytes.push(random.one_of(&[0, 1, 128, 255])),
            _ => {
                let at = random.below(bytes.len());
                bytes[at] ^= 1 << random.below(8);
            }
        }
    }
    bytes
}

/// Up to 120 bytes, at times with a mask of few jobs; or any jobs from any starts.
fn random_bytes(random: &mut Random, jobs: usize) -> Vec<u8> {
    if random.once_in(2) {
        let places: Vec<usize> = (0..jobs).filter(|_| random.once_in(2)).collect();
        let kept: Kept = places.into_iter().map(|place| (place, random.bits() as i32)).collect();
        return packed_plan(&kept);
    }
    let mut bytes: Vec<u8> = (0..random.below(121)).map(|_| random.bits() as u8).collect();
    if random.once_in(2) {
        bytes.iter_mut().take(6).skip(1).for_each(|byte| *byte = 0);
    }
    bytes
}

/// So many bytes, with so many ones in the mask, those of the first places, and no other.
pub fn of_length(ones: usize, length: usize) -> Vec<u8> {
    let mut bytes = packed_plan(&(0..ones).map(|place| (place, 0)).collect::<Kept>());
    bytes.resize(length, 0);
    bytes
}
