//! What the search for dear orders begins with, and how it changes an order.

use trials::{
    dense_order, full_order, half_wide_order, wide_critical_order, wide_equal_order, wide_order,
    wide_short_order, Job, Order, Random,
};

/// What the weights of an order may sum to.
const HEAVIEST: i32 = 300;
/// The latest t0, ready time and deadline; less it the earliest.
const LATEST: i32 = 100_000;

/// A name, and how an order is drawn.
pub type Shape = (&'static str, fn(&mut Random) -> Order);

/// Orders that differ in what may make them dear: how long lists are, when they shrink, how much stands beside them.
pub const SHAPES: [Shape; 18] = [
    ("ordinary", |random| full_order(random, 48)),
    ("ordinary, 8 jobs", |random| full_order(random, 8)),
    ("wide windows", wide_order),
    ("the worst known", dense_order),
    ("critical between wide", wide_critical_order),
    ("wide windows, 24 jobs", wide_short_order),
    ("half windows", half_wide_order),
    ("equal weights", wide_equal_order),
    ("weights of 1", |random| each(wide_order(random), |_, job| job.weight = 1)),
    ("lists of 15 points", |random| each(wide_equal_order(random), |_, job| few_fit(job, 14))),
    ("lists of 20 points", |random| each(wide_equal_order(random), |_, job| few_fit(job, 19))),
    ("long lists that shrink", |random| each(dense_order(random), late_in_the_middle)),
    ("few jobs, long lists", |random| first(dense_order(random), 8)),
    ("few jobs", |random| {
        let jobs = 1 + random.below(8);
        first(wide_order(random), jobs)
    }),
    ("infeasible at the last job", |random| each(wide_order(random), never_runs_last)),
    ("deadlines that cut", |random| each(wide_order(random), |place, job| job.deadline = 600 + 150 * place)),
    ("a number twice", |random| each(full_order(random, 48), |place, job| job.number = place % 47)),
    ("too much weight", |random| {
        each(full_order(random, 48), |place, job| job.weight = 6 + i32::from(place < 13))
    }),
];

/// The order with each job changed by its place.
fn each(mut order: Order, change: fn(i32, &mut Job)) -> Order {
    (0..).zip(&mut order.jobs).for_each(|(place, job)| change(place, job));
    order
}

/// The first jobs of an order.
pub fn first(mut order: Order, jobs: usize) -> Order {
    order.jobs.truncate(jobs);
    order
}

/// Leaves time for so many jobs of nearly one length.
fn few_fit(job: &mut Job, jobs: i32) {
    job.length = 100 + job.length % 8;
    job.ready = -600;
    job.deadline = 122 * jobs - 600;
}

/// A critical job in the middle that is late after most choices.
fn late_in_the_middle(place: i32, job: &mut Job) {
    if place == 20 {
        *job = Job { critical: 1, weight: 0, deadline: 5_000 - LATEST, ..*job };
    }
}

/// A critical job at the end that never runs.
fn never_runs_last(place: i32, job: &mut Job) {
    if place == 47 {
        *job = Job { critical: 1, weight: 0, deadline: job.ready, ..*job };
    }
}

/// The order with one to three changes. One in range stays so.
pub fn changed(random: &mut Random, order: &Order) -> Order {
    let mut order = order.clone();
    for _ in 0..=random.below(3) {
        match random.below(8) {
            0 => order.t0 = time(order.t0 + random.within(-300, 300)),
            1 => change_sequence(random, &mut order.jobs),
            2 => change_count(random, &mut order.jobs),
            3 | 4 => change_weights(random, &mut order.jobs),
            _ => change_times(random, &mut order.jobs),
        }
    }
    order
}

/// Within the limits of times.
fn time(t: i32) -> i32 {
    t.clamp(-LATEST, LATEST)
}

/// Two jobs change places.
fn change_sequence(random: &mut Random, jobs: &mut [Job]) {
    let (one, other) = (random.below(jobs.len()), random.below(jobs.len()));
    jobs.swap(one, other);
}

/// A job less, or one more: like another, with a number of its own and what weight is left.
fn change_count(random: &mut Random, jobs: &mut Vec<Job>) {
    let place = random.below(jobs.len());
    if jobs.len() > 1 && random.once_in(2) {
        jobs.remove(place);
        return;
    }
    let free = (0..64).find(|number| jobs.iter().all(|job| job.number != *number));
    let mut job = jobs[place];
    job.weight = job.weight.min(weight_left(jobs));
    if let Some(number) = free.filter(|_| jobs.len() < 48 && (job.weight > 0 || job.critical == 1)) {
        jobs.insert(place, Job { number, ..job });
    }
}

/// What weight the jobs leave of the most that they may have.
fn weight_left(jobs: &[Job]) -> i32 {
    HEAVIEST - jobs.iter().map(|job| job.weight).sum::<i32>()
}

/// A job takes weight from another, or gets another weight, or it becomes critical or is so no longer.
fn change_weights(random: &mut Random, jobs: &mut [Job]) {
    let (place, from) = (random.below(jobs.len()), random.below(jobs.len()));
    let left = weight_left(jobs);
    let (to, other) = (jobs[place], jobs[from]);
    match random.below(3) {
        0 if place != from && to.critical + other.critical == 0 => {
            let moved = random.within(0, 8).min(other.weight - 1).min(50 - to.weight);
            jobs[place].weight += moved;
            jobs[from].weight -= moved;
        }
        1 if to.critical == 0 => jobs[place].weight = random.within(1, 50.min(to.weight + left.max(0))),
        2 if to.critical == 0 => jobs[place] = Job { critical: 1, weight: 0, ..to },
        2 if left > 0 => jobs[place] = Job { critical: 0, weight: random.within(1, left.min(50)), ..to },
        _ => (),
    }
}

/// A job gets another ready time, length or deadline, near the old one, far from it, or another job's.
fn change_times(random: &mut Random, jobs: &mut [Job]) {
    let other = jobs[random.below(jobs.len())];
    let place = random.below(jobs.len());
    let job = &mut jobs[place];
    let by = random.one_of(&[5, 50, 500, 5_000]);
    let by = random.within(-by, by);
    match random.below(6) {
        0 => job.ready = time(job.ready + by),
        1 => job.length = (job.length + by).clamp(1, 10_000),
        2 => job.deadline = time(job.deadline + by),
        3 => job.ready = other.ready,
        4 => job.length = other.length,
        _ => job.deadline = random.one_of(&[other.deadline, LATEST]),
    }
}
