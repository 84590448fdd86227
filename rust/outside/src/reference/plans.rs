//! The plan from its definition, over all choices, and for long orders job by job.
//!
//! A choice is a number whose bit i says that the job at place i is kept. At the last place where two choices
//! differ the one that leaves the job out comes first: that place is their highest differing bit, so the
//! smaller number comes first.

use super::profiles::{extended, led_to, shortest};
use super::REST;
use trials::Order;

/// Up to this many jobs everything is found over all choices.
pub const MOST_JOBS_OF_ALL_CHOICES: usize = 11;

/// A feasible choice with the figures that rank it.
#[derive(Clone, Copy, Debug, PartialEq, Eq)]
pub struct Best {
    pub weight: i32,
    pub bus_free: i32,
    pub choice: u64,
}

impl Best {
    /// Greatest weight, then earliest bus-free time, then the tie rule: the least key comes first.
    fn key(&self) -> (i32, i32, u64) {
        (-self.weight, self.bus_free, self.choice)
    }
}

/// The bus-free time and kept weight of a choice run from a time; none if it is not feasible.
pub fn run(jobs: &[trials::Job], from: i32, choice: u64) -> Option<(i32, i32)> {
    let (mut bus_free, mut weight) = (from, 0);
    for (place, job) in jobs.iter().enumerate() {
        if choice >> place & 1 == 1 {
            let finish = bus_free.max(job.ready) + job.length;
            if finish > job.deadline {
                return None;
            }
            bus_free = finish + REST;
            weight += job.weight;
        } else if job.critical == 1 {
            return None;
        }
    }
    Some((bus_free, weight))
}

/// The first of all feasible choices, and how many share its weight and bus-free time.
pub fn best_by_all_choices(order: &Order) -> Option<(Best, usize)> {
    let feasible = |choice| {
        run(&order.jobs, order.t0, choice).map(|(bus_free, weight)| Best { weight, bus_free, choice })
    };
    let all: Vec<Best> = (0..1 << order.jobs.len()).filter_map(feasible).collect();
    let best = *all.iter().min_by_key(|choice| choice.key())?;
    let rivals = all.iter().filter(|choice| (choice.weight, choice.bus_free) == (best.weight, best.bus_free));
    Some((best, rivals.count()))
}

/// Which choices of a prefix are kept on the way.
#[derive(Clone, Copy, PartialEq, Eq)]
pub enum Keep {
    /// Every one that may still lead to the plan.
    Needed,
    /// Of each weight the earliest alone. This is the slip that P8 shows; it counts how often the inputs
    /// would show it.
    Earliest,
}

/// The first feasible choice, found job by job.
pub fn best_forward(order: &Order, keep: Keep) -> Option<Best> {
    let mut choices = vec![Best { weight: 0, bus_free: order.t0, choice: 0 }];
    for (place, job) in order.jobs.iter().enumerate() {
        let mut next = Vec::with_capacity(2 * choices.len());
        if job.critical == 0 {
            next.extend_from_slice(&choices);
        }
        next.extend(choices.iter().filter_map(|earlier| {
            let finish = earlier.bus_free.max(job.ready) + job.length;
            let (weight, choice) = (earlier.weight + job.weight, earlier.choice | 1 << place);
            Some(Best { weight, bus_free: finish + REST, choice }).filter(|_| finish <= job.deadline)
        }));
        choices = needed(next, keep);
    }
    choices.into_iter().min_by_key(Best::key)
}

/// Drops each choice that another one beats whatever follows. Whatever jobs follow, an earlier bus-free time
/// allows all that a later one allows and leads to no later one. So a choice is beaten by one that is heavier
/// and has the bus free no later, and by one of the same weight that has it free no later and comes first by
/// the tie rule (later picks are higher bits, equal in both).
fn needed(mut choices: Vec<Best>, keep: Keep) -> Vec<Best> {
    choices.sort_by_key(Best::key); // nearly two sorted runs, which this sort joins
    let mut earliest_heavier = i32::MAX;
    let mut now = Best { weight: -1, bus_free: i32::MAX, choice: 0 };
    choices.retain(|choice| {
        if choice.weight != now.weight {
            earliest_heavier = earliest_heavier.min(now.bus_free);
            now = *choice;
            return choice.bus_free < earliest_heavier;
        }
        let stays = keep == Keep::Needed && choice.choice < now.choice && choice.bus_free < earliest_heavier;
        now.choice = now.choice.min(choice.choice);
        stays
    });
    choices
}

/// The points of the profiles of the prefixes 1 to n, together. Each profile is the one before it extended by
/// one job; those of short prefixes are also made of all that the choices lead to, and must agree.
pub fn point_total(order: &Order) -> usize {
    let mut profile = vec![(order.t0, 0)];
    let mut by_all_choices = profile.clone();
    let mut total = 0;
    for (place, job) in order.jobs.iter().enumerate() {
        profile = extended(&profile, &order.jobs[place..=place]);
        if place < MOST_JOBS_OF_ALL_CHOICES {
            by_all_choices = led_to(&by_all_choices, job);
            assert_eq!(profile, shortest(&by_all_choices), "the two references differ");
        }
        total += profile.len();
    }
    total
}
