//! Counts of the plans that were judged, and of what their verdicts turned on.

use crate::plans::Kind;
use crate::reference::{self, Condition, Kept, Refused};
use std::collections::{BTreeMap, BTreeSet};
use std::ops::Range;
use trials::Order;

/// Plans that are judged in a run, at least.
const MANY_PLANS: usize = 50_000;

/// Every condition on a start.
const CONDITIONS: [Condition; 4] =
    [Condition::BusFree, Condition::Ready, Condition::Rest, Condition::Deadline];

/// What the verdicts on plans turned on.
#[derive(Default)]
pub struct Verdicts {
    kinds: BTreeMap<Kind, usize>,
    /// Our own plans that are best.
    ours_best: usize,
    /// Legal plans, by whether they have idle time and whether they are best; and how many jobs they keep.
    legal: BTreeMap<(bool, bool), usize>,
    kept: BTreeSet<usize>,
    /// Legal plans that meet a condition to the second, and plans whose one fault is to miss it by a second.
    met: BTreeMap<Condition, usize>,
    missed: BTreeMap<Condition, usize>,
    /// Plans whose one fault is a critical job left out, and other illegal ones.
    no_critical: usize,
    illegal: usize,
    /// Refused with 14: under 6 bytes, and as long as a plan without the bits beyond the jobs would be.
    short: usize,
    beyond_without_length: usize,
    /// Refused with 15: for bits beyond the jobs, and for the padding alone.
    beyond: usize,
    padding: usize,
    /// The lengths in bytes.
    lengths: BTreeSet<usize>,
}

impl Verdicts {
    /// Counts a plan for an order of so many jobs, by what it is and how it is judged.
    pub fn count(
        &mut self,
        kind: Kind,
        plan: &[u8],
        jobs: usize,
        judged: &Result<(&Order, Kept), Refused>,
        is_best: bool,
    ) {
        *self.kinds.entry(kind).or_default() += 1;
        self.ours_best += usize::from(kind == Kind::Ours && is_best);
        self.lengths.insert(plan.len());
        match judged {
            Ok((order, kept)) => self.count_verdict(order, kept, is_best),
            Err(refused) => self.count_refusal(refused.number, plan, jobs),
        }
    }

    fn count_verdict(&mut self, order: &Order, kept: &Kept, is_best: bool) {
        let spare = reference::spare(order, kept);
        let broken: Vec<_> = spare.iter().filter(|(_, seconds)| *seconds < 0).collect();
        match (&broken[..], reference::keeps_critical(order, kept)) {
            ([], true) => {
                *self.legal.entry((idles(order, kept), is_best)).or_default() += 1;
                self.kept.insert(kept.len());
                for (condition, _) in spare.iter().filter(|(_, seconds)| *seconds == 0) {
                    *self.met.entry(*condition).or_default() += 1;
                }
            }
            ([(condition, -1)], true) => *self.missed.entry(*condition).or_default() += 1,
            ([], false) => self.no_critical += 1,
            _ => self.illegal += 1,
        }
    }

    fn count_refusal(&mut self, number: u32, plan: &[u8], jobs: usize) {
        let is_set = |at: usize| plan.get(at / 8).map_or(false, |byte| byte >> (7 - at % 8) & 1 == 1);
        let ones = |places: Range<usize>| places.filter(|&at| is_set(at)).count();
        let beyond = ones(jobs..48) > 0;
        match number {
            14 if plan.len() < 6 => self.short += 1,
            14 if beyond && plan.len() == (48 + 18 * ones(0..jobs) + 7) / 8 => {
                self.beyond_without_length += 1
            }
            15 if beyond => self.beyond += 1,
            15 => self.padding += 1,
            _ => {}
        }
    }

    /// Prints the counts; true if each was met, every plan of ours is best, and so many plans were judged.
    pub fn report(&self) -> bool {
        let judged: usize = self.kinds.values().sum();
        println!("plans judged: {judged}, {:?}, best of ours: {}", self.kinds, self.ours_best);
        let of = |idle, best| self.legal.get(&(idle, best)).copied().unwrap_or(0);
        let legal = [of(false, true), of(false, false), of(true, true), of(true, false)];
        println!(
            "legal: {} best and {} not, with idle time {} and {}; not legal: {} for a critical job alone, {} more",
            legal[0], legal[1], legal[2], legal[3], self.no_critical, self.illegal
        );
        println!("met to the second: {:?}; missed by one alone: {:?}", self.met, self.missed);
        let refused = [self.short, self.beyond_without_length, self.beyond, self.padding];
        println!(
            "14: {} under 6 bytes, {} with bits beyond the jobs and no starts for them; 15: {} beyond the jobs, {} in \
             the padding",
            refused[0], refused[1], refused[2], refused[3]
        );
        let seen = |counts: &BTreeMap<Condition, usize>| CONDITIONS.iter().all(|at| counts.contains_key(at));
        judged >= MANY_PLANS
            && self.kinds.get(&Kind::Ours) == Some(&self.ours_best)
            && self.kinds.len() == Kind::COUNT
            && legal.iter().chain(&refused).chain(&[self.no_critical, self.illegal]).all(|&seen| seen > 0)
            && seen(&self.met)
            && seen(&self.missed)
            && (0..=120).all(|length| self.lengths.contains(&length))
            && (0..=48).all(|kept| self.kept.contains(&kept))
    }
}

/// Whether some job starts later than it could behind those before it.
fn idles(order: &Order, kept: &Kept) -> bool {
    let mut bus_free = order.t0;
    kept.iter().any(|&(place, start)| {
        let job = &order.jobs[place];
        let waits = start > bus_free.max(job.ready);
        bus_free = start + job.length + reference::REST;
        waits
    })
}
