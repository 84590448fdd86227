//! Counts of what was called, what was refused and what differed.

use crate::frames::Frames;
use crate::kinds::Kinds;
use crate::sheets::Sheets;
use crate::verdicts::Verdicts;
use std::cmp::Ordering;
use std::collections::{BTreeMap, BTreeSet};
use std::fmt::Debug;

/// Mismatches that are printed in full.
const PRINTED: usize = 10;

/// What is held against the reference.
#[derive(Clone, Copy, PartialEq, Eq, PartialOrd, Ord)]
pub enum Held {
    /// A call of the library, over the C boundary.
    Call(&'static str),
    /// A type of the wrapper.
    Type(&'static str),
}

impl Held {
    fn name(self) -> &'static str {
        match self {
            Held::Call(name) | Held::Type(name) => name,
        }
    }
}

/// Some order has more points than this, 200 a prefix.
const MANY_POINTS: u32 = 48 * 200;

/// Refusals are numbered below this; 0 is none.
const NUMBERS: usize = 20;

/// Counts by refusal number.
type Counts = [usize; NUMBERS];

/// All counts of a run.
#[derive(Default)]
pub struct Tally {
    counts: BTreeMap<Held, Counts>,
    mismatches: usize,
    /// Orders planned: with a feasible choice, and with none.
    pub feasible: usize,
    pub infeasible: usize,
    /// Orders with two choices of the plan's weight and bus-free time, among those where all choices were tried.
    pub tried: usize,
    pub tied: usize,
    /// Orders where keeping the earliest bus-free times alone gives another choice.
    pub slips: usize,
    /// Orders of 48 jobs, and those of them with a feasible choice.
    pub longest: usize,
    pub longest_feasible: usize,
    /// The greatest point total of an order that was planned.
    pub most_points: u32,
    /// Edges of the contactor's rest.
    pub rest: RestEdges,
    /// What planning halves turned on.
    pub halves: HalvesEdges,
    /// Openings that were worth the same.
    pub ties: Ties,
    /// The fields that refusal 6 named.
    pub fields: Fields,
    /// What the kinds of records turned on.
    pub kinds: Kinds,
    /// What the verdicts on plans turned on.
    pub verdicts: Verdicts,
    /// What frames of repeating jobs turned on.
    pub frames: Frames,
    /// What sheets and streams turned on.
    pub sheets: Sheets,
}

/// How often the inputs came to an edge of the contactor's rest.
#[derive(Default)]
pub struct RestEdges {
    /// Jobs of plans that start when the rest before them ends, and end at their deadline.
    pub met: usize,
    /// Jobs left out that would end one second past it.
    pub missed: usize,
    /// Plans whose bus-free time is past 100,000.
    pub late_plans: usize,
    /// Profiles with a point past 100,000 that were extended.
    pub late_profiles: usize,
}

/// How often the inputs came to what planning halves turns on.
#[derive(Default)]
pub struct HalvesEdges {
    /// Plans that lose no optional second, and plans that lose some.
    pub lose_nothing: usize,
    pub lose_seconds: usize,
    /// Refused with 13 for a critical job's number, for a length, for a partner that stands behind and for one that
    /// is not there.
    pub numbers: usize,
    pub lengths: usize,
    pub partners_behind: usize,
    pub no_partners: usize,
    /// Those of them where a later place offends too.
    pub several: usize,
    /// The places that were told.
    pub places: BTreeSet<usize>,
}

impl HalvesEdges {
    /// Prints the counts; true if each was met.
    fn report(&self) -> bool {
        let HalvesEdges {
            lose_nothing, lose_seconds, numbers, lengths, partners_behind, no_partners, ..
        } = *self;
        println!("plans of halves: {lose_nothing} lose nothing, {lose_seconds} lose optional seconds");
        println!(
            "not of halves: {numbers} by a number, {lengths} by a length, {partners_behind} by a partner behind, \
             {no_partners} without one; {} with a later place too, {} different places told",
            self.several,
            self.places.len()
        );
        [lose_nothing, lose_seconds, numbers, lengths, partners_behind, no_partners, self.several]
            .iter()
            .all(|&seen| seen > 0)
            && self.places.len() == 48
    }
}

/// Pairs of openings of the same weight where the first has it sooner, at least, and where the second has: there alone
/// the rules for equal weight differ.
const MANY_TIES: usize = 2_000;

/// How often two openings were worth the same weight, by how the times at which they reached it compare.
#[derive(Default)]
pub struct Ties {
    counts: BTreeMap<Ordering, usize>,
}

impl Ties {
    /// Counts a pair of openings; `None` is one of different worth.
    pub fn count(&mut self, tied: Option<Ordering>) {
        if let Some(times) = tied {
            *self.counts.entry(times).or_default() += 1;
        }
    }

    /// Prints the counts; true if each was met, and those with one sooner often.
    fn report(&self) -> bool {
        let of = |times| self.counts.get(&times).copied().unwrap_or(0);
        let (first, at_once, second) = (of(Ordering::Less), of(Ordering::Equal), of(Ordering::Greater));
        println!(
            "openings of the same weight: {first} with the first sooner, {at_once} at once, {second} with the second \
             sooner, where the rules differ"
        );
        first >= MANY_TIES && at_once > 0 && second >= MANY_TIES
    }
}

/// A job has so many fields; the first so many are within their ranges in all packed bytes.
const FIELDS: usize = 7;
const HELD_BY_BYTES: usize = 3;

/// How often each call named each field, and how often it was not the only one.
#[derive(Default)]
pub struct Fields {
    counts: BTreeMap<&'static str, [usize; FIELDS]>,
    /// Jobs that packing refuses with a later field out of range too.
    pub several: usize,
    /// Those with a job behind them whose first field out of range comes earlier.
    pub earlier_behind: usize,
    /// Pairs of openings that are both refused with 6, for other fields.
    pub both_openings: usize,
}

impl Fields {
    /// Counts the field of an answer; 0 is none.
    pub fn count(&mut self, call: &'static str, field: u32) {
        let counts = self.counts.entry(call).or_default();
        if let Some(count) = (field as usize).checked_sub(1).and_then(|at| counts.get_mut(at)) {
            *count += 1;
        }
    }

    /// Prints the counts; true if packing named every field, and every other call those that bytes can have out of
    /// range and no other.
    fn report(&self) -> bool {
        print!("{:>18}", "field");
        (1..=FIELDS).for_each(|field| print!("{field:>8}"));
        println!();
        for (call, counts) in &self.counts {
            print!("{call:>18}");
            counts.iter().for_each(|count| print!("{count:>8}"));
            println!();
        }
        println!(
            "fields: {} with a later one out of range too, {} with an earlier one in a job behind; {} pairs of \
             openings with two",
            self.several, self.earlier_behind, self.both_openings
        );
        let could = |call: &str, at: usize| call == "pack" || at >= HELD_BY_BYTES;
        let as_could = |(&call, counts): (&&str, &[usize; FIELDS])| {
            counts.iter().enumerate().all(|(at, &count)| (count > 0) == could(call, at))
        };
        self.counts.len() == 13
            && self.counts.iter().all(as_could)
            && [self.several, self.earlier_behind, self.both_openings].iter().all(|&seen| seen > 0)
    }
}

impl Tally {
    /// Counts a call and its refusal, and compares its answer, with what it left in memory, with the
    /// reference's.
    pub fn compare<A: PartialEq + Debug>(
        &mut self,
        call: &'static str,
        given: (u32, A, bool),
        wanted: A,
        input: &dyn Debug,
    ) {
        self.compare_held(Held::Call(call), given, wanted, input);
    }

    /// The same for a call or a type.
    pub fn compare_held<A: PartialEq + Debug>(
        &mut self,
        held: Held,
        (refusal, given, memory): (u32, A, bool),
        wanted: A,
        input: &dyn Debug,
    ) {
        self.counts.entry(held).or_default()[(refusal as usize).min(NUMBERS - 1)] += 1;
        if given == wanted && memory {
            return;
        }
        self.mismatches += 1;
        if self.mismatches <= PRINTED {
            println!("mismatch: {}\n  given  {given:?}\n  wanted {wanted:?}", held.name());
            println!("  memory as it must be: {memory}\n  input  {input:?}");
        }
    }

    /// Prints the counts; true if nothing differed, every refusal was seen over the C boundary, and so was every edge
    /// of the rest, of halves, of ties, of verdicts, of frames, of sheets and of kinds and every field of refusal 6.
    pub fn report(&self) -> bool {
        print!("{:>18}", "refusal");
        (0..NUMBERS).for_each(|number| print!("{number:>8}"));
        println!();
        let (mut of_calls, mut of_types) = ([0; NUMBERS], [0; NUMBERS]);
        for (held, counts) in &self.counts {
            print!("{:>18}", held.name());
            counts.iter().for_each(|count| print!("{count:>8}"));
            println!();
            let sums = if matches!(held, Held::Call(_)) { &mut of_calls } else { &mut of_types };
            sums.iter_mut().zip(counts).for_each(|(sum, count)| *sum += count);
        }
        println!("orders planned: {} feasible, {} infeasible", self.feasible, self.infeasible);
        println!("needed the tie rule: {} of {} over all choices", self.tied, self.tried);
        println!("another plan by earliest bus-free times alone: {}", self.slips);
        println!("of 48 jobs: {}, feasible {}", self.longest, self.longest_feasible);
        println!("most points of one order: {}", self.most_points);
        let RestEdges { met, missed, late_plans, late_profiles } = self.rest;
        println!(
            "straight after a rest: {met} jobs end at their deadline, {missed} would end a second past it"
        );
        println!("bus free past 100,000: {late_plans} plans, {late_profiles} profiles extended");
        let halves_met = self.halves.report();
        let ties_met = self.ties.report();
        let verdicts_met = self.verdicts.report();
        let frames_met = self.frames.report();
        let sheets_met = self.sheets.report();
        let fields_named = self.fields.report();
        let kinds_met = self.kinds.report();
        let is_unseen = |&number: &usize| of_calls[number] == 0;
        let unseen: Vec<usize> = (0..NUMBERS).filter(is_unseen).collect();
        if !unseen.is_empty() {
            println!("never seen: refusals {unseen:?}");
        }
        println!("inputs {}", of_calls.iter().sum::<usize>());
        println!("inputs of the wrapper's types {}", of_types.iter().sum::<usize>());
        println!("mismatches {}", self.mismatches);
        self.mismatches == 0
            && unseen.is_empty()
            && halves_met
            && ties_met
            && verdicts_met
            && frames_met
            && sheets_met
            && fields_named
            && kinds_met
            && self.most_points > MANY_POINTS
            && [met, missed, late_plans, late_profiles].iter().all(|&seen| seen > 0)
    }
}
