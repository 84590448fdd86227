//! The other calls that are timed, each on inputs of its own, compared before on these and on damaged ones.

use crate::planning::{damage, damaged, NO_JOBS, ORDERS};
use crate::report::Line;
use crate::room::{both, compare, Call, Room};
use crate::timing::measure;
use leafanchor::calls::{
    self, ExtendAnswer, LookupAnswer, PackAnswer, QuestionAnswer, UnpackAnswer, VerdictAnswer,
};
use std::fmt::Debug;
use trials::{full_order, packed, profile_of, put_packs, Order, Random, Style};

/// Points of the profiles that are extended and looked up in.
const POINTS: usize = 100;

/// A profile and a packed order.
type Extending = (Vec<i32>, Vec<u8>);
/// Two packed openings and a time.
type Asked = (Vec<u8>, Vec<u8>, i32);
/// A bus-free time and seven numbers a job.
type Unpacked = (i32, Vec<i32>);
/// A packed order and a packed plan.
type Planned = (Vec<u8>, Vec<u8>);

const EXTEND: [Call<Extending, ExtendAnswer>; 2] =
    both!(|(profile, order), room| extend(profile, order, &mut room.profile, &mut room.work));
const QUESTION: [Call<Asked, QuestionAnswer>; 2] =
    both!(|(first, second, t), room| question(first, second, *t, &mut room.work));
const UNPACK: [Call<Vec<u8>, UnpackAnswer>; 2] = both!(|order, room| unpack(order, &mut room.numbers));
const PACK: [Call<Unpacked, PackAnswer>; 2] =
    both!(|(t0, numbers), room| pack(*t0, numbers, &mut room.order));
const WRITE_PLAN: [Call<Vec<u8>, PackAnswer>; 2] =
    both!(|order, room| write_plan(order, &mut room.plan, &mut room.work));
const LEGAL: [Call<Planned, VerdictAnswer>; 2] = both!(|(order, plan), _| legal(order, plan));
const BEST: [Call<Planned, VerdictAnswer>; 2] =
    both!(|(order, plan), room| best(order, plan, &mut room.work));

/// Compares and times every call; hands on a line for each.
pub fn time_others(random: &mut Random, mut tell: impl FnMut(Line)) {
    tell(extending(random));
    tell(asking(random));
    let orders: Vec<Order> = (0..ORDERS).map(|_| full_order(random, 48)).collect();
    let bytes: Vec<Vec<u8>> = orders.iter().map(packed).collect();
    tell(unpacking(random, &orders, &bytes));
    tell(packing(random, &orders));
    tell(looking_up(random));
    let broken = damaged(random, &bytes);
    tell(line("write_plan, 48 jobs", WRITE_PLAN, &bytes, &broken));
    let plans: Vec<Planned> = bytes.into_iter().map(planned).collect();
    let broken = damaged_plans(random, &plans);
    tell(line("legal, plans of 48 jobs", LEGAL, &plans, &broken));
    tell(line("best, plans of 48 jobs", BEST, &plans, &broken));
}

/// Compares a call on its inputs and on damaged ones, and times it on its inputs.
fn line<I: Debug, A: Debug + PartialEq>(
    name: &'static str,
    calls: [Call<I, A>; 2],
    inputs: &[I],
    damaged: &[I],
) -> Line {
    compare(calls, inputs);
    compare(calls, damaged);
    Line { name, points: None, measure: measure(calls, inputs), limit: None, goal: None }
}

/// Orders of 24 jobs, each with a profile whose last weight leaves room for theirs.
fn extending(random: &mut Random) -> Line {
    let draw = |random: &mut Random| {
        let mut order = full_order(random, 24);
        order.jobs.iter_mut().for_each(|job| job.weight = (job.weight + 1) / 2);
        (profile_of(random, Style::Morning, POINTS, 130), packed(&order))
    };
    let inputs: Vec<_> = (0..ORDERS).map(|_| draw(random)).collect();
    let broken = |(profile, order): &Extending| match random.below(3) {
        0 => (profile.clone(), damage(random, order)),
        1 => (damaged_numbers(random, profile), order.clone()),
        _ => (damaged_numbers(random, profile), damage(random, order)),
    };
    let empty = (vec![], inputs[0].1.clone());
    let no_jobs = (inputs[0].0.clone(), NO_JOBS.to_vec());
    let broken: Vec<_> = inputs.iter().map(broken).chain([empty, no_jobs]).collect();
    line("extend, 24 jobs onto 100 points", EXTEND, &inputs, &broken)
}

/// Two openings of 24 jobs at a time by which some jobs of each are done.
fn asking(random: &mut Random) -> Line {
    let mut draw =
        || (packed(&full_order(random, 24)), packed(&full_order(random, 24)), random.within(0, 3_000));
    let inputs: Vec<_> = (0..ORDERS).map(|_| draw()).collect();
    let broken = |(first, second, t): &Asked| match random.below(5) {
        0 => (damage(random, first), second.clone(), *t),
        1 => (first.clone(), damage(random, second), *t),
        2 => (damage(random, first), damage(random, second), *t),
        3 => (first.clone(), first.clone(), *t),
        _ => (first.clone(), second.clone(), random.one_of(&[i32::MIN, -100_000, -600, 100_015, i32::MAX])),
    };
    let broken: Vec<_> = inputs.iter().map(broken).collect();
    line("question, two openings of 24 jobs", QUESTION, &inputs, &broken)
}

/// Packed orders; those with packs are only compared.
fn unpacking(random: &mut Random, orders: &[Order], bytes: &[Vec<u8>]) -> Line {
    let with_packs: Vec<Vec<u8>> = with_packs(random, orders).iter().map(packed).collect();
    compare(UNPACK, &with_packs);
    compare(UNPACK, &damaged(random, &with_packs));
    line("unpack, 48 jobs", UNPACK, bytes, &damaged(random, bytes))
}

/// The same orders as numbers.
fn packing(random: &mut Random, orders: &[Order]) -> Line {
    let unpacked = |order: &Order| (order.t0, order.numbers());
    let inputs: Vec<_> = orders.iter().map(unpacked).collect();
    let with_packs: Vec<_> = with_packs(random, orders).iter().map(unpacked).collect();
    compare(PACK, &with_packs);
    let broken = |(t0, numbers): &Unpacked| {
        let t0 = if random.once_in(10) { 100_001 } else { *t0 };
        (t0, damaged_numbers(random, numbers))
    };
    let broken: Vec<_> = inputs.iter().chain(&with_packs).map(broken).collect();
    line("pack, 48 jobs", PACK, &inputs, &broken)
}

/// The orders with packs.
fn with_packs(random: &mut Random, orders: &[Order]) -> Vec<Order> {
    let mut orders = orders.to_vec();
    orders.iter_mut().for_each(|order| put_packs(random, order));
    orders
}

/// Many times in one profile, before, in and behind it.
fn looking_up(random: &mut Random) -> Line {
    let profile = profile_of(random, Style::Morning, POINTS, 300);
    let inputs: Vec<_> = (0..ORDERS).map(|_| (&profile[..], random.within(-50, 250))).collect();
    let broken: Vec<Vec<i32>> = (0..ORDERS).map(|_| damaged_numbers(random, &profile)).collect();
    let empty: &[i32] = &[];
    let broken = broken.iter().map(|profile| &profile[..]).chain([empty]);
    let broken: Vec<_> = broken.map(|profile| (profile, random.within(-50, 250))).collect();
    let lookup: [Call<(&[i32], i32), LookupAnswer>; 2] = both!(|(profile, t), _| lookup(profile, *t));
    line("lookup, 100 points", lookup, &inputs, &broken)
}

/// The numbers with one of them another, and at times one more or one less.
fn damaged_numbers(random: &mut Random, numbers: &[i32]) -> Vec<i32> {
    let mut numbers = numbers.to_vec();
    let at = random.below(numbers.len());
    let near = numbers[at] + random.within(-3, 3);
    numbers[at] = random.one_of(&[near, near, -1, 64, 256, 301, 10_001, 100_016, i32::MIN, i32::MAX]);
    match random.below(10) {
        0 => numbers.push(5),
        1 => drop(numbers.pop()),
        _ => (),
    }
    numbers
}

/// An order with the library's own plan for it.
fn planned(order: Vec<u8>) -> Planned {
    let mut room = Room::new(0);
    let bytes = calls::write_plan(&order, &mut room.plan, &mut room.work).bytes;
    room.plan.truncate(bytes);
    (order, room.plan)
}

/// Each with its order damaged, its plan or both, or with the plan of another order; and the plan for no jobs.
fn damaged_plans(random: &mut Random, plans: &[Planned]) -> Vec<Planned> {
    let damage_one = |(order, plan): &Planned| match random.below(5) {
        0 => (damage(random, order), plan.clone()),
        1 | 2 => (order.clone(), damage(random, plan)),
        3 => (damage(random, order), damage(random, plan)),
        _ => (order.clone(), plans[random.below(plans.len())].1.clone()),
    };
    plans.iter().map(damage_one).chain([(NO_JOBS.to_vec(), vec![0; 6])]).collect()
}
