//! The planners on families of orders: what each family is like, what is asked of it, its comparison and its timing.

use crate::report::Line;
use crate::room::{both, compare, Call};
use crate::timing::measure;
use leafanchor::calls::PlanAnswer;
use trials::{
    dense_order, found_order, full_order, half_wide_order, packed, packed_as, put_packs, wide_critical_order,
    wide_equal_order, wide_order, wide_short_order, Order, Random, FOUND,
};

/// Orders of a family.
pub const ORDERS: usize = 1_000;

/// Both planners.
pub const PLAN: [Call<Vec<u8>, PlanAnswer>; 2] =
    both!(|order, room| plan(order, &mut room.starts, &mut room.work));

/// The packed order of no jobs.
pub const NO_JOBS: [u8; 4] = [0; 4];

/// What the orders of a family are like, how one is drawn, the ratio above which the run fails, and the ratio that is
/// the goal.
struct Family {
    name: &'static str,
    draw: Box<dyn Fn(&mut Random) -> Order>,
    limit: Option<f64>,
    goal: f64,
}

/// Ordinary mornings, long and short; then what is dear for the library.
fn families() -> Vec<Family> {
    let family = |name, draw: fn(&mut Random) -> Order, limit, goal| Family {
        name,
        draw: Box::new(draw),
        limit,
        goal,
    };
    // On x86-64 clearing the work area, which both do, is the greater part of a short order's time.
    let short = if cfg!(target_arch = "aarch64") { 0.42 } else { 0.6 };
    let mut all = vec![
        family("48 jobs", |random| full_order(random, 48), Some(1.5), 0.37),
        family("8 jobs", |random| full_order(random, 8), Some(1.0), short),
        family("48 jobs with wide windows", wide_order, None, 0.9),
        family("48 jobs, the worst known", dense_order, None, 0.8),
        family("wide windows, one job in six critical", wide_critical_order, None, 1.0),
        family("wide windows, 24 jobs", wide_short_order, None, 1.0),
        family("half windows", half_wide_order, None, 1.0),
        family("wide windows, equal weights of 6", wide_equal_order, None, 1.0),
    ];
    all.extend(FOUND.iter().map(|found| Family {
        name: found.0,
        draw: Box::new(move |random| found_order(random, found)),
        limit: None,
        goal: 1.0,
    }));
    all
}

/// Compares and times the planners on every family; hands on a line for each.
pub fn time_families(random: &mut Random, mut tell: impl FnMut(Line)) {
    for Family { name, draw, limit, goal } in families() {
        let orders: Vec<Order> = (0..ORDERS).map(|_| draw(random)).collect();
        let bytes: Vec<Vec<u8>> = orders.iter().map(packed).collect();
        let points: u32 = compare(PLAN, &bytes).iter().map(|answer| answer.points).sum();
        let prefixes: usize = orders.iter().map(|order| order.jobs.len()).sum();
        compare(PLAN, &damaged(random, &bytes));
        compare_with_packs(random, orders);
        let points = Some(f64::from(points) / prefixes as f64);
        tell(Line { name, points, measure: measure(PLAN, &bytes), limit, goal: Some(goal) });
    }
}

/// Compares the planners on the same orders with packs, in order and damaged, and of kind 1 with every pack 0.
fn compare_with_packs(random: &mut Random, mut orders: Vec<Order>) {
    let without: Vec<Vec<u8>> = orders.iter().map(|order| packed_as(order, 1)).collect();
    orders.iter_mut().for_each(|order| put_packs(random, order));
    let with: Vec<Vec<u8>> = orders.iter().map(packed).collect();
    let damaged: Vec<Vec<u8>> = with.iter().chain(&without).map(|order| damage(random, order)).collect();
    for orders in [without, with, damaged] {
        compare(PLAN, &orders);
    }
}

/// All of them damaged, and beside them no bytes, and an order of no jobs.
pub fn damaged(random: &mut Random, all: &[Vec<u8>]) -> Vec<Vec<u8>> {
    all.iter().map(|bytes| damage(random, bytes)).chain([vec![], NO_JOBS.to_vec()]).collect()
}

/// The bytes with one bit turned round, and at times a byte short.
pub fn damage(random: &mut Random, bytes: &[u8]) -> Vec<u8> {
    let mut bytes = bytes.to_vec();
    let at = random.below(bytes.len());
    bytes[at] ^= 1 << random.below(8);
    if random.once_in(10) {
        bytes.pop();
    }
    bytes
}
