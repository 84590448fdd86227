//! A bounded search for orders that are dear for the library: it begins with orders of many shapes and changes them as
//! long as the library's planner takes longer against the plain one. An order stands for its variations: these are
//! timed, so that no processor learns one order by heart, and what is found is a family.

use crate::planning::{ORDERS, PLAN};
use crate::report::{Line, Report};
use crate::room::{compare, Room};
use crate::shapes::{changed, Shape, SHAPES};
use crate::timing::{measure, pass};
use std::time::Duration;
use trials::{packed, varied, Job, Order, Random};

/// Orders of a shape that are drawn anew and share its trials.
const STARTS: usize = 4;
/// Variations of an order in a trial.
const VARIATIONS: usize = 8;
/// Turns in which each planner goes through them; the least time counts.
const TURNS: usize = 9;

/// Orders whose numbers are printed, at most.
const SHOWN: usize = 4;

/// An order and its ratio, the library's time by the plain planner's.
type Timed = (f64, Order);

/// Searches from every shape on, with so many trials each. Prints how the ratios grew, each shape's dearest order as a
/// family, and the numbers of the dearest.
pub fn search(random: &mut Random, trials: usize) {
    println!("{trials} trials a shape: the ratio of its first order, and the greatest after each of {STARTS} starts");
    let found = SHAPES.map(|shape| dearest(random, shape, trials));
    let mut report = Report::default();
    report.head("the dearest of each shape", "plain Rust");
    let mut families = Vec::new();
    for ((name, _), order) in SHAPES.iter().zip(found) {
        let orders: Vec<Vec<u8>> = (0..ORDERS).map(|_| packed(&varied(random, &order))).collect();
        compare(PLAN, &orders);
        let measure = measure(PLAN, &orders);
        report.tell(Line { name, points: None, measure, limit: None, goal: None });
        families.push((measure.ratio, name, order));
    }
    families.sort_by(|one, other| other.0.total_cmp(&one.0));
    for (ratio, name, order) in families.iter().take(SHOWN) {
        println!("\n// {ratio:.2} times as long as plain Rust");
        print_found(name, order);
    }
}

/// Prints an order as `trials::FOUND` has it.
fn print_found(name: &str, order: &Order) {
    println!("(\"{name}\", {}, &[", order.t0);
    for Job { number, critical, weight, ready, length, deadline, .. } in &order.jobs {
        println!("    [{number}, {critical}, {weight}, {ready}, {length}, {deadline}],");
    }
    println!("]),");
}

/// The dearest order of a shape; prints how its ratio grew.
fn dearest(random: &mut Random, (name, draw): Shape, trials: usize) -> Order {
    print!("{name:<28}");
    let mut best: Option<Timed> = None;
    for _ in 0..STARTS {
        let drawn = draw(random);
        let ratio = ratio_of(&drawn);
        if best.is_none() {
            print!(" {ratio:.2}");
        }
        let climbed = climb(random, (ratio, drawn), trials / STARTS);
        best = best.filter(|best| best.0 >= climbed.0).or(Some(climbed));
        print!(" {:.2}", best.as_ref().map_or(0.0, |best| best.0));
    }
    println!();
    best.expect("there is a start").1
}

/// Changes an order so many times, and goes on from what is dearer.
fn climb(random: &mut Random, mut best: Timed, trials: usize) -> Timed {
    for _ in 0..trials {
        let other = changed(random, &best.1);
        // What is dearer is timed once more, and the lesser ratio counts: one disturbance makes nothing dear.
        let ratio =
            Some(ratio_of(&other)).filter(|&ratio| ratio > best.0).map(|ratio| ratio.min(ratio_of(&other)));
        if let Some(ratio) = ratio.filter(|&ratio| ratio > best.0) {
            best = (ratio, other);
        }
    }
    best
}

/// The ratio of an order's variations, the same ones whenever it is timed.
fn ratio_of(order: &Order) -> f64 {
    let random = &mut Random::new(crate::SEED);
    let orders: Vec<Vec<u8>> = (0..VARIATIONS).map(|_| packed(&varied(random, order))).collect();
    let mut room = Room::new(0);
    let mut least = [Duration::MAX; 2];
    for _ in 0..TURNS {
        for (call, least) in PLAN.into_iter().zip(&mut least) {
            *least = pass(call, &orders, &mut room).min(*least);
        }
    }
    least[0].as_secs_f64() / least[1].as_secs_f64()
}
