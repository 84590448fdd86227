//! The sheet of a stream of orders: compared with a plain one, then timed against planning the same orders alone,
//! against the plain planner and against the plain sheet.

use crate::plain;
use crate::planning::damage;
use crate::report::Line;
use crate::timing::{measure_passes, Measure};
use leafanchor::calls::{self, PlanAnswer, SheetAnswer};
use leafanchor::{MOST_JOBS, SHEET_FEED, SHEET_FIGURES, SHEET_FRONT, SHEET_ORDERS, WORK_AREA};
use std::time::{Duration, Instant};
use trials::{full_order, packed, Random};

/// Bytes of a piece, as the program reads them.
const PIECE: usize = 65_536;

/// Bytes of the longest order that an entry can have, in range or not.
const LONGEST: usize = 65_535;

/// How many times as long as planning alone a sheet may take, as long as plain Rust, and as long as a plain sheet of
/// entries that are not planned.
const GOAL_OF_PLANNING: f64 = 1.1;
const GOAL_OF_PLAIN: f64 = 0.41;
const GOAL_OF_LONG: f64 = 1.1;

/// One version of feeding: the numbers and the bytes that are held, a piece, and the work area.
type Feed = fn(&mut [u32], &mut [u8], &[u8], &mut [i32]) -> SheetAnswer;
/// One version of planning.
type Plan = fn(&[u8], &mut [i32], &mut [i32]) -> PlanAnswer;

/// The library's version and the plain one.
const FEED: [Feed; 2] = [calls::sheet_feed, plain::sheet_feed];

/// What feeding is lent beside a piece.
#[derive(PartialEq)]
struct Lent {
    feed: Vec<u32>,
    front: Vec<u8>,
    work: Vec<i32>,
}

impl Lent {
    /// What holds the beginning of a stream, less so many elements of each buffer.
    fn new(short_of: usize) -> Self {
        Lent {
            feed: vec![0; SHEET_FEED - short_of],
            front: vec![7; SHEET_FRONT - short_of],
            work: vec![7; WORK_AREA - short_of],
        }
    }

    fn feed(&mut self, feed: Feed, piece: &[u8]) -> SheetAnswer {
        feed(&mut self.feed, &mut self.front, piece, &mut self.work)
    }
}

/// Compares and times the sheet of 10,000 mornings and of as many entries of the greatest length; hands on a line for
/// each, then prints how many orders a second that is, and in how much memory.
pub fn time_sheets(random: &mut Random, mut tell: impl FnMut(Line)) {
    let orders: Vec<Vec<u8>> = (0..SHEET_ORDERS).map(|_| packed(&full_order(random, MOST_JOBS))).collect();
    let stream = stream_of(&orders);
    compare_mornings(random, &orders, &stream);
    let ours = || feed_all(FEED[0], stream.chunks(PIECE));
    let planned = || plan_all(calls::plan, &orders);
    let plainly_planned = || plan_all(plain::plan, &orders);
    let plain = || feed_all(FEED[1], stream.chunks(PIECE));
    let over = |other: &dyn Fn() -> Duration| measure_passes([&ours, other], orders.len());
    let line = |name, measure, goal| Line { name, points: None, measure, limit: None, goal: Some(goal) };
    let measure = over(&planned);
    tell(line("10,000 mornings, against planning alone", measure, GOAL_OF_PLANNING));
    tell(line("the same, against the plain planner", over(&plainly_planned), GOAL_OF_PLAIN));
    tell(line("the same, against a plain sheet", over(&plain), GOAL_OF_PLAIN));
    tell(line("10,000 entries of 65,535 bytes", long_entries(random), GOAL_OF_LONG));
    println!(
        "{:.0} mornings a second, in pieces of {PIECE} bytes; lent beside the piece: {} bytes for the stream, {} for \
         the work area",
        1e9 / measure.ours,
        4 * SHEET_FEED + SHEET_FRONT,
        4 * WORK_AREA
    );
}

/// The bytes of a stream: each order behind its length.
fn stream_of(orders: &[Vec<u8>]) -> Vec<u8> {
    orders.iter().flat_map(|order| [&(order.len() as u16).to_be_bytes()[..], order].concat()).collect()
}

/// Compares both sheets of a stream after each of its pieces; gives the last answer and the numbers then held.
fn compare<'a>(pieces: impl Iterator<Item = &'a [u8]>, short_of: usize) -> (SheetAnswer, Vec<u32>) {
    let (mut ours, mut other) = (Lent::new(short_of), Lent::new(short_of));
    let mut answer = SheetAnswer::default();
    for (place, piece) in pieces.enumerate() {
        answer = ours.feed(FEED[0], piece);
        assert_eq!(answer, other.feed(FEED[1], piece), "the answers differ at piece {place}");
        assert!(ours == other, "what is held differs behind piece {place}");
    }
    (answer, ours.feed)
}

/// Compares the sheets of mornings in pieces of several sizes, damaged, cut, too many and with buffers too short, and
/// the sums with what planning says of each morning.
fn compare_mornings(random: &mut Random, orders: &[Vec<u8>], stream: &[u8]) {
    let (answer, held) = compare(stream.chunks(PIECE), 0);
    assert_eq!((answer.refusal, &held), (0, &compare(stream.chunks(997), 0).1));
    assert_eq!(held[..SHEET_FIGURES], sums(orders));
    assert_eq!(compare(stream.chunks(PIECE).take(1), 1).0.refusal, 10);
    let damaged: Vec<Vec<u8>> = orders.iter().map(|order| damage(random, order)).collect();
    let mut damaged = stream_of(&damaged);
    damaged.pop();
    assert_eq!(compare(damaged.chunks(PIECE), 0).1[0], SHEET_ORDERS - 1);
    assert_eq!(compare(damaged[..20_000].chunks(1), 0).0.refusal, 0);
    let too_many = [stream, &damaged].concat();
    assert_eq!(compare(too_many.chunks(PIECE), 0).0.refusal, 18);
}

/// The figures of orders by what planning says of each.
fn sums(orders: &[Vec<u8>]) -> [u32; SHEET_FIGURES] {
    let (mut figures, mut work) = ([0; SHEET_FIGURES], vec![0; WORK_AREA]);
    for (place, order) in (0..).zip(orders) {
        let plan = calls::plan(order, &mut [0; MOST_JOBS], &mut work);
        assert_eq!(plan.refusal, 0, "every morning has a plan");
        let more = [1, plan.kept_weight + plan.lost_weight, plan.kept_weight, plan.kept];
        figures[20..24].iter_mut().zip(more).for_each(|(sum, more)| *sum += more);
        if plan.points + 1 > figures[24] {
            figures[24..].copy_from_slice(&[plan.points + 1, place]);
        }
    }
    figures[0] = figures[20];
    figures
}

/// The time of a stream's sheet.
fn feed_all<'a>(feed: Feed, pieces: impl Iterator<Item = &'a [u8]>) -> Duration {
    let mut lent = Lent::new(0);
    let began = Instant::now();
    let refused = pieces.filter(|piece| lent.feed(feed, piece).refusal != 0).count();
    let took = began.elapsed();
    assert_eq!((refused, lent.feed[0]), (0, SHEET_ORDERS));
    took
}

/// The time of planning all orders.
fn plan_all(plan: Plan, orders: &[Vec<u8>]) -> Duration {
    let (mut starts, mut work) = (vec![0; MOST_JOBS], vec![0; WORK_AREA]);
    let began = Instant::now();
    let kept: u32 = orders.iter().map(|order| plan(order, &mut starts, &mut work).kept).sum();
    let took = began.elapsed();
    assert!(kept > 0);
    took
}

/// Compares and times the sheet of 10,000 entries of the greatest length, which are made on the way: two of them stand
/// in memory, and every piece is a part of these.
fn long_entries(random: &mut Random) -> Measure {
    let mut entry: Vec<u8> = (0..LONGEST).map(|_| random.bits() as u8).collect();
    entry[3] = 0; // a kind that is known: the length alone is wrong
    let two = stream_of(&[entry.clone(), entry]);
    let all = (LONGEST + 2) * SHEET_ORDERS as usize;
    let pieces = || {
        let piece = |at: usize| &two[at % (LONGEST + 2)..][..PIECE.min(all - at)];
        (0..all).step_by(PIECE).map(piece)
    };
    assert_eq!(compare(pieces(), 0).0.refusal, 0);
    measure_passes([&|| feed_all(FEED[0], pieces()), &|| feed_all(FEED[1], pieces())], SHEET_ORDERS as usize)
}
