//! Our own plan in packed bytes, and the verdicts on plans of any planner, on both sides of each edge.

use leafanchor::{calls, Job, Order, OrderBuf, Refusal, WorkArea, MOST_JOBS, PLAN_BYTES, REST, WORK_AREA};

const P1_PACKED: &[u8] = include_bytes!("../../../../examples/p1.order");

/// Our plan of P1: jobs 7, 3, 5 and 9, at -600, -90, 225 and 340.
const P1_PLAN: [u8; 15] = [0xD8, 0, 0, 0, 0, 0, 0xFF, 0x6A, 0x3F, 0xFA, 0x60, 0x03, 0x84, 0x01, 0x54];

/// A critical job and two others, bus free at 0: the first two may run from 0 to 30 and from 45 to 75, the third
/// instead of the second.
const JOBS: [Job; 3] = [
    Job::critical(1).ready(0).length(30).deadline(50),
    Job::optional(2).weight(5).ready(10).length(30).deadline(80),
    Job::optional(3).weight(4).ready(10).length(30).deadline(80),
];

/// The packed bytes of a plan: the places that it keeps, rising, each with its start.
fn packed(kept: &[(usize, i32)]) -> Vec<u8> {
    let mut bits = [false; 48].to_vec();
    for &(place, start) in kept {
        bits[place] = true;
        bits.extend((0..18).rev().map(|bit| start >> bit & 1 == 1));
    }
    bits.resize((bits.len() + 7) / 8 * 8, false);
    bits.chunks(8).map(|byte| byte.iter().fold(0, |sum, &bit| 2 * sum + u8::from(bit))).collect()
}

/// Both verdicts on a plan for an order of jobs: legal and best.
fn verdicts(t0: i32, jobs: &[Job], plan: &[u8]) -> (bool, bool) {
    let order = OrderBuf::pack(t0, jobs).unwrap();
    let order = order.as_order();
    (order.is_legal(plan).unwrap(), order.is_best(plan, &mut WorkArea::new()).unwrap())
}

/// Both verdicts on starts of the first two jobs.
fn with_starts(first: i32, second: i32) -> (bool, bool) {
    verdicts(0, &JOBS, &packed(&[(0, first), (1, second)]))
}

/// What a plan for the jobs is refused with, by both calls.
fn refused(jobs: &[Job], plan: &[u8]) -> Option<Refusal> {
    let order = OrderBuf::pack(0, jobs).unwrap();
    let order = order.as_order();
    let legal = order.is_legal(plan).err();
    assert_eq!(order.is_best(plan, &mut WorkArea::new()).err(), legal);
    legal
}

#[test]
fn our_plan_of_p1_is_legal_and_best() {
    let order = Order::try_from(P1_PACKED).unwrap();
    let mut work = WorkArea::new();
    let ours = order.write_plan(&mut work).unwrap();
    assert_eq!((ours.as_bytes(), ours.as_ref(), ours.len()), (&P1_PLAN[..], &P1_PLAN[..], 15));
    assert_eq!(packed(&[(0, -600), (1, -90), (3, 225), (4, 340)]), P1_PLAN);
    assert_eq!((order.is_legal(&ours), order.is_best(&ours, &mut work)), (Ok(true), Ok(true)));
    assert!(format!("{ours:?}").starts_with("PackedPlan([216, 0, 0, 0, 0, 0, 255, 106, "));
}

#[test]
fn every_start_is_told_on_both_sides_by_a_second() {
    assert_eq!(with_starts(0, 45), (true, true));
    // The bus-free time, the rest and the deadline.
    assert_eq!((with_starts(-1, 45).0, with_starts(0, 44).0), (false, false));
    assert_eq!((with_starts(5, 50), with_starts(6, 51).0), ((true, true), false));
    let straight_after = 5 + JOBS[0].length + REST;
    assert!(with_starts(5, straight_after).0 && !with_starts(5, straight_after - 1).0);
    // The ready time and the deadline of a job alone.
    let from = |start| verdicts(0, &JOBS[1..2], &packed(&[(0, start)]));
    assert_eq!([9, 10, 50, 51].map(from), [(false, false), (true, true), (true, true), (false, false)]);
    // The ends of a start's field.
    assert_eq!([-131_072, 131_071].map(from), [(false, false); 2]);
}

#[test]
fn critical_jobs_are_kept_and_idle_time_is_legal() {
    assert_eq!(verdicts(0, &JOBS, &packed(&[(1, 45)])), (false, false));
    assert_eq!(verdicts(0, &JOBS, &packed(&[])), (false, false));
    // The second best choice, with idle time and without; and nothing but the critical job.
    assert_eq!(verdicts(0, &JOBS, &packed(&[(0, 0), (2, 45)])), (true, false));
    assert_eq!(verdicts(0, &JOBS, &packed(&[(0, 2), (2, 50)])), (true, false));
    assert_eq!(verdicts(0, &JOBS, &packed(&[(0, 20)])), (true, false));
    assert_eq!(with_starts(1, 50), (true, true));
}

#[test]
fn no_plan_of_an_infeasible_order_is_legal_or_best() {
    let late = [Job::critical(1).ready(0).length(10).deadline(9)];
    for plan in [packed(&[]), packed(&[(0, 0)]), packed(&[(0, -1)])] {
        assert_eq!(verdicts(0, &late, &plan), (false, false));
    }
    let order = OrderBuf::pack(0, &late).unwrap();
    assert_eq!(order.as_order().write_plan(&mut WorkArea::new()), Err(Refusal::NoFeasibleChoice));
}

#[test]
fn no_jobs_and_48() {
    assert_eq!(verdicts(-7, &[], &[0; 6]), (true, true));
    let none = Order::try_from(&[0; 4]).unwrap();
    assert_eq!(none.write_plan(&mut WorkArea::new()).unwrap().as_bytes(), [0; 6]);

    let job = |number| Job::optional(number).weight(6).ready(-100_000).deadline(100_000);
    let long: Vec<Job> = (0..48).map(|number| job(number).length(10_000)).collect();
    let short: Vec<Job> = (0..48).map(|number| job(number).length(1)).collect();
    let order = OrderBuf::pack(-100_000, &short).unwrap();
    let ours = order.as_order().write_plan(&mut WorkArea::new()).unwrap();
    assert_eq!((ours.len(), PLAN_BYTES, MOST_JOBS), (114, 114, 48));
    assert_eq!(verdicts(-100_000, &short, &ours), (true, true));
    assert_eq!(verdicts(-100_000, &long, &ours), (false, false));
}

#[test]
fn a_plan_is_as_long_as_its_mask_asks_for() {
    let plan = packed(&[(0, 0), (1, 45)]);
    assert_eq!((plan.len(), refused(&JOBS, &plan)), (11, None));
    let mut longer = plan.clone();
    longer.push(0);
    for length in (0..=10).chain([12]) {
        assert_eq!(refused(&JOBS, &longer[..length]), Some(Refusal::PlanWrongLength));
    }
    // A one beyond the jobs counts: without the start that it asks for it is 14, with it 15.
    let mut beyond = plan;
    beyond[0] |= 0x10;
    assert_eq!(refused(&JOBS, &beyond), Some(Refusal::PlanWrongLength));
    assert_eq!(refused(&JOBS, &packed(&[(0, 0), (1, 45), (3, 90)])), Some(Refusal::PlanStrayBits));
    assert_eq!(refused(&[], &packed(&[(47, 0)])), Some(Refusal::PlanStrayBits));
}

#[test]
fn bits_at_the_end_are_zero() {
    // After one start there are 6 bits, after two 4 and after three 2.
    for (kept, bits) in [(1, 6), (2, 4), (3, 2)] {
        let starts = [(0, 0), (1, 45), (2, 90)];
        for bit in 0..8 {
            let mut plan = packed(&starts[..kept]);
            *plan.last_mut().unwrap() ^= 1 << bit;
            assert_eq!(refused(&JOBS, &plan).is_some(), bit < bits);
        }
    }
}

#[test]
fn the_plain_calls_judge_the_order_first_then_the_plan_then_the_work_area() {
    let mut work = vec![7; WORK_AREA + 1];
    for (order, plan, number) in
        [(&P1_PACKED[..3], &[][..], 1), (P1_PACKED, &P1_PLAN[..14], 14), (P1_PACKED, &P1_PLAN, 10)]
    {
        let answer = calls::best(order, plan, &mut work[..WORK_AREA - 1]);
        assert_eq!((answer.refusal, answer.place, answer.field, answer.yes), (number, 0, 0, 0));
    }
    let mut out = [7; PLAN_BYTES + 1];
    for (room, area) in [(PLAN_BYTES - 1, WORK_AREA), (PLAN_BYTES, WORK_AREA - 1)] {
        let answer = calls::write_plan(&[0; 4], &mut out[..room], &mut work[..area]);
        assert_eq!((answer.refusal, answer.bytes), (10, 0));
    }
    assert!(work.iter().all(|&number| number == 7) && out == [7; PLAN_BYTES + 1]);

    assert_eq!(calls::best(P1_PACKED, &P1_PLAN, &mut work).accepted().unwrap().yes, 1);
    assert!(work[..WORK_AREA].iter().all(|&number| number == 0) && work[WORK_AREA] == 7);
    work.fill(7);
    assert_eq!(calls::write_plan(P1_PACKED, &mut out, &mut work).accepted().unwrap().bytes, 15);
    assert!(out[..15] == P1_PLAN && out[15..].iter().all(|&byte| byte == 7));
    assert!(work[..WORK_AREA].iter().all(|&number| number == 0) && work[WORK_AREA] == 7);
}
