//! Planning orders of halves: the optional seconds lost, and refusal 13 on both sides of its edges.

use leafanchor::{
    calls, choose_by, question_by, HalvesPlan, Job, Order, OrderBuf, Refusal, Tie, WorkArea, HALVES_APART,
    HIGHEST_HALF, MOST_JOBS, ORDER_BYTES, SECONDS_PER_WEIGHT, WORK_AREA,
};

/// The worked order, bus free at -900: checks 4 and 9, each with its optional half.
const WORKED: [Job; 4] = [
    Job::critical(4).ready(-900).length(300).deadline(-300),
    Job::optional(36).weight(5).ready(-900).length(300).deadline(0),
    Job::critical(9).ready(-900).length(200).deadline(0),
    Job::optional(41).weight(8).ready(-900).length(480).deadline(300),
];

/// A critical half that fits anywhere.
fn critical(number: i32) -> Job {
    Job::critical(number).ready(0).length(10).deadline(100_000)
}

/// An optional half that fits anywhere, of the length that belongs to its weight.
fn optional(number: i32, weight: u32) -> Job {
    let length = SECONDS_PER_WEIGHT * weight as i32;
    Job::optional(number).weight(weight).ready(0).length(length).deadline(100_000)
}

/// The plan of jobs as an order of halves.
fn planned(t0: i32, jobs: &[Job]) -> Result<HalvesPlan, Refusal> {
    OrderBuf::pack(t0, jobs)?.as_order().plan_halves(&mut WorkArea::new())
}

/// The place that planning jobs as halves refuses with 13; none where it plans them.
fn offending(jobs: &[Job]) -> Option<usize> {
    match planned(0, jobs) {
        Ok(_) => None,
        Err(Refusal::NotOfHalves { place, .. }) => place,
        Err(refusal) => panic!("refused otherwise: {refusal}"),
    }
}

#[test]
fn the_worked_order_loses_300_optional_seconds() {
    let mut room = [0; ORDER_BYTES];
    let order = Order::pack(-900, &WORKED, &mut room).unwrap();
    let plan = order.plan_halves(&mut WorkArea::new()).unwrap();
    assert!(plan.starts().eq([Some(-900), None, Some(-585), Some(-370)]));
    assert!(plan.kept_places().eq([0, 2, 3]));
    assert_eq!((plan.mask, plan.kept, plan.kept_weight, plan.lost_weight), (0b1011 << 60, 3, 8, 5));
    assert_eq!((plan.finish, plan.points, plan.seconds_lost()), (125, 8, 300));
    assert_eq!(
        plan.to_string(),
        "job 4: start -900\njob 36: left out\njob 9: start -585\njob 41: start -370\n\
         3 of 4 jobs kept; weight 8 kept, 5 lost; bus free at 125; 300 optional seconds lost"
    );
    assert_eq!(order.plan(&mut WorkArea::new()), Ok(*plan));
}

#[test]
fn seconds_are_lost_by_optional_halves_alone() {
    assert_eq!(planned(7, &[]).map(|plan| (plan.finish, plan.seconds_lost())), Ok((7, 0)));
    let pairs = [critical(0), optional(32, 1), critical(31), optional(63, 50)];
    let lost = |jobs: &[Job]| planned(0, jobs).map(|plan| (plan.kept, plan.seconds_lost()));
    assert_eq!(lost(&pairs[..1]), Ok((1, 0)));
    assert_eq!(lost(&pairs), Ok((4, 0)));
    // Each is then ready a second too late for its deadline.
    let mut late = pairs;
    late[3].ready = 97_001;
    assert_eq!(lost(&late), Ok((3, 3_000)));
    late[1].ready = 99_941;
    assert_eq!(lost(&late), Ok((2, 3_060)));
}

#[test]
fn a_critical_half_is_numbered_up_to_31() {
    assert_eq!(offending(&[critical(HIGHEST_HALF)]), None);
    assert_eq!(offending(&[critical(HIGHEST_HALF + 1)]), Some(0));
    assert_eq!(offending(&[critical(1), critical(63)]), Some(1));
}

#[test]
fn an_optional_half_takes_60_seconds_for_each_weight() {
    let with = |weight, length| offending(&[critical(4), optional(36, weight).length(length)]);
    assert_eq!([59, 60, 61].map(|length| with(1, length)), [Some(1), None, Some(1)]);
    assert_eq!([2_999, 3_000, 3_001].map(|length| with(50, length)), [Some(1), None, Some(1)]);
    assert_eq!((with(5, 240), with(5, 360)), (Some(1), Some(1)));
}

#[test]
fn an_optional_half_stands_behind_its_critical_one() {
    let with = |number| offending(&[critical(4), optional(number, 5)]);
    assert_eq!([35, 36, 37].map(with), [Some(1), None, Some(1)]);
    assert_eq!(with(4 + HALVES_APART), None);
    assert_eq!((with(0), with(31)), (Some(1), Some(1)));
    assert_eq!(offending(&[optional(36, 5), critical(4)]), Some(0));
    assert_eq!(offending(&[critical(4), critical(5), critical(6), optional(36, 5)]), None);
    // Its partner is not critical: that one offends already, and it would offend too.
    assert_eq!(offending(&[critical(1), optional(33, 1), optional(4, 5), optional(36, 5)]), Some(2));
    assert_eq!(offending(&[optional(36, 5)]), Some(0));
}

#[test]
fn of_several_offending_places_the_first_is_told() {
    let jobs = [critical(1), optional(40, 1), critical(50), optional(33, 1).length(59)];
    assert_eq!(offending(&jobs), Some(1));
    assert_eq!(offending(&[jobs[0], jobs[2], jobs[3]]), Some(1));
    assert_eq!(offending(&[jobs[0], jobs[3], jobs[2]]), Some(1));
    assert_eq!(planned(0, &jobs).unwrap_err().number(), 13);
    let phrase = planned(0, &jobs).unwrap_err().to_string();
    assert_eq!(phrase, "job at place 1: it does not fit an order of halves");
}

#[test]
fn refusal_13_comes_before_11_and_no_other_call_gives_it() {
    let late = Job::critical(4).ready(0).length(10).deadline(9);
    assert_eq!(planned(0, &[late, optional(36, 5)]), Err(Refusal::NoFeasibleChoice));
    assert_eq!(offending(&[late, optional(37, 5)]), Some(1));

    let (mut room, mut work) = ([0; ORDER_BYTES], WorkArea::new());
    let order = Order::pack(0, &[critical(4), optional(37, 5)], &mut room).unwrap();
    assert_eq!(Order::try_from(order.bytes()), Ok(order));
    assert_eq!(order.plan(&mut work).map(|plan| plan.lost_weight), Ok(0));
    assert_eq!(order.profile(&mut work).to_string(), "(25, 0), (340, 5)");
    assert!(order.profile(&mut work).extended(order, &mut work).is_ok());
    for tie in [Tie::Sooner, Tie::First] {
        assert!(question_by(tie, order, order, 340, &mut work).is_ok());
        assert!(choose_by(tie, order, order, 340, &mut work).is_ok());
    }
}

#[test]
fn the_plain_call_judges_13_after_9_and_before_10() {
    let (mut room, mut starts, mut work) = ([0; ORDER_BYTES], [7; MOST_JOBS], vec![7; WORK_AREA + 1]);
    let fine = Order::pack(-900, &WORKED, &mut room).unwrap().bytes();
    for rooms in [(0, 0), (3, WORK_AREA), (4, WORK_AREA - 1)] {
        let answer = calls::plan_halves(fine, &mut starts[..rooms.0], &mut work[..rooms.1]);
        assert_eq!((answer.refusal, answer.place, answer.seconds_lost), (10, 0, 0));
    }
    let mut offends = fine.to_vec();
    offends[4 + 8 * 3 + 5] ^= 4; // the last bit of the last job's length: 481 seconds
    for rooms in [(0, 0), (3, WORK_AREA), (MOST_JOBS, WORK_AREA)] {
        let answer = calls::plan_halves(&offends, &mut starts[..rooms.0], &mut work[..rooms.1]);
        assert_eq!((answer.refusal, answer.place, answer.kept), (13, 3, 0));
        assert!(matches!(answer.accepted(), Err(Refusal::NotOfHalves { place: Some(3), .. })));
    }
    assert!(starts == [7; MOST_JOBS] && work.iter().all(|&number| number == 7));

    let answer = calls::plan_halves(fine, &mut starts, &mut work).accepted().unwrap();
    assert_eq!((answer.seconds_lost, &starts[..5]), (300, &[-900, 200_000, -585, -370, 7][..]));
    assert!(work[..WORK_AREA].iter().all(|&number| number == 0) && work[WORK_AREA] == 7);
}

#[test]
fn weights_of_more_than_300_are_9_and_not_13() {
    let mut jobs: Vec<Job> = (0..6).map(|number| optional(number, 50)).collect();
    jobs.push(critical(6));
    assert_eq!(offending(&jobs), Some(0));

    let mut bytes = OrderBuf::pack(0, &jobs).unwrap().into_bytes();
    bytes[4 + 8 * 6] ^= 2; // the last job is no longer critical
    bytes[4 + 8 * 6 + 1] ^= 4; // and weighs 1
    let answer = calls::plan_halves(&bytes, &mut [0; MOST_JOBS], &mut [0; WORK_AREA]);
    assert_eq!((answer.refusal, answer.place), (9, 0));
}
