//! The worked figures P1 to P11 through the safe wrapper.

use leafanchor::{heat_up, Job, Order, OrderBuf, Plan, Point, Profile, Refusal, WorkArea, ORDER_BYTES};

/// The five jobs of P1, bus free at -600.
const P1: [Job; 5] = [
    Job::critical(7).ready(-600).length(495).deadline(0),
    Job::optional(3).weight(20).ready(-200).length(300).deadline(250),
    Job::optional(12).weight(15).ready(0).length(200).deadline(300),
    Job::critical(5).ready(100).length(100).deadline(450),
    Job::optional(9).weight(15).ready(0).length(100).deadline(500),
];
const P1_PACKED: &[u8] = include_bytes!("../../../../examples/p1.order");

/// The plan of jobs, bus free at 0.
fn planned(jobs: &[Job]) -> Result<Plan, Refusal> {
    OrderBuf::pack(0, jobs)?.as_order().plan(&mut WorkArea::new())
}

/// The starts of jobs, bus free at 0, and when it is free after the plan.
fn starts(jobs: &[Job]) -> (Vec<Option<i32>>, i32) {
    let plan = planned(jobs).unwrap();
    (plan.starts().collect(), plan.finish)
}

#[test]
fn p1_is_packed_and_read_back() {
    let mut room = [0; ORDER_BYTES];
    let order = Order::pack(-600, &P1, &mut room).unwrap();
    assert_eq!(order.bytes()[..12], [0x17, 0xFD, 0xA8, 0, 0x1E, 0x03, 0xFD, 0xA8, 0x07, 0xBC, 0, 0]);
    assert_eq!(order.bytes(), P1_PACKED);
    assert_eq!(order.records(), &P1_PACKED[4..]);

    assert_eq!(Order::try_from(P1_PACKED), Ok(order));
    assert_eq!((order.t0(), order.count()), (-600, 5));
    assert_eq!((order.jobs().len(), order.jobs().next_back()), (5, Some(P1[4])));
    assert!(order.jobs().eq(P1));
    assert_eq!((order.job(4), order.job(5)), (Some(P1[4]), None));
}

#[test]
fn p1_is_planned() {
    let plan = Order::try_from(P1_PACKED).unwrap().plan(&mut WorkArea::boxed()).unwrap();
    assert_eq!((plan.kept, plan.kept_weight, plan.lost_weight), (4, 35, 15));
    assert_eq!((plan.finish, plan.points), (455, 14));
    assert_eq!(plan.mask, 0b11011 << 59);
    let starts = [Some(-600), Some(-90), None, Some(225), Some(340)];
    assert!(plan.starts().eq(starts));
    assert_eq!([0, 1, 2, 3, 4].map(|place| plan.start(place)), starts);
    assert_eq!((plan.start(5), plan.keeps(4), plan.keeps(2), plan.keeps(64)), (None, true, false, false));
    assert_eq!(plan.kept_places().len(), 4);
    assert!(plan.kept_places().eq([0, 1, 3, 4]));
}

#[test]
fn p2_and_p3_are_the_profile_of_p1() {
    let order = Order::try_from(P1_PACKED).unwrap();
    let profile = order.profile(&mut WorkArea::new());
    assert_eq!(profile.to_string(), "(215, 0), (330, 15), (340, 20), (445, 30), (455, 35)");
    assert_eq!(profile.numbers(), [215, 0, 330, 15, 340, 20, 445, 30, 455, 35]);
    let points: Vec<Point> = profile.points().collect();
    assert_eq!((profile.points().len(), points[4]), (5, Point { time: 455, weight: 35 }));
    assert_eq!(Profile::try_from(&points).as_ref(), Ok(&profile));
    assert_eq!(Profile::try_from(profile.numbers()).as_ref(), Ok(&profile));
    for (t, weight) in [(214, None), (215, Some(0)), (454, Some(30)), (455, Some(35))] {
        assert_eq!(profile.lookup(t), weight);
    }
    let bus_free = Profile::try_from(&[-600, 0]).unwrap();
    assert_eq!(bus_free.extended(order, &mut WorkArea::new()), Ok(profile));
}

#[test]
fn p4_and_p5_are_both_sides_of_a_deadline() {
    let job = Job::critical(1).ready(0).length(10);
    assert_eq!(starts(&[job.deadline(10)]), (vec![Some(0)], 25));
    assert_eq!(planned(&[job.deadline(9)]), Err(Refusal::NoFeasibleChoice));
    assert_eq!(starts(&[Job::optional(1).weight(10).ready(0).length(10).deadline(9)]), (vec![None], 0));
}

#[test]
fn p6_to_p8_are_ties() {
    let [a, b] = [1, 2].map(|number| Job::optional(number).weight(10).ready(0));
    let p6 = [a.length(10).deadline(10), b.length(10).deadline(10)];
    assert_eq!(starts(&p6), (vec![Some(0), None], 25));
    let p7 = [a.length(10).deadline(10), b.length(5).deadline(10)];
    assert_eq!(starts(&p7), (vec![None, Some(0)], 20));
    let c = Job::critical(3).ready(40).length(1).deadline(41);
    let p8 = [a.length(4).deadline(4), b.length(2).deadline(4), c];
    assert_eq!(starts(&p8), (vec![Some(0), None, Some(40)], 56));
}

#[test]
fn p9_is_better_of() {
    let (p, q) = (Profile::try_from(&[0, 0, 20, 7]).unwrap(), Profile::try_from(&[5, 7]).unwrap());
    assert_eq!(p.better_of(&q).numbers(), [0, 0, 5, 7]);
    assert_eq!(q.better_of(&Profile::default()), q);
}

#[test]
fn p10_and_p11_are_heat_up_lengths() {
    for (byte, seconds) in [(255, 495), (0, 450), (9, 45), (10, 0), (246, 900), (245, 1020), (226, 3300)] {
        assert_eq!(heat_up(byte), Ok(seconds));
    }
    assert_eq!(heat_up(225), Err(Refusal::CellTooCold));
}
