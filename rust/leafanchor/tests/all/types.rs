//! What the wrapper's types say of orders and profiles that are refused, of openings, and of themselves.

use leafanchor::{
    calls, choose, choose_by, question, question_by, Field, Job, Kind, Opening, Order, OrderBuf, Point,
    Profile, Reader, Refusal, Tie, WorkArea, MOST_JOBS, ORDER_BYTES, WORK_AREA,
};

const P1_PACKED: [u8; 44] = *include_bytes!("../../../../examples/p1.order");

/// A job that fits anywhere.
fn job(number: i32) -> Job {
    Job::optional(number).weight(1).ready(0).length(1).deadline(100)
}

/// As many jobs as asked for, all alike but for their numbers.
fn jobs(count: i32, weight: u32) -> Vec<Job> {
    (0..count).map(|number| job(number).weight(weight)).collect()
}

/// What packing jobs is refused with, bus free at 0, into room of the caller and into an order's own.
fn refusal_of(jobs: &[Job]) -> Refusal {
    let refusal = Order::pack(0, jobs, &mut [0; ORDER_BYTES]).unwrap_err();
    assert_eq!(OrderBuf::pack(0, jobs), Err(refusal));
    refusal
}

/// The same as number, place and phrase.
fn refused(jobs: &[Job]) -> (u32, Option<usize>, String) {
    let refusal = refusal_of(jobs);
    (refusal.number(), refusal.place(), refusal.to_string())
}

#[test]
fn packing_refuses_with_number_place_and_phrase() {
    let four_nine = [4, 9, 4, 9].map(job);
    assert_eq!(refused(&four_nine), (7, Some(2), "job at place 2: its number stood earlier".to_string()));
    let long = [job(1).length(10_000), job(2).length(10_001)];
    assert_eq!(refused(&long), (6, Some(1), "job at place 1: length out of range".to_string()));
    assert_eq!(refused(&jobs(7, 50)), (9, None, "the weights sum to more than 300".to_string()));

    let mut room = [7; ORDER_BYTES];
    assert_eq!(Order::pack(0, &jobs(6, 50), &mut room).map(Order::count), Ok(6));
    assert_eq!(Order::pack(100_001, &[], &mut room), Err(Refusal::BusFreeOutOfRange));
    assert_eq!(Order::pack(0, &jobs(1, 1), &mut room[..11]), Err(Refusal::BufferTooShort));
}

#[test]
fn packing_names_the_first_field_out_of_range() {
    let told = [
        (Field::Number, "number", job(64)),
        (Field::Weight, "weight", job(2).weight(0)),
        (Field::Weight, "weight", job(2).weight(51)),
        (Field::Weight, "weight", job(2).weight(u32::MAX)),
        (Field::Weight, "weight", Job::critical(2).weight(1).ready(0).length(1).deadline(1)),
        (Field::Ready, "ready time", job(2).ready(-100_001)),
        (Field::Length, "length", job(2).length(0)),
        (Field::Deadline, "deadline", job(2).deadline(-100_001)),
    ];
    for (field, name, bad) in told {
        // By itself, and with the deadline out of range too.
        for deadline in [bad.deadline, 100_001] {
            let refusal = refusal_of(&[job(1), bad.deadline(deadline)]);
            assert_eq!((refusal.number(), refusal.place(), refusal.field()), (6, Some(1), Some(field)));
            assert!(matches!(
                refusal,
                Refusal::JobOutOfRange { place: Some(1), field: named, .. } if named == field
            ));
            assert_eq!(refusal.to_string(), format!("job at place 1: {name} out of range"));
        }
    }
    // No job has a pack past 255 or a mark that is none, but numbers can.
    let of_numbers = |numbers| calls::pack(0, numbers, &mut [0; 13]).accepted().unwrap_err();
    let (pack, mark) = (of_numbers(&[1, 256, 2, 0, 0, 0, 0]), of_numbers(&[1, 255, 2, 0, 0, 0, 0]));
    assert_eq!((pack.field(), Field::Pack.figure()), (Some(Field::Pack), 2));
    assert_eq!(pack.to_string(), "job at place 0: pack out of range");
    assert_eq!((mark.field(), Field::Critical.figure()), (Some(Field::Critical), 3));
    assert_eq!(mark.to_string(), "job at place 0: critical mark out of range");
    // A repeat names no field.
    assert_eq!(refusal_of(&[job(1), job(1)]).field(), None);
}

#[test]
fn a_field_that_was_not_given_is_named() {
    let forgotten = [
        (Field::Weight, Job::optional(1).ready(0).length(1).deadline(1)),
        (Field::Ready, Job::critical(1).length(1).deadline(1)),
        (Field::Length, Job::critical(1).ready(0).deadline(1)),
        (Field::Deadline, Job::critical(1).ready(0).length(1)),
    ];
    for (field, job) in forgotten {
        assert_eq!(refusal_of(&[job]).field(), Some(field));
    }
}

#[test]
fn packing_takes_48_jobs_and_no_more() {
    let mut room = [7; ORDER_BYTES];
    let with_packs: Vec<Job> = jobs(48, 1).into_iter().map(|job| job.pack(255)).collect();
    for (jobs, length) in [(jobs(48, 1), 388), (with_packs, ORDER_BYTES)] {
        assert_eq!(Order::pack(-7, &jobs, &mut room).map(Order::count), Ok(MOST_JOBS));
        let order = Order::try_from(&room[..length]).unwrap();
        assert_eq!((order.t0(), order.count()), (-7, MOST_JOBS));
        assert!(order.jobs().eq(jobs));
    }
    for count in [49, 50, 64, 1000] {
        let phrase = "there are more than 48 jobs, or more than 16 that repeat";
        assert_eq!(refused(&jobs(count, 1)), (3, None, phrase.to_string()));
    }
}

#[test]
fn an_order_is_refused_once_and_then_only_for_want_of_a_choice() {
    assert_eq!(Order::try_from(&P1_PACKED[..3]), Err(Refusal::OrderTooShort));
    assert_eq!(Order::try_from(&P1_PACKED[..43]), Err(Refusal::WrongLength));
    let mut bytes = P1_PACKED;
    bytes[3] = 2;
    assert_eq!(Order::try_from(&bytes), Err(Refusal::UnknownKind));
    assert_eq!(Order::try_from(&bytes.to_vec()), Err(Refusal::UnknownKind));
    assert_eq!(OrderBuf::try_from(bytes.to_vec()), Err(Refusal::UnknownKind));

    let late = OrderBuf::pack(0, &[Job::critical(1).ready(0).length(10).deadline(9)]).unwrap();
    let (late, mut work) = (late.as_order(), WorkArea::new());
    assert_eq!(late.plan(&mut work), Err(Refusal::NoFeasibleChoice));
    let profile = late.profile(&mut work);
    assert!(profile.is_empty());
    assert_eq!((profile.to_string(), profile.lookup(i32::MAX)), ("no point".to_string(), None));

    let none = Order::try_from(&[0; 4]).unwrap();
    assert_eq!((none.count(), none.jobs().next(), none.plan(&mut work).unwrap().finish), (0, None, 0));
}

#[test]
fn one_pack_makes_the_records_of_the_other_kind() {
    let plain = OrderBuf::pack(0, &jobs(3, 1)).unwrap();
    assert_eq!((plain.as_order().kind(), plain.as_order().records().len()), (Kind::Plain, 24));
    let mut jobs = jobs(3, 1);
    jobs[2].pack = 200;
    let order = OrderBuf::pack(0, &jobs).unwrap();
    let (order, mut work) = (order.as_order(), WorkArea::new());
    assert_eq!((order.kind(), order.records().len()), (Kind::WithPacks, 27));
    assert_eq!((order.count(), Kind::WithPacks.number(), order.bytes()[3]), (3, 1, 1));
    assert!(order.jobs().eq(jobs.iter().copied()));
    assert!(Reader::open(order.bytes()).unwrap().map(Result::unwrap).eq(jobs.iter().copied()));
    assert_eq!(Order::try_from(order.bytes()), Ok(order));
    assert_eq!(order.plan(&mut work), plain.as_order().plan(&mut work));
    assert_eq!(order.profile(&mut work), plain.as_order().profile(&mut work));
    assert_eq!(Order::pack(0, &jobs, &mut [0; 30]), Err(Refusal::BufferTooShort));

    let winner = choose(plain.as_order(), order, 100, &mut work).unwrap();
    assert_eq!((winner.opening, winner.kind), (Opening::First, Kind::Plain));
    let winner = choose(order, plain.as_order(), 100, &mut work).unwrap();
    assert_eq!((winner.kind, winner.records), (Kind::WithPacks, order.records()));
}

#[test]
fn records_of_kind_1_have_a_pack() {
    let mut bytes = OrderBuf::pack(0, &[job(1).pack(1)]).unwrap().into_bytes();
    bytes[5] = 0; // the pack is now 0
    for bytes in [&bytes[..], &[0, 0, 0, 1]] {
        assert_eq!(Order::try_from(bytes), Err(Refusal::EveryPackZero));
        assert_eq!(Reader::open(bytes).unwrap_err(), Refusal::EveryPackZero);
        assert_eq!(calls::step(bytes, 0).accepted(), Err(Refusal::EveryPackZero));
    }
    assert_eq!(Order::try_from(&bytes[..12]), Err(Refusal::WrongLength));
}

#[test]
fn an_order_owns_its_bytes_or_borrows_them() {
    let order = Order::try_from(&P1_PACKED).unwrap();
    let owned = OrderBuf::from(order);
    assert_eq!((owned.as_order(), Order::from(&owned)), (order, order));
    assert_eq!((order.as_ref(), owned.as_ref()), (&P1_PACKED[..], &P1_PACKED[..]));
    assert_eq!(OrderBuf::try_from(P1_PACKED.to_vec()).as_ref(), Ok(&owned));
    assert_eq!(Order::try_from(&owned.clone().into_bytes()), Ok(order));
    let jobs: Vec<Job> = order.jobs().collect();
    assert_eq!(OrderBuf::pack(order.t0(), &jobs), Ok(owned));
}

#[test]
fn orders_and_plans_are_shown_one_job_a_line() {
    let order = OrderBuf::try_from(P1_PACKED.to_vec()).unwrap();
    let shown = "bus free at -600\n\
                 job 7: critical, ready -600, length 495, deadline 0\n\
                 job 3: weight 20, ready -200, length 300, deadline 250\n\
                 job 12: weight 15, ready 0, length 200, deadline 300\n\
                 job 5: critical, ready 100, length 100, deadline 450\n\
                 job 9: weight 15, ready 0, length 100, deadline 500";
    assert_eq!((order.to_string(), order.as_order().to_string()), (shown.to_string(), shown.to_string()));
    let plan = order.as_order().plan(&mut WorkArea::new()).unwrap();
    assert_eq!(
        plan.to_string(),
        "job 7: start -600\njob 3: start -90\njob 12: left out\njob 5: start 225\njob 9: start 340\n\
         4 of 5 jobs kept; weight 35 kept, 15 lost; bus free at 455"
    );

    let none = Order::try_from(&[0; 4]).unwrap();
    assert_eq!(none.to_string(), "bus free at 0");
    let nothing = none.plan(&mut WorkArea::new()).unwrap().to_string();
    assert_eq!(nothing, "0 of 0 jobs kept; weight 0 kept, 0 lost; bus free at 0");
}

#[test]
fn what_debug_shows_has_no_number_that_stands_for_none() {
    let order = OrderBuf::pack(7, &[job(4).deadline(8), job(9).deadline(8)]).unwrap();
    let jobs: Vec<Job> = order.as_order().jobs().collect();
    assert_eq!(format!("{order:?}"), format!("Order {{ t0: 7, jobs: {jobs:?} }}"));
    assert_eq!(format!("{:?}", order.as_order()), format!("{order:?}"));
    let plan = order.as_order().plan(&mut WorkArea::new()).unwrap();
    assert_eq!(
        format!("{plan:?}"),
        "Plan { mask: 0x8000000000000000, kept: 1, kept_weight: 1, lost_weight: 1, finish: 23, points: 4, \
         numbers: [4, 9], starts: [Some(7), None] }"
    );
}

#[test]
fn a_reader_stays_at_a_refused_job_and_its_iterator_ends_there() {
    let mut bytes = P1_PACKED;
    bytes[4 + 8 + 4] = 0;
    bytes[4 + 8 + 5] &= 0x03; // the second job's length is now 0
    let mut reader = Reader::open(&bytes).unwrap();
    assert_eq!((reader.jobs(), reader.size_hint()), (5, (1, Some(5))));
    assert_eq!(reader.step(), Ok(Some(Job::critical(7).ready(-600).length(495).deadline(0))));
    for _ in 0..2 {
        let refusal = reader.step().unwrap_err();
        assert!(matches!(refusal, Refusal::JobOutOfRange { place: Some(1), field: Field::Length, .. }));
        assert_eq!((reader.place(), reader.size_hint()), (1, (1, Some(4))));
    }
    assert!(reader.next().unwrap().is_err());
    assert_eq!((reader.next(), reader.size_hint()), (None, (0, Some(0))));
    assert_eq!(Reader::open(&P1_PACKED).unwrap().map(Result::unwrap).count(), 5);
    assert_eq!(Reader::open(&[]).unwrap_err(), Refusal::OrderTooShort);
}

/// Holds the question and the choice at a time to the winner by each tie; the first is that of the default.
fn wins(first: Order<'_>, second: Order<'_>, t: i32, by_tie: [(Tie, Opening); 2]) {
    let work = &mut WorkArea::new();
    assert_eq!(question(first, second, t, work), Ok(by_tie[0].1));
    assert_eq!(choose(first, second, t, work), choose_by(by_tie[0].0, first, second, t, work));
    for (tie, opening) in by_tie {
        let order = if opening == Opening::First { first } else { second };
        assert_eq!(question_by(tie, first, second, t, work), Ok(opening));
        let winner = choose_by(tie, first, second, t, work).unwrap();
        assert_eq!((winner.opening, winner.order, winner.records), (opening, order, order.records()));
    }
}

#[test]
fn openings_are_weighed_at_a_time() {
    use Opening::{First, Second};
    let (mut slow, mut quick) = ([0; ORDER_BYTES], [0; ORDER_BYTES]);
    let slow = Order::pack(0, &[job(1).weight(10).length(10)], &mut slow).unwrap();
    let quick = Order::pack(0, &[job(1).weight(10).length(5)], &mut quick).unwrap();
    // Up to 19 both have weight 0 from 0 on; then the quick one is heavier; from 25 on both are as heavy again.
    for (t, sooner, to_first) in
        [(19, First, First), (20, Second, Second), (24, Second, Second), (25, Second, First)]
    {
        wins(slow, quick, t, [(Tie::Sooner, sooner), (Tie::First, to_first)]);
    }
    for (one, other) in [(quick, slow), (slow, slow), (quick, quick)] {
        wins(one, other, 25, [(Tie::Sooner, First), (Tie::First, First)]);
    }
}

#[test]
fn openings_without_a_point_are_refused_by_every_tie() {
    let (order, mut work) = (Order::try_from(&[0; 4]).unwrap(), WorkArea::new());
    assert_eq!(Tie::default(), Tie::Sooner);
    for tie in [Tie::Sooner, Tie::First] {
        assert_eq!(choose_by(tie, order, order, -1, &mut work), Err(Refusal::NoFeasibleChoice));
        assert_eq!(question_by(tie, order, order, -1, &mut work), Err(Refusal::NoFeasibleChoice));
        assert_eq!(question_by(tie, order, order, 0, &mut work), Ok(Opening::First));
    }
}

#[test]
fn profiles_are_checked() {
    for numbers in [&[1][..], &[0, 0, 0, 1], &[0, 1, 1, 1], &[100_016, 0], &[0, 301], &[0; 604]] {
        assert_eq!(Profile::try_from(numbers), Err(Refusal::ProfileNotValid));
    }
    for weight in [301, u32::MAX] {
        assert_eq!(Profile::try_from(&[Point { time: 0, weight }]), Err(Refusal::ProfileNotValid));
    }
    let points = |count: u32| (0..count).map(|at| Point { time: at as i32, weight: at }).collect::<Vec<_>>();
    assert_eq!(Profile::try_from(&points(302)), Err(Refusal::ProfileNotValid));
    let full = Profile::try_from(&points(301)).unwrap();
    assert_eq!(Profile::try_from(&full.numbers().to_vec()).as_ref(), Ok(&full));
    assert!(full.points().eq(points(301)));
    assert_eq!(full.lookup(500), Some(300));
    let heavier = Order::try_from(&P1_PACKED).unwrap();
    assert_eq!(full.extended(heavier, &mut WorkArea::new()), Err(Refusal::TooMuchWeight));
    assert_eq!(Profile::default().extended(heavier, &mut WorkArea::new()), Ok(Profile::default()));
}

#[test]
fn a_boxed_work_area_never_stands_on_the_stack() {
    let small = std::thread::Builder::new().stack_size(32 * 1024);
    let plan = || Order::try_from(&P1_PACKED)?.plan(&mut WorkArea::boxed());
    assert_eq!(small.spawn(plan).unwrap().join().unwrap().unwrap().finish, 455);
}

#[test]
fn plain_calls_take_anything() {
    let (mut starts, mut work) = ([7; MOST_JOBS], vec![7; WORK_AREA]);
    let answer = calls::plan(&[], &mut starts, &mut work);
    assert_eq!(answer.accepted(), Err(Refusal::OrderTooShort));
    let answer = calls::plan(&P1_PACKED, &mut starts, &mut work[1..]);
    assert_eq!(answer.accepted(), Err(Refusal::BufferTooShort));
    assert!(starts == [7; MOST_JOBS] && work.iter().all(|&number| number == 7));
    assert_eq!(calls::plan(&P1_PACKED, &mut starts, &mut work).accepted().unwrap().finish, 455);
}

#[test]
fn a_plain_call_on_two_openings_tells_a_field_and_no_place() {
    let mut bad = P1_PACKED;
    bad[4 + 8] = bad[4] & !3 | bad[4 + 8] & 3; // the second job's number is the first's
    let ask = |second: &[u8]| calls::question(&P1_PACKED, second, 0, &mut [0; WORK_AREA]).accepted();
    let refusal = ask(&bad).unwrap_err();
    assert_eq!((refusal.number(), refusal.place()), (7, None));
    assert_eq!(refusal.to_string(), "a job's number stood earlier");
    bad[4 + 8 + 5] &= 0x03;
    bad[4 + 8 + 4] = 0; // and its length is 0
    let refusal = ask(&bad).unwrap_err();
    assert_eq!((refusal.place(), refusal.field()), (None, Some(Field::Length)));
    assert_eq!(refusal.to_string(), "length out of range");
}
