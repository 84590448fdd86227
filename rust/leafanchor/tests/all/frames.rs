//! Frames of repeating jobs: the worked one, each refusal on both sides of its edge, and two frames joined.

use leafanchor::{
    calls, Job, Order, OrderBuf, Plan, Refusal, Repeating, WorkArea, LONGEST_FRAME, MOST_REPEATING,
    ORDER_BYTES, REPEATING_NUMBERS, REST,
};

/// A coolant pump's check and a fan's.
const WORKED: [Repeating; 2] = [
    Repeating::critical().phase(0).length(60).deadline(300).period(1200),
    Repeating::optional().weight(5).phase(100).length(120).deadline(400).period(1800),
];

/// Their numbers, and the packed order of their frame.
const WORKED_NUMBERS: [i32; 12] = [1, 0, 0, 60, 300, 1200, 0, 5, 100, 120, 400, 1800];
const WORKED_PACKED: [u8; 44] = [
    0x14, 0, 0, 0, // 5 jobs, t0 = 0
    0x02, 0x00, 0x00, 0x00, 0x00, 0xF0, 0x01, 0x2C, // the pump, ready at 0
    0x04, 0x14, 0x00, 0x64, 0x01, 0xE0, 0x01, 0xF4, // the fan, 100
    0x0A, 0x00, 0x04, 0xB0, 0x00, 0xF0, 0x05, 0xDC, // 1,200
    0x0C, 0x14, 0x07, 0x6C, 0x01, 0xE0, 0x08, 0xFC, // 1,900
    0x12, 0x00, 0x09, 0x60, 0x00, 0xF0, 0x0A, 0x8C, // 2,400
];

/// An optional job that repeats with this period.
fn every(period: i32) -> Repeating {
    Repeating::optional().weight(1).phase(0).length(1).deadline(1).period(period)
}

/// What a frame is refused with, into room of the caller, which stays as it was, and into an order's own.
fn refused(repeating: &[Repeating]) -> Refusal {
    let mut room = [7; ORDER_BYTES];
    let refusal = Order::frame(repeating, &mut room).unwrap_err();
    assert_eq!(room, [7; ORDER_BYTES]);
    assert_eq!(OrderBuf::frame(repeating), Err(refusal));
    refusal
}

/// The place of the first job that is out of range or late.
fn not_valid(repeating: &[Repeating]) -> Option<usize> {
    let refusal = refused(repeating);
    assert_eq!((refusal.number(), refusal.field()), (16, None));
    assert!(matches!(refusal, Refusal::RepeatingNotValid { place, .. } if place == refusal.place()));
    refusal.place()
}

/// The jobs of a frame and its seconds.
fn framed(repeating: &[Repeating]) -> (Vec<Job>, u32) {
    let (order, frame) = OrderBuf::frame(repeating).unwrap();
    assert_eq!(OrderBuf::try_from(order.clone().into_bytes()).as_ref(), Ok(&order));
    assert_eq!(order.as_order().t0(), 0);
    (order.as_order().jobs().collect(), frame)
}

#[test]
fn the_worked_frame() {
    let mut room = [7; ORDER_BYTES];
    let (order, frame) = Order::frame(&WORKED, &mut room).unwrap();
    assert_eq!((frame, order.bytes(), order.count()), (3600, &WORKED_PACKED[..], 5));
    assert_eq!(
        order.to_string(),
        "bus free at 0\n\
         job 0: critical, ready 0, length 60, deadline 300\n\
         job 1: weight 5, ready 100, length 120, deadline 500\n\
         job 2: critical, ready 1200, length 60, deadline 1500\n\
         job 3: weight 5, ready 1900, length 120, deadline 2300\n\
         job 4: critical, ready 2400, length 60, deadline 2700"
    );
    assert_eq!(OrderBuf::frame(&WORKED), Ok((OrderBuf::from(order), 3600)));
    let plan = order.plan(&mut WorkArea::new()).unwrap();
    assert_eq!((plan.kept, plan.kept_weight, plan.finish), (5, 10, 2475));
    assert!(room[44..].iter().all(|&byte| byte == 7));
    // The same jobs given the other way round are ready at the same times.
    assert_eq!(framed(&[WORKED[1], WORKED[0]]), framed(&WORKED));
}

#[test]
fn no_jobs_make_a_frame_of_1() {
    assert_eq!(framed(&[]), (vec![], 1));
    assert_eq!(Order::frame(&[], &mut [7; 4]).map(|(order, frame)| (order.count(), frame)), Ok((0, 1)));
    assert_eq!(Order::frame(&[], &mut [7; 3]), Err(Refusal::BufferTooShort));
}

#[test]
fn equal_ready_times_go_by_the_place_given() {
    let weights = |repeating: &[Repeating]| {
        framed(repeating).0.iter().map(|job| (job.ready, job.weight)).collect::<Vec<_>>()
    };
    let [a, b, c] = [(300, 1), (200, 2), (100, 3)].map(|(period, weight)| every(period).weight(weight));
    let wanted =
        [(0, 1), (0, 2), (0, 3), (100, 3), (200, 2), (200, 3), (300, 1), (300, 3), (400, 2), (400, 3)];
    assert_eq!(weights(&[a, b, c])[..10], wanted);
    assert_eq!(weights(&[c, b, a])[..3], [(0, 3), (0, 2), (0, 1)]);
    assert_eq!(weights(&[b, a, c])[..3], [(0, 2), (0, 1), (0, 3)]);
    assert!(framed(&[a, b, c]).0.iter().map(|job| job.number).eq(0..11));
}

#[test]
fn a_field_that_was_not_given_is_refused_with_its_place() {
    let forgotten = [
        Repeating::optional().phase(0).length(60).deadline(300).period(1200),
        Repeating::critical().length(60).deadline(300).period(1200),
        Repeating::critical().phase(0).deadline(300).period(1200),
        Repeating::critical().phase(0).length(60).period(1200),
        Repeating::critical().phase(0).length(60).deadline(300),
    ];
    for job in forgotten {
        assert_eq!(not_valid(&[WORKED[0], job, WORKED[1]]), Some(1));
    }
}

#[test]
fn every_field_is_judged_on_both_sides_of_its_range() {
    let [pump, fan] = WORKED;
    let all_day = fan.phase(0).period(86_400);
    let fits = [
        fan.weight(1),
        fan.weight(50),
        fan.phase(0),
        fan.length(1),
        fan.length(10_000),
        fan.deadline(1),
        all_day,
        all_day.deadline(86_385),
        all_day.phase(86_384).deadline(1),
        every(16),
    ];
    for job in fits {
        assert_eq!(framed(&[job]).0.len(), 1);
    }
    let out_of_range = [
        fan.weight(0),
        fan.weight(51),
        fan.weight(u32::MAX),
        pump.weight(1),
        fan.phase(-1),
        fan.phase(i32::MIN),
        fan.length(0),
        fan.length(10_001),
        fan.deadline(0),
        fan.deadline(i32::MIN),
        all_day.deadline(86_401),
        all_day.period(86_401),
        fan.period(0),
        fan.period(-1800),
        every(1),
        every(15),
        fan.period(i32::MIN),
    ];
    for job in out_of_range {
        assert_eq!((not_valid(&[job]), not_valid(&[fan, pump, job, job])), (Some(0), Some(2)));
    }
    let phrase = "job at place 2: out of range, or its deadline late";
    assert_eq!(refused(&[fan, pump, fan.weight(0)]).to_string(), phrase);
}

#[test]
fn the_rest_after_a_deadline_ends_with_the_period() {
    let [_, fan] = WORKED;
    let latest = fan.period - fan.deadline - REST;
    assert_eq!(framed(&[fan.phase(latest)]).0[0].deadline + REST, fan.period);
    for phase in [latest + 1, fan.period, i32::MAX - fan.deadline - REST, i32::MAX] {
        assert_eq!(not_valid(&[fan, fan.phase(phase)]), Some(1));
    }
    assert_eq!(not_valid(&[fan.phase(i32::MAX).deadline(i32::MAX).period(i32::MAX)]), Some(0));
}

#[test]
fn a_frame_is_86_400_at_most() {
    assert_eq!(framed(&[every(43_200), every(28_800)]).1, LONGEST_FRAME);
    assert_eq!(framed(&[every(16), every(17)]).1, 272);
    // The least frame of two periods past it, and products that 32 bits do not hold.
    for (one, other) in [(83, 1041), (86_400, 57_600), (86_400, 86_399), (65_536, 65_537)] {
        assert_eq!(refused(&[every(one), every(other)]), Refusal::FrameTooLong);
        assert_eq!(refused(&[every(other), every(one)]), Refusal::FrameTooLong);
    }
    assert_eq!(Refusal::FrameTooLong.to_string(), "the frame is longer than 86,400 seconds");
}

#[test]
fn up_to_16_jobs_and_48_repeats() {
    assert_eq!(framed(&[every(100); MOST_REPEATING]).0.len(), 16);
    for count in [MOST_REPEATING + 1, MOST_REPEATING + 2, 100] {
        assert_eq!(refused(&vec![every(100); count]), Refusal::TooManyJobs);
        assert_eq!(refused(&vec![every(0); count]), Refusal::TooManyJobs);
    }
    assert_eq!(framed(&[every(1800), every(84_600)]).0.len(), 48);
    assert_eq!(refused(&[every(1800), every(86_400)]), Refusal::TooManyJobs);
}

#[test]
fn the_weights_of_all_repeats_sum_to_300_at_most() {
    let six_times = [every(1000).weight(50), every(6000)];
    assert_eq!(refused(&six_times), Refusal::TooMuchWeight);
    let critical = Repeating::critical().phase(0).length(1).deadline(1).period(6000);
    assert_eq!(framed(&[six_times[0], critical]).0.len(), 7);
}

#[test]
fn refusals_come_in_their_sequence() {
    let late = every(15);
    let long = [every(86_400), every(86_399)];
    assert_eq!(not_valid(&[long[0], long[1], late]), Some(2));
    assert_eq!(refused(&[every(16), every(86_399)]), Refusal::FrameTooLong); // and more than 48 repeats
    assert_eq!(refused(&[every(1800).weight(50), every(86_400)]), Refusal::TooManyJobs); // and too heavy
    let numbers: Vec<i32> = [0, 50, 0, 1, 1, 1000].iter().chain(&[0, 1, 0, 1, 1, 6000]).copied().collect();
    let refusal = |numbers: &[i32]| {
        let answer = calls::frame(numbers, &mut []);
        assert_eq!((answer.bytes, answer.frame), (0, 0));
        (answer.refusal, answer.place)
    };
    assert_eq!(refusal(&numbers), (9, 0));
    assert_eq!(refusal(&WORKED_NUMBERS), (10, 0));
    assert_eq!(refusal(&numbers[..11]), (4, 0));
    assert_eq!(refusal(&[i32::MIN; 12]), (16, 0));
    assert_eq!(refusal(&[0; REPEATING_NUMBERS - 1]), (4, 0));
    assert_eq!(refusal(&[0; REPEATING_NUMBERS]), (16, 0));
    assert_eq!(refusal(&[0; REPEATING_NUMBERS + 1]), (3, 0));
    // A mark that is neither: no repeating job has it, but numbers can.
    assert_eq!(refusal(&[1, 0, 0, 60, 300, 1200, 2, 0, 0, 60, 300, 1200]), (16, 1));
}

#[test]
fn the_plain_call_writes_the_order_and_no_more() {
    let mut room = [7; 46];
    assert_eq!(calls::frame(&WORKED_NUMBERS, &mut room[..43]).accepted(), Err(Refusal::BufferTooShort));
    assert_eq!(room, [7; 46]);
    let answer = calls::frame(&WORKED_NUMBERS, &mut room).accepted().unwrap();
    assert_eq!((answer.bytes, answer.frame), (44, 3600));
    assert_eq!((&room[..44], &room[44..]), (&WORKED_PACKED[..], &[7, 7][..]));
}

/// The plans of one frame, and of two joined, the second numbered on and set one frame later.
fn planned(repeating: &[Repeating]) -> [Result<Plan, Refusal>; 2] {
    let (one, frame) = framed(repeating);
    let later = |job: &Job| {
        let (number, seconds) = (job.number + one.len() as i32, frame as i32);
        let mut job = *job;
        job.number = number;
        job.ready(job.ready + seconds).deadline(job.deadline + seconds)
    };
    let two: Vec<Job> = one.iter().copied().chain(one.iter().map(later)).collect();
    [one, two].map(|jobs| OrderBuf::pack(0, &jobs).unwrap().as_order().plan(&mut WorkArea::new()))
}

#[test]
fn two_frames_keep_twice_the_weight_of_one() {
    let busy = [
        Repeating::critical().phase(0).length(200).deadline(300).period(1200),
        Repeating::optional().weight(5).phase(100).length(300).deadline(450).period(600),
        Repeating::optional().weight(8).phase(150).length(300).deadline(400).period(1200),
    ];
    for (repeating, weight) in [(&WORKED[..], 10), (&busy, 13), (&[], 0)] {
        let [one, two] = planned(repeating).map(|plan| plan.unwrap().kept_weight);
        assert_eq!((one, two), (weight, 2 * weight));
    }
    // Two critical jobs that want the bus at once.
    let pump = WORKED[0].deadline(60);
    for plan in planned(&[pump, pump.period(2400)]) {
        assert_eq!(plan, Err(Refusal::NoFeasibleChoice));
    }
}
