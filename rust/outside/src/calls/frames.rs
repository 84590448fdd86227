//! Frames of repeating jobs, and the plans of two frames joined.

use super::{unless, Trial};
use crate::inputs;
use crate::lent::Lent;
use crate::reference::{self, Refused};
use leafanchor::calls::{self, FrameAnswer};
use leafanchor::{MOST_JOBS, WORK_AREA};
use trials::{answer, packed, Order, Repeating};

impl Trial {
    /// Makes the frame of numbers of any kind, and where two frames fit plans them.
    pub fn frame(&mut self) {
        let numbers = inputs::repeating_numbers(&mut self.random);
        let needed = match reference::frame(&numbers) {
            Ok((order, _)) => 4 + 8 * order.jobs.len(),
            Err(_) => 4 + 8 * (numbers.len() / 6),
        };
        let room = inputs::room(&mut self.random, needed);
        self.frame_numbers(&numbers, room);
        self.typed_frame(&numbers);
        if let Ok((order, frame)) = reference::frame(&numbers) {
            self.plan_two_frames(&order, frame);
        }
    }

    /// Makes a frame with every room from none to more than it needs.
    pub fn frame_rooms(&mut self) {
        let jobs = inputs::repeating(&mut self.random);
        let numbers: Vec<i32> = jobs.iter().flat_map(Repeating::numbers).collect();
        let (order, _) = reference::frame(&numbers).expect("these jobs have a frame in range");
        for room in 0..4 + 8 * order.jobs.len() + 12 {
            self.frame_numbers(&numbers, room);
        }
    }

    fn frame_numbers(&mut self, numbers: &[i32], room: usize) {
        let mut read = Lent::given(numbers, || self.junk());
        let mut lent = Lent::new(room, || self.junk() as u8);
        let given = calls::frame(read.lend(), lent.lend());
        let made = reference::frame(numbers);
        let roomy = made.clone().and_then(|(order, frame)| {
            unless(room >= 4 + 8 * order.jobs.len(), 10).map(|()| (packed(&order), frame))
        });
        let (wanted, written) = match roomy {
            Ok((bytes, frame)) => (answer!(FrameAnswer { bytes: bytes.len(), frame }), bytes),
            Err(Refused { number, place, .. }) => (answer!(FrameAnswer { refusal: number, place }), vec![]),
        };
        let memory = read.holds(numbers) && lent.holds(&written);
        self.tally.frames.count(numbers, &made, room);
        self.tally.compare("frame", (given.refusal, given, memory), wanted, &(room, numbers));
    }

    /// Plans a frame and two of them joined, where they fit an order: both are feasible or none is, and two keep twice
    /// the weight of one. Each plan is held against the reference too.
    fn plan_two_frames(&mut self, order: &Order, frame: u32) {
        let two = match reference::two_frames(order, frame) {
            Some(two) => two,
            None => return,
        };
        let (one, two) = (packed(order), packed(&two));
        let [one_plan, two_plan] = [&one, &two]
            .map(|bytes| calls::plan(bytes, &mut [0; MOST_JOBS], &mut self.plain_work[..WORK_AREA]));
        let given = (two_plan.refusal, two_plan.kept_weight);
        let wanted = (one_plan.refusal, 2 * one_plan.kept_weight);
        self.tally.frames.count_two(one_plan.refusal, one_plan.lost_weight);
        self.tally.compare("two frames planned", (two_plan.refusal, given, true), wanted, &(frame, &one));
        self.plan_bytes(&one);
        self.plan_bytes(&two);
    }
}
