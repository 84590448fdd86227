//! Counts of what the answers on frames of repeating jobs turned on.

use crate::reference::{self, Refused};
use std::collections::BTreeSet;
use trials::{Order, Repeating};

/// Frames that are tried, at least, and those of them that are made.
const MANY_FRAMES: usize = 20_000;
const MANY_MADE: usize = 8_000;

/// Two frames that are planned, at least.
const MANY_TWO: usize = 4_000;

/// How often the inputs came to what a frame turns on.
#[derive(Default)]
pub struct Frames {
    tried: usize,
    made: usize,
    /// Frames of no jobs, of 16, of 48 repeats, of weight 300 and of 86,400 seconds.
    empty: usize,
    sixteen: usize,
    full: usize,
    heaviest: usize,
    longest: usize,
    /// Those with jobs of two places ready at once, and of three.
    met_by_two: usize,
    met_by_three: usize,
    /// Jobs of frames that were made whose rest ends with the period, and jobs that are late by a second alone.
    on_time: usize,
    late_by_one: usize,
    /// Places told with 16, and how often a later job was out of range or late too, or the sum passes 32 bits.
    places: BTreeSet<usize>,
    several: usize,
    past_32_bits: usize,
    /// Refused with 3 for more than 96 numbers, for 49 repeats and for more of them; with 9 for 301 and for more.
    too_many_numbers: usize,
    one_repeat_more: usize,
    too_many_repeats: usize,
    one_weight_more: usize,
    too_heavy: usize,
    /// Room for all but a byte, just enough, and more.
    short_by_one: usize,
    just_enough: usize,
    more_room: usize,
    /// Two frames planned: nothing is lost, some weight is lost, nothing is feasible.
    two_whole: usize,
    two_losing: usize,
    two_infeasible: usize,
}

impl Frames {
    /// Counts an input with what the reference makes of it, whatever the room, and the room.
    pub fn count(&mut self, numbers: &[i32], made: &Result<(Order, u32), Refused>, room: usize) {
        self.tried += 1;
        match made {
            Ok((order, frame)) => {
                self.count_made(numbers, order, *frame);
                let needed = 4 + 8 * order.jobs.len();
                self.short_by_one += usize::from(room + 1 == needed);
                self.just_enough += usize::from(room == needed);
                self.more_room += usize::from(room > needed);
            }
            Err(refused) => self.count_refused(numbers, *refused),
        }
    }

    fn count_made(&mut self, numbers: &[i32], order: &Order, frame: u32) {
        let jobs = &order.jobs;
        let weight: i32 = jobs.iter().map(|job| job.weight).sum();
        let at_once = |many: usize| jobs.windows(many).any(|jobs| jobs[0].ready == jobs[many - 1].ready);
        self.made += 1;
        self.empty += usize::from(jobs.is_empty());
        self.sixteen += usize::from(numbers.len() == 96);
        self.full += usize::from(jobs.len() == 48);
        self.heaviest += usize::from(weight == 300);
        self.longest += usize::from(frame == 86_400);
        self.met_by_two += usize::from(at_once(2));
        self.met_by_three += usize::from(at_once(3));
        let on_time = |job: &Repeating| reference::spare_seconds(job) == Some(0);
        self.on_time += repeating(numbers).iter().filter(|job| on_time(job)).count();
    }

    fn count_refused(&mut self, numbers: &[i32], refused: Refused) {
        match refused.number {
            3 if numbers.len() > 96 => self.too_many_numbers += 1,
            3 | 9 => {
                let (repeats, weight) = sums(&repeating(numbers));
                let counted = match (refused.number, repeats, weight) {
                    (3, 49, _) => &mut self.one_repeat_more,
                    (3, ..) => &mut self.too_many_repeats,
                    (_, _, 301) => &mut self.one_weight_more,
                    _ => &mut self.too_heavy,
                };
                *counted += 1;
            }
            16 => {
                let jobs = repeating(numbers);
                let (told, behind) = (&jobs[refused.place], &jobs[refused.place + 1..]);
                let spare = reference::spare_seconds(told);
                self.places.insert(refused.place);
                self.late_by_one += usize::from(spare == Some(-1));
                let bad = |job: &Repeating| reference::spare_seconds(job).map_or(true, |spare| spare < 0);
                self.several += usize::from(behind.iter().any(bad));
                let sum =
                    told.phase.checked_add(told.deadline).and_then(|sum| sum.checked_add(reference::REST));
                self.past_32_bits += usize::from(sum.is_none());
            }
            _ => {}
        }
    }

    /// Counts two frames that were planned, by what planning one answers.
    pub fn count_two(&mut self, refusal: u32, lost_weight: u32) {
        match (refusal, lost_weight) {
            (0, 0) => self.two_whole += 1,
            (0, _) => self.two_losing += 1,
            _ => self.two_infeasible += 1,
        }
    }

    /// Prints the counts; true if each was met, and so many were tried.
    pub fn report(&self) -> bool {
        let Frames { tried, made, empty, sixteen, full, heaviest, longest, .. } = *self;
        println!(
            "frames: {made} of {tried} made; {empty} of no jobs, {sixteen} of 16, {full} of 48 repeats, {heaviest} of \
             weight 300, {longest} of 86,400 seconds"
        );
        let Frames { met_by_two, met_by_three, on_time, late_by_one, several, past_32_bits, .. } = *self;
        println!(
            "ready at once in a frame: {met_by_two} with two jobs, {met_by_three} with three; {on_time} jobs end with \
             their period, {late_by_one} a second past it"
        );
        println!(
            "16: {} different places told, {several} with a later job too, {past_32_bits} by sums past 32 bits",
            self.places.len()
        );
        let refused = [
            self.too_many_numbers,
            self.one_repeat_more,
            self.too_many_repeats,
            self.one_weight_more,
            self.too_heavy,
        ];
        println!(
            "3 of frames: {} by numbers, {} by 49 repeats, {} by more; 9: {} by 301, {} by more",
            refused[0], refused[1], refused[2], refused[3], refused[4]
        );
        let rooms = [self.short_by_one, self.just_enough, self.more_room];
        println!("room for a frame: {} a byte short, {} just enough, {} more", rooms[0], rooms[1], rooms[2]);
        let two = [self.two_whole, self.two_losing, self.two_infeasible];
        println!(
            "two frames planned: {} lose nothing, {} lose twice what one does, {} infeasible as one is",
            two[0], two[1], two[2]
        );
        tried >= MANY_FRAMES
            && made >= MANY_MADE
            && two.iter().sum::<usize>() >= MANY_TWO
            && (0..16).all(|place| self.places.contains(&place))
            && [empty, sixteen, full, heaviest, longest, met_by_two, met_by_three, on_time, late_by_one]
                .iter()
                .chain(&[several, past_32_bits])
                .chain(&refused)
                .chain(&rooms)
                .chain(&two)
                .all(|&seen| seen > 0)
    }
}

/// The repeating jobs of numbers.
fn repeating(numbers: &[i32]) -> Vec<Repeating> {
    numbers.chunks_exact(6).map(reference::repeating_job).collect()
}

/// How many repeats there are in the frame of jobs in range, and their weight together.
fn sums(jobs: &[Repeating]) -> (i64, i64) {
    let longest = jobs.iter().map(|job| job.period).max().unwrap_or(1);
    let frame =
        (1..).map(|times| times * longest).find(|frame| jobs.iter().all(|job| frame % job.period == 0));
    let times = |job: &Repeating| i64::from(frame.unwrap_or(1) / job.period);
    (jobs.iter().map(times).sum(), jobs.iter().map(|job| times(job) * i64::from(job.weight)).sum())
}
