//! One comparison for each call: an input is made, the library is called over the C boundary, and its answer
//! and all lent memory are held against the reference. The wrapper's types are then held against it on the
//! same input.

mod checking;
mod frames;
mod halves;
mod long_lists;
mod openings;
mod packing;
mod planning;
mod profiles;
mod sheets;
mod types;

use crate::lent::Work;
use crate::reference::{self, Point, Refused};
use crate::tally::Tally;
use leafanchor::calls::{self, HeatAnswer};
use leafanchor::{WorkArea, WORK_AREA};
use trials::{answer, Random};

/// What the comparisons share: the generator, the counts and the work areas.
pub struct Trial {
    pub random: Random,
    pub tally: Tally,
    work: Work,
    plain_work: Vec<i32>,
    typed_work: Box<WorkArea>,
}

impl Trial {
    /// A trial from a seed.
    pub fn new(seed: u64) -> Self {
        let mut random = Random::new(seed);
        let work = Work::new(&mut random);
        let plain_work = vec![0; WORK_AREA];
        Trial { random, tally: Tally::default(), work, plain_work, typed_work: WorkArea::boxed() }
    }

    /// Heat-up lengths of every byte.
    pub fn heat_up(&mut self) {
        for byte in 0..=255 {
            let given = calls::heat_up(byte);
            let wanted = match reference::heat_up(byte) {
                Ok(seconds) => answer!(HeatAnswer { seconds }),
                Err(refused) => answer!(HeatAnswer { refusal: refused.number }),
            };
            self.tally.compare("heat_up", (given.refusal, given, true), wanted, &byte);
        }
    }

    /// A number that memory may hold before a call.
    fn junk(&mut self) -> i32 {
        self.random.bits() as i32
    }
}

/// Alternating numbers as points.
fn points_of(numbers: &[i32]) -> Vec<Point> {
    numbers.chunks_exact(2).map(|pair| (pair[0], pair[1])).collect()
}

/// Points as alternating numbers.
fn numbers_of(points: &[Point]) -> Vec<i32> {
    points.iter().flat_map(|&(time, weight)| [time, weight]).collect()
}

/// The jobs of an order as its length and its kind tell them. A refused one is lent as much room, so that a write would show.
fn jobs_by_length(bytes: &[u8]) -> usize {
    bytes.len() / if bytes.get(3) == Some(&1) { 9 } else { 8 }
}

/// Refusal `number` where a condition does not hold.
fn unless(holds: bool, number: u32) -> Result<(), Refused> {
    if holds {
        Ok(())
    } else {
        Err(Refused::new(number))
    }
}
