//! The rules (docs/RULES.md) written out plainly, with no thought for speed: what every call must answer.

mod checking;
mod frames;
mod halves;
mod openings;
mod packing;
mod plans;
mod profiles;
mod sheets;

pub use checking::{is_legal, keeps_critical, sent, spare, weight_of, Condition, Kept};
pub use frames::{frame, repeating_job, spare_seconds, two_frames};
pub use halves::{judged_halves, offending, seconds_lost};
pub use openings::{tied, winner};
pub use packing::{bad_fields, header, job_of, judged, judged_numbers, reader_job};
pub use plans::{best_by_all_choices, best_forward, point_total, Best, Keep, MOST_JOBS_OF_ALL_CHOICES};
pub use profiles::{better_of, extended, is_valid, lookup, point_at, Point};
pub use sheets::{
    entries, faults, joined, lines, part_faults, said, sheet_of, text, Figures, Held, Said, FEED, FIGURES,
    FRONT, MOST_ORDERS,
};

/// The seconds that the contactor rests after every job: the bus is free that long after its finish.
pub const REST: i32 = 15;

/// A refusal number, its place and its field.
#[derive(Clone, Copy, Debug, PartialEq, Eq)]
pub struct Refused {
    pub number: u32,
    pub place: usize,
    pub field: u32,
}

impl Refused {
    /// A refusal that is not about one job.
    pub fn new(number: u32) -> Self {
        Refused::at(number, 0)
    }

    /// A refusal that is about one job, and no field of it.
    pub fn at(number: u32, place: usize) -> Self {
        Refused { number, place, field: 0 }
    }

    /// The place, where the refusal is about one job.
    pub fn place_of_job(&self) -> Option<usize> {
        match self.number {
            6 | 7 | 13 | 16 => Some(self.place),
            _ => None,
        }
    }
}

/// The seconds of heating for each degree from -30 to 9, as a list: the library has two slopes.
const HEATING: [u32; 40] = [
    3300, 3180, 3060, 2940, 2820, 2700, 2580, 2460, 2340, 2220, // from -30 degrees
    2100, 1980, 1860, 1740, 1620, 1500, 1380, 1260, 1140, 1020, // from -20
    900, 855, 810, 765, 720, 675, 630, 585, 540, 495, // from -10
    450, 405, 360, 315, 270, 225, 180, 135, 90, 45, // from 0
];

/// The seconds of heating for a byte.
pub fn heat_up(byte: u8) -> Result<u32, Refused> {
    match i32::from(byte as i8) {
        degrees @ -30..=9 => Ok(HEATING[(degrees + 30) as usize]),
        10.. => Ok(0),
        _ => Err(Refused::new(12)),
    }
}
