//! Timing both versions of a call in turns.

use crate::room::{Call, Room};
use std::time::{Duration, Instant};

/// Rounds that are timed, after one to warm up.
const ROUNDS: usize = 21;

/// A version goes through all inputs again in a round until this time is over.
const ROUND: Duration = Duration::from_millis(3);

/// Nanoseconds a call of both versions, the medians over all rounds; and how many times as long as the plain version
/// the library's took in a round, the median, the least and the greatest.
#[derive(Clone, Copy)]
pub struct Measure {
    pub ours: f64,
    pub plain: f64,
    pub ratio: f64,
    pub least: f64,
    pub greatest: f64,
}

/// Times the library's version and the plain one.
pub fn measure<I, A>(calls: [Call<I, A>; 2], inputs: &[I]) -> Measure {
    let mut room = Room::new(0);
    measure_rounds(|which| time(calls[which], inputs, &mut room))
}

/// Times two passes, each of which takes as long as it says over so many inputs.
pub fn measure_passes(passes: [&dyn Fn() -> Duration; 2], inputs: usize) -> Measure {
    measure_rounds(|which| passes[which]().as_nanos() as f64 / inputs as f64)
}

/// The measure of two versions by the nanoseconds of each in a round; each goes first in every other round.
fn measure_rounds(mut time: impl FnMut(usize) -> f64) -> Measure {
    let rounds: Vec<[f64; 2]> = (0..=ROUNDS)
        .map(|round| {
            let mut times = [0.0; 2];
            for which in [round % 2, 1 - round % 2] {
                times[which] = time(which);
            }
            times
        })
        .skip(1)
        .collect();
    let ours = sorted(&rounds, |[ours, _]| ours);
    let plain = sorted(&rounds, |[_, plain]| plain);
    let ratios = sorted(&rounds, |[ours, plain]| ours / plain);
    let middle = ROUNDS / 2;
    Measure {
        ours: ours[middle],
        plain: plain[middle],
        ratio: ratios[middle],
        least: ratios[0],
        greatest: ratios[ROUNDS - 1],
    }
}

/// The nanoseconds of a call in a round.
fn time<I, A>(call: Call<I, A>, inputs: &[I], room: &mut Room) -> f64 {
    let (mut took, mut calls) = (Duration::ZERO, 0);
    while took < ROUND {
        took += pass(call, inputs, room);
        calls += inputs.len();
    }
    took.as_nanos() as f64 / calls as f64
}

/// The time of one version on all inputs. It is called through a pointer, so that nothing of it is left out.
pub fn pass<I, A>(call: Call<I, A>, inputs: &[I], room: &mut Room) -> Duration {
    let began = Instant::now();
    for input in inputs {
        call(input, room);
    }
    began.elapsed()
}

/// A figure of all rounds, rising.
fn sorted(rounds: &[[f64; 2]], figure: fn([f64; 2]) -> f64) -> Vec<f64> {
    let mut figures: Vec<f64> = rounds.iter().copied().map(figure).collect();
    figures.sort_by(f64::total_cmp);
    figures
}
