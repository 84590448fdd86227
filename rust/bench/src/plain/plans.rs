//! Packed plans: writing one, and whether one is legal and best.

use super::order::{judged, Order, Refused};
use super::plan::{best_choice, bit, last_row, start_of};
use super::rows::{heaviest, NONE};
use leafanchor::calls::{PackAnswer, VerdictAnswer};
use leafanchor::{PLAN_BYTES, REST, WORK_AREA};
use trials::answer;

/// Bits of the mask, and of a start.
const MASK: usize = 48;
const START: usize = 18;

/// Writes an order's plan: the same call as the library's.
pub fn write_plan(bytes: &[u8], out: &mut [u8], work: &mut [i32]) -> PackAnswer {
    match planned(bytes, out, work) {
        Ok(bytes) => answer!(PackAnswer { bytes }),
        Err((refusal, place, field)) => answer!(PackAnswer { refusal, place, field }),
    }
}

/// How many bytes are written, or a refusal.
fn planned(bytes: &[u8], out: &mut [u8], work: &mut [i32]) -> Result<usize, Refused> {
    let order = judged(bytes)?;
    if out.len() < PLAN_BYTES || work.len() < WORK_AREA {
        return Err((10, 0, 0));
    }
    let work = &mut work[..WORK_AREA];
    let choice = best_choice(&order, work);
    work.fill(0);
    choice.map(|choice| put_plan(&order, choice.mask, out)).ok_or((11, 0, 0))
}

/// Writes the mask and the starts of its jobs; gives the bytes.
fn put_plan(order: &Order, mask: u64, out: &mut [u8]) -> usize {
    let mut bus_free = order.t0;
    let (mut at, mut waiting, mut bits) = (MASK / 8, 0, 0); // the bits that do not make a byte yet wait
    out[..at].copy_from_slice(&mask.to_be_bytes()[..at]);
    for place in places(mask) {
        let start = start_of(&order.jobs()[place], &mut bus_free) as u32 & 0x3_FFFF;
        waiting = waiting << START | start;
        bits += START;
        while bits >= 8 {
            bits -= 8;
            out[at] = (waiting >> bits) as u8;
            at += 1;
        }
    }
    if bits > 0 {
        out[at] = (waiting << (8 - bits)) as u8;
        at += 1;
    }
    at
}

/// The places in a mask, rising.
fn places(mut mask: u64) -> impl Iterator<Item = usize> {
    std::iter::from_fn(move || {
        if mask == 0 {
            return None;
        }
        let place = mask.leading_zeros() as usize;
        mask ^= bit(place);
        Some(place)
    })
}

/// Whether a plan is legal: the same call as the library's.
pub fn legal(bytes: &[u8], plan: &[u8]) -> VerdictAnswer {
    verdict(judged(bytes).and_then(|order| Ok(legal_weight(&order, plan, mask_of(&order, plan)?).is_some())))
}

/// Whether a plan is best: the same call as the library's.
pub fn best(bytes: &[u8], plan: &[u8], work: &mut [i32]) -> VerdictAnswer {
    verdict(is_best(bytes, plan, work))
}

/// The answer of a yes or no, or of a refusal.
fn verdict(yes: Result<bool, Refused>) -> VerdictAnswer {
    match yes {
        Ok(yes) => answer!(VerdictAnswer { yes: u32::from(yes) }),
        Err((refusal, place, field)) => answer!(VerdictAnswer { refusal, place, field }),
    }
}

/// Whether a plan is best, or a refusal.
fn is_best(bytes: &[u8], plan: &[u8], work: &mut [i32]) -> Result<bool, Refused> {
    let order = judged(bytes)?;
    let mask = mask_of(&order, plan)?;
    if work.len() < WORK_AREA {
        return Err((10, 0, 0));
    }
    let work = &mut work[..WORK_AREA];
    let kept = legal_weight(&order, plan, mask);
    let best = kept.is_some() && heaviest(last_row(&order, work), NONE - 1).map(|(weight, _)| weight) == kept;
    work.fill(0);
    Ok(best)
}

/// The mask of a packed plan for an order, or refusal 14 or 15.
fn mask_of(order: &Order, plan: &[u8]) -> Result<u64, Refused> {
    let mut front = [0; 8];
    front[..MASK / 8].copy_from_slice(plan.get(..MASK / 8).ok_or((14, 0, 0))?);
    let mask = u64::from_be_bytes(front);
    let bits = MASK + START * mask.count_ones() as usize;
    if plan.len() != (bits + 7) / 8 {
        return Err((14, 0, 0));
    }
    let end = plan[plan.len() - 1] & ((1 << (8 * plan.len() - bits)) - 1);
    if mask << order.jobs().len() != 0 || end != 0 {
        return Err((15, 0, 0));
    }
    Ok(mask)
}

/// The weight that a plan with this mask keeps, if it is legal.
fn legal_weight(order: &Order, plan: &[u8], mask: u64) -> Option<usize> {
    let jobs = order.jobs();
    let (mut from, mut weight, mut at, mut critical) = (order.t0, 0, MASK, 0);
    for place in places(mask) {
        let job = &jobs[place];
        let start = start_at(plan, at);
        let finish = start + job.length;
        if start < from.max(job.ready) || finish > job.deadline {
            return None;
        }
        from = finish + REST;
        weight += job.weight;
        critical += usize::from(job.critical);
        at += START;
    }
    Some(weight).filter(|_| critical == jobs.iter().filter(|job| job.critical).count())
}

/// The start at a bit of a plan: its 18 bits lie in three bytes.
fn start_at(plan: &[u8], at: usize) -> i32 {
    let three = plan[at / 8..at / 8 + 3].iter().fold(0, |bits, &byte| bits << 8 | i32::from(byte));
    three << (8 + at % 8) >> (32 - START)
}
