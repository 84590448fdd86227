//! Unpacking and packing orders.

use super::order::{bad_field, is_time, judged, number_of, pack_of, Job, Refused, Sums, HEAVIEST};
use leafanchor::calls::{PackAnswer, UnpackAnswer};
use leafanchor::{JOB_NUMBERS, ORDER_NUMBERS};
use trials::answer;

/// Unpacks an order: the same call as the library's.
pub fn unpack(bytes: &[u8], numbers: &mut [i32]) -> UnpackAnswer {
    let refused = |refusal, place, field| answer!(UnpackAnswer { refusal, place, field });
    let order = match judged(bytes) {
        Ok(order) => order,
        Err((refusal, place, field)) => return refused(refusal, place, field),
    };
    let jobs = order.jobs();
    if numbers.len() < JOB_NUMBERS * jobs.len() {
        return refused(10, 0, 0);
    }
    let records = bytes[4..].chunks_exact(8 + order.kind as usize);
    for ((record, job), seven) in records.zip(jobs).zip(numbers.chunks_exact_mut(JOB_NUMBERS)) {
        let pack = if order.kind == 0 { 0 } else { pack_of(record) };
        let Job { critical, weight, ready, length, deadline } = *job;
        let (number, pack) = (i32::from(number_of(record)), i32::from(pack));
        seven.copy_from_slice(&[number, pack, i32::from(critical), weight as i32, ready, length, deadline]);
    }
    answer!(UnpackAnswer { jobs: jobs.len(), t0: order.t0 })
}

/// Packs an order: the same call as the library's.
pub fn pack(t0: i32, numbers: &[i32], out: &mut [u8]) -> PackAnswer {
    match packed(t0, numbers, out) {
        Ok(bytes) => answer!(PackAnswer { bytes }),
        Err((refusal, place, field)) => answer!(PackAnswer { refusal, place, field }),
    }
}

/// How many bytes are written, or a refusal.
fn packed(t0: i32, numbers: &[i32], out: &mut [u8]) -> Result<usize, Refused> {
    let kind = judge_numbers(t0, numbers)?;
    let (count, record) = (numbers.len() / JOB_NUMBERS, 8 + kind);
    let bytes = 4 + record * count;
    if out.len() < bytes {
        return Err((10, 0, 0));
    }
    let header = (count as u32) << 26 | (t0 as u32 & 0x3_FFFF) << 8 | kind as u32;
    out[..4].copy_from_slice(&header.to_be_bytes());
    for (seven, record) in numbers.chunks_exact(JOB_NUMBERS).zip(out[4..bytes].chunks_exact_mut(record)) {
        let back = back_of(seven);
        let (number, pack) = (seven[0] as u64, seven[1] as u64);
        if kind == 0 {
            record.copy_from_slice(&(number << 58 | back).to_be_bytes());
        } else {
            record[0] = (number << 2 | pack >> 6) as u8;
            record[1..].copy_from_slice(&(pack << 58 | back).to_be_bytes());
        }
    }
    Ok(bytes)
}

/// The last 58 bits of a record, the same in either kind.
fn back_of(seven: &[i32]) -> u64 {
    let bits = |field: usize, width: u32| seven[field] as u64 & ((1 << width) - 1);
    bits(2, 1) << 57 | bits(3, 7) << 50 | bits(4, 18) << 32 | bits(5, 14) << 18 | bits(6, 18)
}

/// The kind of the records of seven numbers a job, or refusal 3 to 7 or 9.
fn judge_numbers(t0: i32, numbers: &[i32]) -> Result<usize, Refused> {
    if numbers.len() > ORDER_NUMBERS {
        return Err((3, 0, 0));
    }
    if numbers.len() % JOB_NUMBERS != 0 {
        return Err((4, 0, 0));
    }
    if !is_time(t0) {
        return Err((5, 0, 0));
    }
    let (mut sums, mut packs) = (Sums::default(), 0);
    for (place, seven) in numbers.chunks_exact(JOB_NUMBERS).enumerate() {
        let field = bad_number(seven);
        if field != 0 {
            return Err((6, place, field));
        }
        sums.add(place, seven[0] as u8, seven[3] as usize);
        packs |= seven[1];
    }
    if sums.weight()? > HEAVIEST {
        return Err((9, 0, 0));
    }
    Ok(usize::from(packs != 0))
}

/// The first of a job's seven numbers that is out of range, counted from 1; 0 if none is.
fn bad_number(seven: &[i32]) -> u32 {
    if !(0..=63).contains(&seven[0]) {
        1
    } else if !(0..=255).contains(&seven[1]) {
        2
    } else if !(0..=1).contains(&seven[2]) {
        3
    } else {
        // A weight below 0 becomes one far too great.
        bad_field(&Job {
            critical: seven[2] == 1,
            weight: seven[3] as usize,
            ready: seven[4],
            length: seven[5],
            deadline: seven[6],
        })
    }
}
