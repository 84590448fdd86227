//! Packing bit by bit, highest first: orders straight from the table of fields, and plans.

use crate::Order;

/// Widths of a job's fields in the order in which they are packed, by the kind of the record.
const WIDTHS: [[u32; 7]; 2] = [[6, 0, 1, 7, 18, 14, 18], [6, 8, 1, 7, 18, 14, 18]];

/// The packed bytes of an order; a field too great for its width loses its high bits.
pub fn packed(order: &Order) -> Vec<u8> {
    packed_as(order, order.kind())
}

/// The same with records of a given kind, whatever packs there are.
pub fn packed_as(order: &Order, kind: usize) -> Vec<u8> {
    let mut bits = Vec::with_capacity(32 + 72 * order.jobs.len());
    put(&mut bits, order.jobs.len() as i32, 6);
    put(&mut bits, order.t0, 18);
    put(&mut bits, kind as i32, 8);
    for job in &order.jobs {
        for (field, width) in job.numbers().into_iter().zip(WIDTHS[kind]) {
            put(&mut bits, field, width);
        }
    }
    bytes_of(&bits)
}

/// The packed bytes of a plan that keeps the jobs at these places, rising, each from its start on; a start too great for
/// its width loses its high bits.
pub fn packed_plan(kept: &[(usize, i32)]) -> Vec<u8> {
    let mut bits: Vec<bool> = (0..48).map(|place| kept.iter().any(|&(at, _)| at == place)).collect();
    for &(_, start) in kept {
        put(&mut bits, start, 18);
    }
    bytes_of(&bits)
}

/// Bits as bytes, with zero bits to the next whole one.
fn bytes_of(bits: &[bool]) -> Vec<u8> {
    let byte = |bits: &[bool]| (0..8).fold(0, |sum, at| 2 * sum + u8::from(bits.get(at) == Some(&true)));
    bits.chunks(8).map(byte).collect()
}

/// Appends the low `width` bits of a number in two's complement.
fn put(bits: &mut Vec<bool>, number: i32, width: u32) {
    for bit in (0..width).rev() {
        bits.push(number >> bit & 1 == 1);
    }
}
