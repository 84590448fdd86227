//! Inputs for the calls of sheets: figures that a sheet could have and figures that none has, what is held of a stream,
//! and streams.

use crate::inputs;
use crate::reference::{Figures, Held, FIGURES, FRONT, MOST_ORDERS};
use trials::Random;

/// Numbers that no figure is, or hardly any.
const STRANGE: [u32; 10] = [0, 1, 255, 256, 10_000, 10_001, 65_535, 65_536, 1 << 31, u32::MAX];

/// A number up to `most`, often that or 0.
fn up_to(random: &mut Random, most: u32) -> u32 {
    match random.below(6) {
        0 => most,
        1 => 0,
        _ => random.within(0, most as i32) as u32,
    }
}

/// How many orders a sheet has.
fn orders(random: &mut Random) -> u32 {
    match random.below(6) {
        0 => random.one_of(&[0, 1, 2]),
        1 => random.one_of(&[MOST_ORDERS - 2, MOST_ORDERS - 1, MOST_ORDERS]),
        2 => random.within(0, MOST_ORDERS as i32) as u32,
        _ => random.within(0, 5_000) as u32,
    }
}

/// Figures that a sheet may have, often at the ends of what it may.
pub fn figures(random: &mut Random) -> Figures {
    let orders = orders(random);
    figures_of(random, orders)
}

/// The same of so many orders.
pub fn figures_of(random: &mut Random, orders: u32) -> Figures {
    let mut figures = [0; FIGURES];
    figures[0] = orders;
    figures[20] = up_to(random, figures[0]);
    let mut left = figures[0] - figures[20];
    while left > 0 {
        let some = if random.once_in(2) { left } else { 1 + up_to(random, left - 1) };
        figures[random.one_of(&[1, 2, 3, 4, 5, 6, 7, 9, 11, 11, 11, 19, 8, 10, 18])] += some;
        left -= some;
    }
    figures[21] = up_to(random, 300 * figures[20]);
    figures[22] = up_to(random, figures[21]);
    figures[23] = up_to(random, 48 * figures[20]);
    if figures[20] > 0 {
        figures[24] = 1 + up_to(random, 14_448);
        figures[25] = up_to(random, figures[0] - 1);
    }
    figures
}

/// Two sheets, half of the time of 10,000 orders together or hardly more or fewer, at times with the same point total.
pub fn pair(random: &mut Random) -> (Figures, Figures) {
    let first = maybe_damaged(random);
    let together = MOST_ORDERS + 2 - random.below(4) as u32;
    let mut second = match random.below(2) {
        0 => figures_of(random, together.saturating_sub(first[0]).min(MOST_ORDERS)),
        _ => maybe_damaged(random),
    };
    if second[20] > 0 && random.once_in(3) {
        second[24] = first[24].max(1);
    }
    (first, second)
}

/// Figures, one in three damaged.
pub fn maybe_damaged(random: &mut Random) -> Figures {
    let mut figures = figures(random);
    if random.once_in(3) {
        damage(random, &mut figures);
    }
    figures
}

/// Figures with one damage, which often is one above what may be.
fn damage(random: &mut Random, figures: &mut Figures) {
    let at = random.below(FIGURES);
    let (one, other) = (1 + random.below(20), 1 + random.below(20));
    match random.below(12) {
        0 => figures[21] = 300 * figures[20] + 1,
        1 => figures[22] = figures[21].saturating_add(1),
        2 => figures[23] = 48 * figures[20] + 1,
        3 => figures[24] = random.one_of(&[14_450, 0, 1]),
        4 => figures[25] = random.one_of(&[figures[0], figures[0] + 1, 1]),
        5 => {
            // One order more than there may be, all of them judged.
            figures[one] += MOST_ORDERS + 1 - figures[0];
            figures[0] = MOST_ORDERS + 1;
        }
        6 => {
            // Judged orders whose sum wraps round to the number of orders in 32 bits.
            figures[one] = figures[one].wrapping_add(1 << 31);
            figures[other] = figures[other].wrapping_add(1 << 31);
        }
        7 | 8 => figures[at] = figures[at].wrapping_add(1),
        9 | 10 => figures[at] = figures[at].wrapping_sub(1),
        _ => figures[at] = random.one_of(&STRANGE),
    }
}

/// What has come of an entry: how many bytes of its length, what they say, and how many of its own.
fn part(random: &mut Random) -> [u32; 3] {
    let size = random.one_of(&[1, 4, 12, 44, 388, 436, 437, 438, 2_000, 65_535]);
    let mut part = match random.below(4) {
        0 => [0; 3],
        1 => [1, random.one_of(&[0, 0, 0, 1, 255]), 0],
        _ => [2, size, up_to(random, size - 1)],
    };
    if random.once_in(6) {
        match random.below(4) {
            0 => part[2] = part[1],
            1 => part[1] = random.one_of(&[256, 65_536, u32::MAX]),
            2 => part[random.below(3)] = random.one_of(&STRANGE),
            _ => {
                let at = random.below(3);
                part[at] = part[at].wrapping_add(1);
            }
        }
    }
    part
}

/// A front with any bytes, or with those of an order.
pub fn front(random: &mut Random) -> Vec<u8> {
    let mut front: Vec<u8> = (0..FRONT).map(|_| random.bits() as u8).collect();
    if random.once_in(2) {
        inputs::bytes(random).iter().zip(&mut front).for_each(|(byte, kept)| *kept = *byte);
    }
    front
}

/// A stream of which nothing has come, and any bytes in the front.
pub fn begun(random: &mut Random) -> Held {
    Held { feed: [0; FIGURES + 3], front: front(random) }
}

/// What is held of a stream, or what could not be.
pub fn held(random: &mut Random) -> Held {
    let mut held = begun(random);
    if !random.once_in(4) {
        held.feed[..FIGURES].copy_from_slice(&maybe_damaged(random));
        held.feed[FIGURES..].copy_from_slice(&part(random));
    }
    held
}

/// The bytes of an order, damaged or not, none, or more than any order has.
pub fn order(random: &mut Random) -> Vec<u8> {
    match random.below(24) {
        0 | 1 => vec![],
        2 => vec![random.bits() as u8],
        3 => {
            // A header that is in order before too many bytes, or not.
            let length = random.one_of(&[436, 437, 438, 2_000, 2_000, 65_535]);
            let mut bytes: Vec<u8> = (0..length).map(|_| random.bits() as u8).collect();
            bytes[3] = random.one_of(&[0, 1, 2, 255]);
            bytes
        }
        _ => inputs::bytes(random),
    }
}

/// The bytes of a stream of so many entries.
pub fn stream(random: &mut Random, entries: usize) -> Vec<u8> {
    (0..entries).flat_map(|_| entry(&order(random))).collect()
}

/// An order behind its length.
pub fn entry(order: &[u8]) -> Vec<u8> {
    [&(order.len() as u16).to_be_bytes()[..], order].concat()
}

/// A piece of a stream: a few entries, often cut at the front or at the end, or any bytes.
pub fn piece(random: &mut Random) -> Vec<u8> {
    if random.once_in(12) {
        return (0..random.below(60)).map(|_| random.one_of(&[0, 0, 0, 1, 4, 255])).collect();
    }
    let entries = random.below(5);
    let mut bytes = stream(random, entries);
    if random.once_in(2) {
        bytes.drain(..random.below(bytes.len() + 1));
    }
    if random.once_in(2) {
        bytes.truncate(random.below(bytes.len() + 1));
    }
    bytes
}
