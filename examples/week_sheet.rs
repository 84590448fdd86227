//! Counts a week's mornings in one sheet, as week_sheet.c does: a stream in two pieces that are parted in the middle of
//! an order, and another stand's sheet joined behind. Prints what has come with the first piece, and the sheet.

use leafanchor::{Job, OrderBuf, Refusal, Sheet, SheetStream, WorkArea};

/// A morning: a heat-up that must run, then a balancing and a top-up. On the second the heat-up is too long.
fn morning([heat_up, balancing]: [i32; 2]) -> Result<OrderBuf, Refusal> {
    let jobs = [
        Job::critical(7).ready(-600).length(heat_up).deadline(0),
        Job::optional(3).weight(20).ready(-200).length(balancing).deadline(250),
        Job::optional(12).weight(15).ready(0).length(200).deadline(300),
    ];
    OrderBuf::pack(-600, &jobs)
}

fn main() -> Result<(), Refusal> {
    let (mut bytes, mut work) = (Vec::new(), WorkArea::boxed());
    for lengths in [[495, 300], [700, 300], [300, 100]] {
        let order = morning(lengths)?.into_bytes();
        bytes.extend((order.len() as u16).to_be_bytes()); // each behind its length
        bytes.extend(order);
    }
    let (first, second) = bytes.split_at(bytes.len() / 2);
    let mut stream = SheetStream::new();
    stream.feed(first, &mut work)?;
    let end = if stream.is_cut() { "cut" } else { "whole" };
    println!("after the first piece: {} order, {end}", stream.sheet().orders());
    stream.feed(second, &mut work)?;

    // The other stand: the first morning with its last byte lost, and whole.
    let order = morning([495, 300])?.into_bytes();
    let other: Sheet = [&order[..order.len() - 1], &order].iter().collect();
    let mut week = stream.sheet();
    week.join(&other)?;
    println!("{week}");
    Ok(())
}
