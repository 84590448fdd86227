//! What the kinds of records turned on.

use crate::reference::Refused;
use trials::Order;

/// How often the inputs came to each kind of records, and to an edge of it.
#[derive(Default)]
pub struct Kinds {
    /// Orders in range that were unpacked, by kind.
    orders: [usize; 2],
    /// Those of kind 1 in which the last job alone has a pack.
    last_alone: usize,
    /// Orders refused with 19: of no jobs, and of some.
    no_jobs: usize,
    no_packs: usize,
    /// Pairs of openings in range, by the kinds of the first and the second.
    pub openings: [[usize; 2]; 2],
}

impl Kinds {
    /// Counts an order by how its bytes are judged.
    pub fn count(&mut self, bytes: &[u8], judged: &Result<Order, Refused>) {
        match judged {
            Ok(order) => {
                self.orders[order.kind()] += 1;
                let first = order.jobs.iter().position(|job| job.pack != 0);
                let alone = order.jobs.len() > 1 && first == Some(order.jobs.len() - 1);
                self.last_alone += usize::from(alone);
            }
            Err(Refused { number: 19, .. }) if bytes.len() == 4 => self.no_jobs += 1,
            Err(Refused { number: 19, .. }) => self.no_packs += 1,
            Err(_) => {}
        }
    }

    /// Prints the counts; true if each was met.
    pub fn report(&self) -> bool {
        let Kinds { orders, last_alone, no_jobs, no_packs, openings } = self;
        println!(
            "kinds: {orders:?} orders, {last_alone} with a pack in the last job alone; refused with 19: {no_jobs} of no \
             jobs, {no_packs} of some"
        );
        println!("openings by the kinds of the first and the second: {openings:?}");
        let seen = [last_alone, no_jobs, no_packs];
        orders.iter().chain(openings.iter().flatten()).chain(seen).all(|&seen| seen > 0)
    }
}
