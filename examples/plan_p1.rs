//! Plans the packed order on standard input (examples/p1.order is one) and prints the plan: a line of
//! figures, then each job's number and its start, or `-` where it is left out.

use leafanchor::{Order, WorkArea};
use std::error::Error;
use std::io::Read;

fn main() -> Result<(), Box<dyn Error>> {
    let mut bytes = Vec::new();
    std::io::stdin().read_to_end(&mut bytes)?;
    let order = Order::try_from(&bytes)?;
    let plan = order.plan(&mut WorkArea::boxed())?;

    println!(
        "0 0 {} {} {} {} {}",
        plan.kept, plan.kept_weight, plan.lost_weight, plan.finish, plan.points
    );
    for (job, start) in order.jobs().zip(plan.starts()) {
        match start {
            Some(start) => println!("{} {start}", job.number),
            None => println!("{} -", job.number),
        }
    }
    Ok(())
}
