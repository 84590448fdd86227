//! Plain Rust versions of the library's calls, with weight rows: for each prefix of the order and each weight the
//! earliest time at which the bus is free.
//! They take the same buffers, judge as the library does, give the same answers and leave the buffers alike; they
//! allocate nothing.

mod extend;
mod lookup;
mod order;
mod packing;
mod plan;
mod plans;
mod question;
mod rows;
mod sheet;

pub use extend::extend;
pub use lookup::lookup;
pub use packing::{pack, unpack};
pub use plan::plan;
pub use plans::{best, legal, write_plan};
pub use question::question;
pub use sheet::sheet_feed;
