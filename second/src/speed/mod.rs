//! The benchmark: traces, and a capture, on which the proved library and plain Rust are compared, timed and counted.

mod captures;
mod cards;
mod clock;
mod comparing;
mod counting;
mod library;
mod once;
mod rows;
mod tally;
mod timing;
mod traces;

pub use comparing::compare;
pub use counting::{instructions, memory};
pub use once::{count, write_trace};
pub use timing::{lengths, time_rows};
