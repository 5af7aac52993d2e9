//! Lateness: when a slot was seen to answer beside its bench time, and totals over lists of such differences.

mod faulty;
pub mod reached;
#[cfg(test)]
mod tests;
mod totals;

pub use totals::{totals, Totals, MOST_DIFFERENCES, TOO_MANY};

use crate::bench::Bench;
use crate::setup::MOST_SLOTS;
use crate::times::Nanos;

/// A difference lies within so many nanoseconds on either side of 0.
pub const FARTHEST: i64 = 1_000_000_000_000_000;
/// A difference outside of that.
pub const OUTSIDE: u8 = 34;

/// For each slot when, on the bench's clock, the card was first seen to answer there, if it was.
pub type Seen = [Option<Nanos>; MOST_SLOTS];

/// What a slot's lateness is.
#[derive(Clone, Copy, PartialEq, Eq, Debug)]
pub enum Difference {
    /// Without both times.
    None,
    /// The seen time minus the bench time, in nanoseconds.
    Of(i64),
    /// 34.
    Outside,
}

pub type Differences = [Difference; MOST_SLOTS];

/// The seen time minus the bench time.
pub fn difference(seen: Nanos, made: Nanos) -> Difference {
    let exact = i128::from(seen.0) - i128::from(made.0);
    match i64::try_from(exact) {
        Ok(difference) if !is_outside(difference) => Difference::Of(difference),
        _ => Difference::Outside,
    }
}

/// Whether a difference lies outside ±10^15.
pub fn is_outside(difference: i64) -> bool {
    !(-FARTHEST..=FARTHEST).contains(&difference)
}

impl Bench<'_> {
    /// The difference of each slot, by the moments that the replay keeps; slots past the set-up's count have none.
    pub fn lateness(&mut self, seen: &Seen) -> Differences {
        let mut differences = [Difference::None; MOST_SLOTS];
        for (slot, of_slot) in differences.iter_mut().enumerate() {
            if slot < self.slots_reported() {
                *of_slot = self.lateness_of(slot, seen[slot]);
            }
        }
        self.leave_report(&mut differences);
        differences
    }

    fn lateness_of(&self, slot: usize, seen: Option<Nanos>) -> Difference {
        match self.both_times(slot, seen) {
            Some((seen, made)) => faulty::difference(seen, made, self.fault),
            None => Difference::None,
        }
    }
}
