//! The model once more, written for speed: the same rules over the same state, changed in place. It is what the
//! benchmark times, and `held` holds it to the plain model.

mod feed;
pub mod held;
mod records;
mod refusal;
mod tables;
pub mod whole;

pub use feed::feed;

use crate::setup::Setup;
use crate::state::{Port, State, Status};

/// Sets up anew; gives 0, or the number of the refusal, with nothing changed.
pub fn set_up(setup: &Setup, state: &mut State) -> u8 {
    if let Err(number) = refusal::of_set_up(setup, state) {
        return number;
    }
    state.port = Port::zero();
    state.statuses.fill(Status::Down);
    state.live.copy_from_slice(&setup.defaults);
    state.cells.fill(0);
    0
}
