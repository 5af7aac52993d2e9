//! The case stream, version 2: cases, operations and state images as bytes.

mod bad;
mod noise;
mod read;
mod write;

pub use bad::{Bad, WAYS};
pub use read::{Source, Trouble};
pub use write::{
    put_case, put_differences, put_image, put_image_with, put_replay, put_taken, put_totals,
};

use crate::landed::LANDED;
use crate::lateness::Seen;
use crate::replay::Replay;
use crate::setup::{Setup, MOST_SLOTS};
use crate::state::State;

pub const VERSION: u8 = 2;
pub const MOST_STATUSES: usize = 32;
pub const MOST_WORDS: usize = 2112;
pub const MOST_STREAM_CELLS: usize = 4200;
pub const MOST_BYTES: usize = 4096;
pub const MOST_MESSAGE: usize = 40;
pub const MOST_LISTED: usize = 9_100;

/// Bytes of a case before its entries, and of one entry.
pub const FRONT_BYTES: usize = 12;
pub const ENTRY_BYTES: usize = 13;

/// Bytes of the port and of a status in a state image.
pub const PORT_BYTES: usize = 46;
pub const STATUS_BYTES: usize = 27;
/// Bytes of a replay image before its moments, and of one moment.
pub const REPLAY_FRONT_BYTES: usize = 12;
pub const MOMENT_BYTES: usize = 9;
/// Bytes of a replay image.
pub const REPLAY_BYTES: usize = match LANDED.lateness {
    true => REPLAY_FRONT_BYTES + MOMENT_BYTES * MOST_SLOTS,
    false => REPLAY_FRONT_BYTES,
};
/// Bytes of a report by slot, both as it is asked for and as it is given.
pub const REPORT_BYTES: usize = 9 * MOST_SLOTS;
/// Bytes of totals.
pub const TOTALS_BYTES: usize = 1 + 3 * 4 + 3 * 8;

#[derive(Clone, PartialEq, Eq, Debug)]
pub enum Operation {
    SetUp,
    Feed {
        room: u16,
        input: Vec<u8>,
    },
    /// Bytes of the image that are ignored in reading are 0 with noise 0, else made from it.
    Lend {
        state: Box<State>,
        noise: u64,
    },
    WriteMessage {
        kind: u8,
        id: u16,
        reason: u8,
        room: u8,
    },
    ReadMessage(Vec<u8>),
    Sheet(Vec<u8>),
    Replay {
        room: u16,
        input: Vec<u8>,
    },
    /// Noise as in the lending of a state.
    LendReplay {
        replay: Box<Replay>,
        noise: u64,
    },
    /// The difference of each slot. Noise stands where a slot was not seen.
    Lateness {
        seen: Box<Seen>,
        noise: u64,
    },
    Totals(Vec<i64>),
}

#[derive(Clone, PartialEq, Eq, Debug)]
pub struct Case {
    pub setup: Setup,
    pub operations: Vec<Operation>,
}

/// How long a sheet's output is.
pub const TAKEN_BYTES: usize = 3 + 8 * MOST_SLOTS;

/// How long a state image of this set-up is.
pub fn image_length(setup: &Setup) -> usize {
    PORT_BYTES + STATUS_BYTES * setup.statuses + 4 * (setup.live_words + setup.cells)
}
