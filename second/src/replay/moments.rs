//! Slots that become Ready, and the moments that a replay keeps of them.

use crate::bench::Bench;
use crate::records::ADVANCE;
use crate::setup::MOST_SLOTS;
use crate::state::Cause;
use crate::times::Nanos;

/// For each slot the moment at which the replay last made it Ready, if it did.
pub type Moments = [Option<Nanos>; MOST_SLOTS];

/// The record that is run: the kind, the clock before it, and how many the call ran before it.
#[derive(Clone, Copy, PartialEq, Eq, Debug)]
pub struct Running {
    pub kind: u8,
    pub clock: Nanos,
    pub number: usize,
}

impl Running {
    pub const NONE: Running = Running { kind: 0, clock: Nanos(0), number: 0 };
}

/// A slot that became Ready: why it was Pending, its ready time, the record that was run, and the clock that it left.
#[derive(Clone, Copy, PartialEq, Eq, Debug)]
pub struct Made {
    pub slot: usize,
    pub cause: Cause,
    pub moment: Nanos,
    pub by: Running,
    pub left: Nanos,
}

impl Made {
    /// By a wait of 0, in the record that began it.
    pub fn at_once(&self) -> bool {
        self.by.kind != ADVANCE
    }
}

impl Bench<'_> {
    /// A call begins: nothing is made Ready in it so far.
    pub fn begin_call(&mut self, replays: bool) {
        self.made.clear();
        self.running.number = 0;
        self.replays = replays;
    }

    /// A call ends; gives what became Ready in it.
    pub fn end_call(&mut self) -> Vec<Made> {
        self.replays = false;
        std::mem::take(&mut self.made)
    }

    /// A slot became Ready at its ready time. A replay call keeps that moment, in place of an earlier one.
    pub fn note_ready(&mut self, slot: usize, cause: Cause, ready: Nanos) {
        let made = Made { slot, cause, moment: ready, by: self.running, left: ready };
        if let Some(moment) = self.moment_to_keep(&made) {
            self.replay.moments[slot] = Some(moment);
        }
        self.made.push(made);
    }

    /// A record was run, before which so many were made Ready.
    pub fn leave_record(&mut self, before: usize) {
        for made in &mut self.made[before..] {
            made.left = self.state.port.clock;
        }
        self.leave_record_moments(before);
        self.running.number += 1;
    }
}
