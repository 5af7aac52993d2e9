//! The bench: a set-up, the state lent with it, and the fault planted in it (none in the sound one).

use std::borrow::Cow;

use crate::faults::Fault;
use crate::registers::{Table, TABLE};
use crate::replay::{Made, Replay, Running};
use crate::setup::Setup;
use crate::sheets::{Sheet, Taken};
use crate::state::{Port, State, Status};
use crate::times::LAST_MOMENT;

#[derive(Clone, Debug)]
pub struct Bench<'a> {
    /// The one lent, until a sheet changes its codes.
    pub setup: Cow<'a, Setup>,
    pub state: State,
    /// What a replay keeps; feed and set-up have nothing to do with it.
    pub replay: Replay,
    pub table: &'a Table,
    pub fault: Fault,
    /// Bits of slots that earlier sheets named; a planted fault alone fills it.
    pub named_earlier: u32,
    /// Whether a replay call is under way, which keeps moments.
    pub replays: bool,
    /// What became Ready in the call under way, and the record that is run.
    pub made: Vec<Made>,
    pub running: Running,
}

/// What a record answers.
#[derive(Clone, Copy, PartialEq, Eq, Debug, Default)]
pub struct Answer {
    pub status: u8,
    /// Bit 0 Received, 1 Overflow, 2 DRS.
    pub interrupts: u8,
    pub queued: u8,
    pub dropped: u8,
    pub data: u32,
    /// For coverage only: the port's own FRS, reason 1, arrived in this record.
    pub own_frs: bool,
}

impl Answer {
    pub fn refused(status: u8) -> Answer {
        Answer { status, ..Answer::default() }
    }

    pub fn to_bytes(self) -> [u8; 8] {
        let data = self.data.to_le_bytes();
        [
            self.status,
            self.interrupts,
            self.queued,
            self.dropped,
            data[0],
            data[1],
            data[2],
            data[3],
        ]
    }
}

impl<'a> Bench<'a> {
    pub fn new(setup: &'a Setup, fault: Fault) -> Bench<'a> {
        let state = State::zero(setup);
        Bench {
            setup: Cow::Borrowed(setup),
            state,
            replay: Replay::FRESH,
            table: &TABLE,
            fault,
            named_earlier: 0,
            replays: false,
            made: Vec::new(),
            running: Running::NONE,
        }
    }

    pub fn has(&self, fault: Fault) -> bool {
        self.fault == fault
    }

    /// Sets up anew; gives 0, or the number of the refusal, with nothing changed.
    pub fn set_up(&mut self) -> u8 {
        if let Some(number) = self.setup.refusal(self.fault) {
            return number;
        }
        let broken = self.state.port.broken && self.has(Fault::SetUpKeepsBroken);
        self.state.port = Port { broken, ..Port::zero() };
        self.state.statuses.fill(Status::Down);
        for (live, default) in self.state.live.iter_mut().zip(&self.setup.defaults) {
            *live = *default;
        }
        if self.has(Fault::ReplayFreshAtSetUp) {
            self.replay = Replay::FRESH;
        }
        self.set_up_moments();
        if !self.has(Fault::SetUpKeepsCells) {
            self.state.cells.fill(0);
        }
        0
    }

    /// Takes a sheet: the entries that it leaves are those of the set-up from here on.
    pub fn take_sheet(&mut self, text: &[u8]) -> Taken {
        let Bench { fault, named_earlier, .. } = *self;
        let sheet = Sheet { text, slots: self.setup.slots, fault, named_earlier };
        let mut taken = sheet.take(&self.setup.entries);
        self.named_earlier |= sheet.names_kept(&taken);
        self.clear_moments(Fault::MomentsClearedBySheet);
        if self.has(Fault::SheetNeedsSetUp) && self.setup.refusal(self.fault).is_some() {
            taken.entries = self.setup.entries;
        }
        if taken.entries != self.setup.entries && !self.has(Fault::SheetForgotten) {
            self.setup.to_mut().entries = taken.entries;
        }
        if self.has(Fault::SheetSetsUp) {
            self.set_up();
        }
        taken
    }

    /// Moves the clock, moment by moment; status 22 if it would pass 10^15.
    pub fn advance(&mut self, ns: u32, answer: &mut Answer) {
        let target = self.state.port.clock.0 + u64::from(ns);
        let too_far = match self.fault {
            Fault::ClockStopsBeforeLast => target >= LAST_MOMENT.0,
            Fault::ClockNotLimited => false,
            _ => target > LAST_MOMENT.0,
        };
        if too_far {
            answer.status = 22;
            self.leave_22();
            if self.has(Fault::ClockMovesToLast) {
                self.state.port.clock = LAST_MOMENT;
            }
            return;
        }
        while let Some(moment) = self.next_ready_time() {
            if moment.0 > target || self.has(Fault::FrsBySlotNumber) {
                break;
            }
            self.state.port.clock = self.state.port.clock.max(moment);
            self.pass_moment(moment, answer);
        }
        self.state.port.clock.0 = target;
    }
}
