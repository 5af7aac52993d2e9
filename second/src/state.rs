//! Everything that a feed may change: port, statuses, live registers and queue cells.

use crate::setup::Setup;
use crate::times::Nanos;

/// Why a slot is Pending.
#[derive(Clone, Copy, PartialEq, Eq, Debug)]
pub enum Cause {
    LinkUp,
    /// In progress until `end`.
    Flr {
        end: Nanos,
    },
    D3hot,
}

/// A slot's status.
#[derive(Clone, Copy, PartialEq, Eq, Debug)]
pub enum Status {
    Down,
    Pending { cause: Cause, ready: Nanos },
    Ready,
}

/// A record is at most 17 bytes, so at most 16 are carried.
pub const MOST_CARRIED: usize = 16;

#[derive(Clone, PartialEq, Eq, Debug)]
pub struct Port {
    pub clock: Nanos,
    /// The moment of the last reset; 0 until Q-2.
    pub reset_at: Nanos,
    pub link: bool,
    pub owed: bool,
    pub received: bool,
    pub overflow: bool,
    pub drs_received: bool,
    pub visibility: bool,
    pub frs_interrupt: bool,
    pub signalling: u8,
    pub start: u16,
    pub depth: u16,
    pub carried_count: u8,
    pub carried: [u8; MOST_CARRIED],
    pub broken: bool,
}

impl Port {
    pub fn zero() -> Port {
        Port {
            clock: Nanos(0),
            reset_at: Nanos(0),
            link: false,
            owed: false,
            received: false,
            overflow: false,
            drs_received: false,
            visibility: false,
            frs_interrupt: false,
            signalling: 0,
            start: 0,
            depth: 0,
            carried_count: 0,
            carried: [0; MOST_CARRIED],
            broken: false,
        }
    }
}

#[derive(Clone, PartialEq, Eq, Debug)]
pub struct State {
    pub port: Port,
    pub statuses: Vec<Status>,
    pub live: Vec<u32>,
    pub cells: Vec<u32>,
}

impl State {
    /// Everything lent at 0, statuses Down.
    pub fn zero(setup: &Setup) -> State {
        State {
            port: Port::zero(),
            statuses: vec![Status::Down; setup.statuses],
            live: vec![0; setup.live_words],
            cells: vec![0; setup.cells],
        }
    }

    pub fn all_ready(&self) -> bool {
        self.statuses.iter().all(|status| *status == Status::Ready)
    }
}
