//! Readiness of slots: link, resets, FLR, D3hot to D0, and DRS Received.

use crate::bench::{Answer, Bench};
use crate::faults::Fault;
use crate::queue::DRS;
use crate::registers::Reset;
use crate::setup::SlotEntry;
use crate::state::{Cause, Status};
use crate::times::{Nanos, FLR_LIMIT};

const REASON_DRS_RECEIVED: u8 = 1;
const REASON_D3HOT: u8 = 2;
const REASON_FLR: u8 = 3;

impl Bench<'_> {
    fn entry(&self, slot: usize) -> &SlotEntry {
        &self.setup.entries[slot]
    }

    /// Every slot Pending until c + DL Up Time; a DRS is owed.
    pub fn link_up(&mut self) {
        self.state.port.link = true;
        self.clear_moments(Fault::MomentsClearedByLinkUp);
        self.state.port.owed = !self.has(Fault::LinkUpOwesNothing);
        let now = self.state.port.clock;
        for slot in 0..self.state.statuses.len() {
            let code = match self.fault {
                Fault::LinkUpUsesResetTime => self.entry(slot).reset,
                Fault::LinkUpUsesFirstSlot => self.entry(0).dl_up,
                _ => self.entry(slot).dl_up,
            };
            let ready = now.plus(code.time());
            self.state.statuses[slot] = Status::Pending { cause: Cause::LinkUp, ready };
        }
    }

    /// What link down and cold reset share.
    fn take_down(&mut self) {
        self.state.port.link = false;
        if !self.has(Fault::DownStillOwes) {
            self.state.port.owed = false;
        }
        self.state.statuses.fill(Status::Down);
    }

    pub fn link_down(&mut self) {
        self.take_down();
        self.clear_moments(Fault::MomentsClearedByLinkDown);
        if !self.has(Fault::LinkDownKeepsQueue) {
            self.empty_queue();
        }
        if !self.has(Fault::LinkDownKeepsDrs) {
            self.state.port.drs_received = false;
        }
        if self.has(Fault::LinkDownClearsReceived) {
            self.state.port.received = false;
        }
        if self.has(Fault::LinkDownClearsControl) {
            self.state.port.visibility = false;
        }
        let reached = match self.fault {
            Fault::LinkDownFirstSlotOnly => 1,
            _ => self.state.statuses.len(),
        };
        for slot in 0..reached {
            self.reset_slot(slot, Reset::LinkDown);
        }
    }

    pub fn cold_reset(&mut self) {
        self.take_down();
        self.clear_moments(Fault::MomentsClearedByColdReset);
        if !self.has(Fault::ColdResetKeepsQueue) {
            self.empty_queue();
        }
        self.cold_reset_registers();
        let port = &mut self.state.port;
        port.drs_received = false;
        if self.fault != Fault::ColdResetKeepsReceived {
            port.received = false;
            port.overflow = false;
        }
        if self.fault != Fault::ColdResetKeepsControl {
            port.visibility = false;
            port.frs_interrupt = false;
            port.signalling = 0;
        }
        if self.fault == Fault::ColdResetClearsClock {
            port.clock = Nanos(0);
        }
    }

    /// In progress until c + min(T, 100 ms), Pending until c + T.
    pub fn start_flr(&mut self, slot: usize) {
        self.reset_slot(slot, Reset::Flr);
        self.clear_moment(slot, Fault::MomentClearedByFlr);
        if self.has(Fault::FlrResetsEverySlot) {
            for other in 0..self.state.statuses.len() {
                self.reset_slot(other, Reset::Flr);
            }
        }
        let now = self.state.port.clock;
        let time = match self.fault {
            Fault::FlrUsesResetTime => self.entry(slot).reset.time(),
            _ => self.entry(slot).flr.time(),
        };
        let in_progress = match self.fault {
            Fault::FlrNotCapped => time,
            Fault::FlrAlwaysHundred => FLR_LIMIT,
            _ => time.min(FLR_LIMIT),
        };
        let cause = Cause::Flr { end: now.plus(in_progress) };
        self.state.statuses[slot] = Status::Pending { cause, ready: now.plus(time) };
    }

    /// PowerState went from 3 to 0: Pending until c + D3hot time, with either bit 3.
    pub fn start_d0(&mut self, slot: usize, no_soft_reset: bool) {
        self.reset_for_d0(slot, no_soft_reset);
        self.clear_moment(slot, Fault::MomentClearedByD3hot);
        if no_soft_reset && self.has(Fault::NoSoftResetStaysReady) {
            return;
        }
        let code = match self.fault {
            Fault::D3hotUsesFlrTime => self.entry(slot).flr,
            _ => self.entry(slot).d3hot,
        };
        let ready = self.state.port.clock.plus(code.time());
        self.state.statuses[slot] = Status::Pending { cause: Cause::D3hot, ready };
    }

    /// The earliest ready time of all Pending slots.
    pub fn next_ready_time(&self) -> Option<Nanos> {
        let ready_times = self.state.statuses.iter().filter_map(|status| match status {
            Status::Pending { ready, .. } => Some(*ready),
            _ => None,
        });
        ready_times.min()
    }

    /// Before a record's answer: slots whose ready time is at or before the clock become Ready.
    pub fn settle(&mut self, answer: &mut Answer) {
        if self.has(Fault::FrsBySlotNumber) {
            return self.settle_by_slot_number(answer);
        }
        while let Some(moment) = self.next_ready_time() {
            let too_late = match self.fault {
                Fault::ReadyOnlyAfter => moment >= self.state.port.clock,
                _ => moment > self.state.port.clock,
            };
            if too_late {
                break;
            }
            self.pass_moment(moment, answer);
        }
    }

    fn settle_by_slot_number(&mut self, answer: &mut Answer) {
        let now = self.state.port.clock;
        for slot in 0..self.state.statuses.len() {
            if matches!(self.state.statuses[slot], Status::Pending { ready, .. } if ready <= now) {
                self.become_ready(slot, answer);
            }
        }
        self.pay_drs(answer);
    }

    /// One moment: its slots become Ready by slot number, then a DRS owed may be paid.
    pub fn pass_moment(&mut self, moment: Nanos, answer: &mut Answer) {
        let count = self.state.statuses.len();
        if self.has(Fault::DrsBeforeFrs) && self.rest_is_ready(moment) {
            self.pay_owed(answer);
        }
        for step in 0..count {
            let slot = match self.fault {
                Fault::TiesByGreatestSlot => count - 1 - step,
                _ => step,
            };
            let status = self.state.statuses[slot];
            if matches!(status, Status::Pending { ready, .. } if ready == moment) {
                self.become_ready(slot, answer);
            }
        }
        self.pay_drs(answer);
    }

    /// Whether every slot is Ready or becomes so at this moment.
    fn rest_is_ready(&self, moment: Nanos) -> bool {
        self.state.statuses.iter().all(|status| match status {
            Status::Down => false,
            Status::Pending { ready, .. } => *ready == moment,
            Status::Ready => true,
        })
    }

    fn become_ready(&mut self, slot: usize, answer: &mut Answer) {
        let Status::Pending { cause, ready } = self.state.statuses[slot] else {
            return;
        };
        self.state.statuses[slot] = Status::Ready;
        self.note_ready(slot, cause, ready);
        let reason = match (cause, self.fault) {
            (Cause::Flr { .. }, Fault::ReasonsSwapped) => REASON_D3HOT,
            (Cause::D3hot, Fault::ReasonsSwapped) => REASON_FLR,
            (Cause::LinkUp, Fault::FrsAfterLinkUp) => REASON_FLR,
            (Cause::LinkUp, _) => return,
            (Cause::D3hot, Fault::NoFrsAfterD3hot) => return,
            (Cause::Flr { .. }, _) => REASON_FLR,
            (Cause::D3hot, _) => REASON_D3HOT,
        };
        let id = match self.fault {
            Fault::IdWithoutBus => slot as u16,
            _ => self.setup.function_id(slot),
        };
        if self.entry(slot).sends_frs || self.has(Fault::EverySlotSendsFrs) {
            self.arrive(reason, id, answer);
        }
    }

    /// At the first moment that a DRS is owed and all slots are Ready.
    fn pay_drs(&mut self, answer: &mut Answer) {
        let ready = match self.fault {
            Fault::DrsAtFirstReady => self.state.statuses.contains(&Status::Ready),
            _ => self.state.all_ready(),
        };
        if ready {
            self.pay_owed(answer);
        }
    }

    fn pay_owed(&mut self, answer: &mut Answer) {
        if self.state.port.owed {
            self.state.port.owed = self.has(Fault::OwedStays);
            self.set_drs_received(answer);
        }
    }

    /// Sets DRS Received and signals it if the bit went from 0 to 1.
    pub fn set_drs_received(&mut self, answer: &mut Answer) {
        let was_set = self.state.port.drs_received;
        self.state.port.drs_received = true;
        if was_set && !self.has(Fault::DrsSignalledEachTime) {
            return;
        }
        let needs_enable = self.has(Fault::DrsInterruptNeedsEnable);
        match self.state.port.signalling {
            1 if needs_enable && !self.state.port.frs_interrupt => {}
            1 => answer.interrupts |= DRS,
            2 => self.own_frs(answer),
            _ => {}
        }
        if self.has(Fault::SignallingBoth) && self.state.port.signalling == 2 {
            answer.interrupts |= DRS;
        }
    }

    fn own_frs(&mut self, answer: &mut Answer) {
        if self.has(Fault::NoOwnFrs) {
            return;
        }
        let id = match self.fault {
            Fault::OwnFrsWithSlotId => self.setup.function_id(0),
            _ => self.setup.port_id,
        };
        answer.own_frs = true;
        self.arrive(REASON_DRS_RECEIVED, id, answer);
    }
}
