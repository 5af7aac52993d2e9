//! The FRS queue: a ring of cells.

use crate::bench::{Answer, Bench};
use crate::faults::Fault;

pub const RECEIVED: u8 = 1;
pub const OVERFLOW: u8 = 2;
pub const DRS: u8 = 4;

const WITH_DEPTH: u32 = 1 << 20;

impl Bench<'_> {
    fn ring(&self, steps: u16) -> usize {
        let start = usize::from(self.state.port.start);
        if self.has(Fault::RingNotFromStart) {
            return usize::from(steps) % self.state.cells.len();
        }
        (start + usize::from(steps)) % self.state.cells.len()
    }

    fn has_room(&self) -> bool {
        let depth = usize::from(self.state.port.depth);
        let greatest = self.state.cells.len();
        match self.fault {
            Fault::QueueOneShort => depth < greatest.max(2) - 1,
            _ => depth < greatest,
        }
    }

    fn cell_value(&self, reason: u8, id: u16) -> u32 {
        match self.fault {
            Fault::CellReasonLow => u32::from(id) * 16 + u32::from(reason),
            _ => u32::from(reason) * 65_536 + u32::from(id),
        }
    }

    /// An FRS arrives: put at the end, or dropped.
    pub fn arrive(&mut self, reason: u8, id: u16, answer: &mut Answer) {
        if self.has_room() {
            let end = self.ring(self.state.port.depth);
            self.state.cells[end] = self.cell_value(reason, id);
            self.state.port.depth += 1;
            answer.queued += 1;
            if !self.has(Fault::ReceivedNotSet) {
                self.set_received(answer);
            }
        } else {
            self.drop_frs(reason, id, answer);
        }
    }

    fn drop_frs(&mut self, reason: u8, id: u16, answer: &mut Answer) {
        match self.fault {
            Fault::DropCountedAsQueued => answer.queued += 1,
            _ => answer.dropped += 1,
        }
        if self.has(Fault::DropReplacesNewest) {
            let newest = self.ring(self.state.port.depth - 1);
            self.state.cells[newest] = self.cell_value(reason, id);
        }
        if self.has(Fault::DropReplacesOldest) {
            let oldest = self.ring(0);
            self.state.cells[oldest] = self.cell_value(reason, id);
            self.state.port.start = self.ring(1) as u16;
        }
        if self.has(Fault::DropSetsReceived) {
            self.set_received(answer);
        }
        if !self.has(Fault::OverflowNotSet) {
            self.set_overflow(answer);
        }
    }

    fn raises(&self, was_set: bool) -> bool {
        let enabled = self.state.port.frs_interrupt || self.has(Fault::InterruptWithoutEnable);
        let went_up = !was_set || self.has(Fault::InterruptEachTime);
        enabled && went_up
    }

    fn set_received(&mut self, answer: &mut Answer) {
        if self.raises(self.state.port.received) {
            answer.interrupts |= match self.fault {
                Fault::InterruptBitsSwapped => OVERFLOW,
                _ => RECEIVED,
            };
        }
        self.state.port.received = true;
    }

    fn set_overflow(&mut self, answer: &mut Answer) {
        if self.raises(self.state.port.overflow) && !self.has(Fault::NoOverflowInterrupt) {
            answer.interrupts |= match self.fault {
                Fault::InterruptBitsSwapped => RECEIVED,
                _ => OVERFLOW,
            };
        }
        self.state.port.overflow = true;
    }

    /// Takes the oldest by moving start one on; on an empty queue it does nothing.
    pub fn remove_oldest(&mut self) {
        if self.state.port.depth == 0 {
            if self.has(Fault::RemoveFromEmptyMoves) {
                self.state.port.start = self.ring(1) as u16;
            }
            return;
        }
        if self.has(Fault::RemoveClearsCell) {
            let oldest = self.ring(0);
            self.state.cells[oldest] = 0;
        }
        if !self.has(Fault::RemoveTakesNewest) {
            let next = self.ring(1);
            self.state.port.start = match self.fault {
                Fault::StartNotWrapped => self.state.port.start + 1,
                _ => next as u16,
            };
        }
        self.state.port.depth -= 1;
        if self.has(Fault::RemoveClearsReceived) && self.state.port.depth == 0 {
            self.state.port.received = false;
        }
        if self.has(Fault::RemoveClearsOverflow) {
            self.state.port.overflow = false;
        }
    }

    /// depth * 2^20 plus the oldest cell, or 0 if empty.
    pub fn queue_register(&self) -> u32 {
        let depth = self.state.port.depth;
        if depth == 0 && !self.has(Fault::EmptyShowsCell) {
            return 0;
        }
        let shown = match self.fault {
            Fault::RegisterShowsNewest => self.ring(depth - 1),
            _ => self.ring(0),
        };
        let times = match self.fault {
            Fault::RegisterDepthOneLess => u32::from(depth) - 1,
            _ => u32::from(depth),
        };
        times * WITH_DEPTH + self.state.cells[shown]
    }

    /// Depth 0, start at cell 0, cells untouched.
    pub fn empty_queue(&mut self) {
        self.state.port.depth = 0;
        if !self.has(Fault::EmptyingKeepsStart) {
            self.state.port.start = 0;
        }
        if self.has(Fault::EmptyingClearsCells) {
            self.state.cells.fill(0);
        }
    }
}
