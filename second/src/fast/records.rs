//! The thirteen records of the fast model. An answer is one number whose bytes, low byte first, are the answer's.

use crate::fast::refusal::NEVER;
use crate::fast::tables::{Reached, BY_FLR, BY_LINK_DOWN, LANES, LONGEST};
use crate::records::*;
use crate::registers::TABLE;
use crate::setup::{Setup, DEVICE_CAPABILITIES, DEVICE_CONTROL, MOST_SLOTS, PMCSR, WORDS_PER_SLOT};
use crate::state::{Cause, Port, State, Status};
use crate::times::{Code, Nanos, FLR_LIMIT, LAST_MOMENT};

/// Statuses of an answer.
const CRS_SHOWN: u64 = 16;
const CRS: u64 = 17;
const UNSUPPORTED: u64 = 18;
const NO_MESSAGE: u64 = 19;
const NO_SLOT: u64 = 20;
const NO_WORD: u64 = 21;
const CLOCK_ENDS: u64 = 22;
const WRONG_TIME: u64 = 23;
const WRONG_VALUE: u64 = 24;

/// Interrupts and counts, at their places in an answer.
const RECEIVED: u64 = 1 << 8;
const OVERFLOW: u64 = 2 << 8;
const DRS: u64 = 4 << 8;
const QUEUED: u64 = 1 << 16;
const DROPPED: u64 = 1 << 24;

/// FRS reasons, at their place in a cell.
const REASON_DRS: u32 = 1 << 16;
const REASON_D3HOT: u32 = 2 << 16;
const REASON_FLR: u32 = 3 << 16;

/// Register bits that matter to the records.
const POWER_STATE: u32 = 3;
const NO_SOFT_RESET: u32 = 1 << 3;
const INITIATE_FLR: u32 = 1 << 15;
const TRANSACTIONS_PENDING: u32 = 1 << 21;
const FLR_CAPABLE: u32 = 1 << 28;

const fn with_data(status: u64, data: u32) -> u64 {
    status | (data as u64) << 32
}

/// value * 32^scale.
fn nanos(code: Code) -> u64 {
    u64::from(code.0 & 0x1FF) << (5 * (code.0 >> 9))
}

/// Four bytes of a record, low byte first.
fn number(record: &[u8; LONGEST], at: usize) -> u32 {
    u32::from_le_bytes([record[at], record[at + 1], record[at + 2], record[at + 3]])
}

/// What one call of feed works on.
pub struct Run<'a> {
    setup: &'a Setup,
    pub port: &'a mut Port,
    statuses: &'a mut [Status],
    live: &'a mut [u32],
    cells: &'a mut [u32],
    /// The earliest ready time of all Pending slots, or `NEVER`.
    earliest: u64,
}

impl<'a> Run<'a> {
    pub fn new(setup: &'a Setup, state: &'a mut State, earliest: u64) -> Run<'a> {
        let State { port, statuses, live, cells } = state;
        Run { setup, port, statuses, live, cells, earliest }
    }

    /// Runs a whole record; what stands after it is not looked at.
    #[inline(always)]
    pub fn record(&mut self, record: &[u8; LONGEST]) -> u64 {
        match record[0] {
            READ => self.read(record[1], record[2], record[3]),
            WRITE => self.write(record[1], record[2], record[3], number(record, 4)),
            ADVANCE => self.advance(number(record, 1)),
            MESSAGE => self.message(record),
            LINK_UP => self.link_up(),
            LINK_DOWN => self.link_down(),
            COLD_RESET => self.cold_reset(),
            QUEUE_READ => self.queue_register(),
            QUEUE_REMOVE => self.remove_oldest(),
            CLEAR_STATUS => self.clear_status(record[1]),
            CONTROL => self.control(record[1]),
            HARDWARE_SETS => self.hardware_sets(record[1], record[2], number(record, 3)),
            _ => self.status_bits(),
        }
    }

    /// The status of the slot that a configuration record names, or the record's refusal.
    fn requested(&self, slot: u8, word: u8, enables: u8) -> Result<Status, u64> {
        let Some(status) = self.statuses.get(usize::from(slot)) else {
            return Err(NO_SLOT);
        };
        if usize::from(word) >= WORDS_PER_SLOT {
            return Err(NO_WORD);
        }
        if enables > 15 {
            return Err(WRONG_VALUE);
        }
        Ok(*status)
    }

    fn read(&self, slot: u8, word: u8, enables: u8) -> u64 {
        let status = match self.requested(slot, word, enables) {
            Ok(status) => status,
            Err(refusal) => return refusal,
        };
        let lanes = LANES[usize::from(enables)];
        match status {
            Status::Ready => {
                let word = usize::from(word);
                let mut data = self.live[usize::from(slot) * WORDS_PER_SLOT + word];
                if word == DEVICE_CONTROL {
                    data &= !(INITIATE_FLR | TRANSACTIONS_PENDING);
                }
                with_data(0, data & lanes)
            }
            Status::Down => with_data(UNSUPPORTED, lanes),
            Status::Pending { cause, .. } if self.in_progress(cause) => {
                with_data(UNSUPPORTED, lanes)
            }
            Status::Pending { .. } if self.port.visibility && word == 0 && enables & 3 == 3 => {
                with_data(CRS_SHOWN, lanes & 0xFFFF_0000 | 1)
            }
            Status::Pending { .. } => CRS,
        }
    }

    fn in_progress(&self, cause: Cause) -> bool {
        matches!(cause, Cause::Flr { end } if self.port.clock < end)
    }

    fn write(&mut self, slot: u8, word: u8, enables: u8, data: u32) -> u64 {
        match self.requested(slot, word, enables) {
            Ok(Status::Ready) => {}
            Ok(Status::Down) => return UNSUPPORTED,
            Ok(Status::Pending { cause, .. }) if self.in_progress(cause) => return UNSUPPORTED,
            Ok(Status::Pending { .. }) => return CRS,
            Err(refusal) => return refusal,
        }
        let (slot, word) = (usize::from(slot), usize::from(word));
        let lanes = LANES[usize::from(enables)];
        let masks = &TABLE[word];
        let mut written = masks.w & lanes;
        let asked = data & lanes & POWER_STATE;
        if word == PMCSR && (asked == 1 || asked == 2) {
            written &= !POWER_STATE;
        }
        let live = &mut self.live[slot * WORDS_PER_SLOT + word];
        let old = *live;
        let new = (old & !written | data & written) & !(masks.c & lanes & data);
        *live = new;
        match word {
            DEVICE_CONTROL if data & lanes & INITIATE_FLR != 0 => self.start_flr(slot),
            PMCSR if old & POWER_STATE == 3 && new & POWER_STATE == 0 => self.start_d0(slot, new),
            _ => 0,
        }
    }

    /// In progress until c + min(T, 100 ms), Pending until c + T, if the slot is capable of FLR.
    fn start_flr(&mut self, slot: usize) -> u64 {
        let capabilities = self.setup.defaults[slot * WORDS_PER_SLOT + DEVICE_CAPABILITIES];
        if capabilities & FLR_CAPABLE == 0 {
            return 0;
        }
        self.reset(slot, &BY_FLR);
        let time = nanos(self.setup.entries[slot].flr);
        let end = Nanos(self.port.clock.0 + time.min(FLR_LIMIT.0));
        self.wait(slot, Cause::Flr { end }, time)
    }

    /// Pending until c + D3hot time, with either No_Soft_Reset.
    fn start_d0(&mut self, slot: usize, power: u32) -> u64 {
        if power & NO_SOFT_RESET == 0 {
            self.reset(slot, &BY_LINK_DOWN);
        }
        let time = nanos(self.setup.entries[slot].d3hot);
        self.wait(slot, Cause::D3hot, time)
    }

    fn wait(&mut self, slot: usize, cause: Cause, time: u64) -> u64 {
        let ready = self.port.clock.0 + time;
        self.statuses[slot] = Status::Pending { cause, ready: Nanos(ready) };
        self.earliest = self.earliest.min(ready);
        self.settle()
    }

    /// Each bit that the reset reaches takes its default.
    fn reset(&mut self, slot: usize, reached: &[Reached]) {
        let words = slot * WORDS_PER_SLOT..(slot + 1) * WORDS_PER_SLOT;
        let live = &mut self.live[words.clone()];
        let defaults = &self.setup.defaults[words];
        for Reached { word, bits } in reached {
            live[*word] = live[*word] & !bits | defaults[*word] & bits;
        }
    }

    fn advance(&mut self, ns: u32) -> u64 {
        let target = self.port.clock.0 + u64::from(ns);
        if target > LAST_MOMENT.0 {
            return CLOCK_ENDS;
        }
        self.port.clock = Nanos(target);
        self.settle()
    }

    /// Slots whose ready time is at or before the clock become Ready.
    fn settle(&mut self) -> u64 {
        if self.port.clock.0 < self.earliest {
            return 0;
        }
        self.settle_due()
    }

    /// In order of ready time, ties by slot number; then a DRS that is owed, if all are Ready.
    fn settle_due(&mut self) -> u64 {
        let now = self.port.clock.0;
        let mut due = [0; MOST_SLOTS];
        let mut count = 0;
        self.earliest = NEVER;
        for (slot, status) in self.statuses.iter().enumerate() {
            if let Status::Pending { ready, .. } = status {
                if ready.0 <= now {
                    due[count] = ready.0 << 5 | slot as u64;
                    count += 1;
                } else {
                    self.earliest = self.earliest.min(ready.0);
                }
            }
        }
        due[..count].sort_unstable();
        let mut arrived = 0;
        for event in &due[..count] {
            arrived += self.become_ready((event & 31) as usize);
        }
        if self.port.owed && self.earliest == NEVER {
            self.port.owed = false;
            arrived += self.drs_received();
        }
        arrived
    }

    fn become_ready(&mut self, slot: usize) -> u64 {
        let was = std::mem::replace(&mut self.statuses[slot], Status::Ready);
        let reason = match was {
            Status::Pending { cause: Cause::Flr { .. }, .. } => REASON_FLR,
            Status::Pending { cause: Cause::D3hot, .. } => REASON_D3HOT,
            _ => return 0,
        };
        if !self.setup.entries[slot].sends_frs {
            return 0;
        }
        self.arrive(reason | u32::from(self.setup.bus) << 8 | slot as u32)
    }

    fn drs_received(&mut self) -> u64 {
        if self.port.drs_received {
            return 0;
        }
        self.port.drs_received = true;
        match self.port.signalling {
            1 => DRS,
            2 => self.arrive(REASON_DRS | u32::from(self.setup.port_id)),
            _ => 0,
        }
    }

    /// An FRS arrives: put at the end, or dropped.
    fn arrive(&mut self, cell: u32) -> u64 {
        let depth = usize::from(self.port.depth);
        if depth < self.cells.len() {
            let end = self.ring(depth);
            self.cells[end] = cell;
            self.port.depth += 1;
            let raised = self.port.frs_interrupt && !self.port.received;
            self.port.received = true;
            QUEUED + if raised { RECEIVED } else { 0 }
        } else {
            let raised = self.port.frs_interrupt && !self.port.overflow;
            self.port.overflow = true;
            DROPPED + if raised { OVERFLOW } else { 0 }
        }
    }

    /// The cell so many steps after the oldest.
    fn ring(&self, steps: usize) -> usize {
        let place = usize::from(self.port.start) + steps;
        if place < self.cells.len() {
            place
        } else {
            place - self.cells.len()
        }
    }

    fn message(&mut self, record: &[u8; LONGEST]) -> u64 {
        let [_, kind, class, _, _, high, low, _, code, _, _, first, second, subtype, _, _, reason] =
            *record;
        if !self.port.link {
            return WRONG_TIME;
        }
        if class & 0x70 != 0 || code != 0x7F || first != 0 || second != 1 {
            return NO_MESSAGE;
        }
        match (kind, subtype) {
            (0x30, 0x09) => {
                let id = u16::from_be_bytes([high, low]);
                self.arrive(u32::from(reason & 15) << 16 | u32::from(id))
            }
            (0x34, 0x08) => self.drs_received(),
            _ => NO_MESSAGE,
        }
    }

    fn link_up(&mut self) -> u64 {
        if self.port.link {
            return WRONG_TIME;
        }
        self.port.link = true;
        self.port.owed = true;
        let now = self.port.clock.0;
        let mut earliest = NEVER;
        for (status, entry) in self.statuses.iter_mut().zip(&self.setup.entries) {
            let ready = now + nanos(entry.dl_up);
            *status = Status::Pending { cause: Cause::LinkUp, ready: Nanos(ready) };
            earliest = earliest.min(ready);
        }
        self.earliest = earliest;
        self.settle()
    }

    /// Link and every slot Down, nothing owed, the queue emptied.
    fn take_down(&mut self) {
        self.port.link = false;
        self.port.owed = false;
        self.port.drs_received = false;
        self.port.start = 0;
        self.port.depth = 0;
        self.statuses.fill(Status::Down);
        self.earliest = NEVER;
    }

    fn link_down(&mut self) -> u64 {
        if !self.port.link {
            return WRONG_TIME;
        }
        self.take_down();
        for slot in 0..self.statuses.len() {
            self.reset(slot, &BY_LINK_DOWN);
        }
        0
    }

    fn cold_reset(&mut self) -> u64 {
        self.take_down();
        self.live.copy_from_slice(&self.setup.defaults);
        self.port.received = false;
        self.port.overflow = false;
        self.port.visibility = false;
        self.port.frs_interrupt = false;
        self.port.signalling = 0;
        0
    }

    fn queue_register(&self) -> u64 {
        if self.port.depth == 0 {
            return 0;
        }
        let oldest = self.cells[usize::from(self.port.start)];
        with_data(0, (u32::from(self.port.depth) << 20) + oldest)
    }

    fn remove_oldest(&mut self) -> u64 {
        if self.port.depth > 0 {
            self.port.start = self.ring(1) as u16;
            self.port.depth -= 1;
        }
        0
    }

    fn clear_status(&mut self, bits: u8) -> u64 {
        self.port.received &= bits & 1 == 0;
        self.port.overflow &= bits & 2 == 0;
        self.port.drs_received &= bits & 4 == 0;
        0
    }

    fn control(&mut self, bits: u8) -> u64 {
        let signalling = bits >> 2;
        if signalling > 2 {
            return WRONG_VALUE;
        }
        self.port.visibility = bits & 1 != 0;
        self.port.frs_interrupt = bits & 2 != 0;
        self.port.signalling = signalling;
        0
    }

    fn hardware_sets(&mut self, slot: u8, word: u8, mask: u32) -> u64 {
        let slot = usize::from(slot);
        let Some(status) = self.statuses.get(slot) else {
            return NO_SLOT;
        };
        let word = usize::from(word);
        if word >= WORDS_PER_SLOT {
            return NO_WORD;
        }
        if *status != Status::Ready {
            return WRONG_TIME;
        }
        self.live[slot * WORDS_PER_SLOT + word] |= mask & TABLE[word].c;
        0
    }

    fn status_bits(&self) -> u64 {
        let bits = u32::from(self.port.received)
            | u32::from(self.port.overflow) << 1
            | u32::from(self.port.drs_received) << 2;
        with_data(0, bits)
    }
}
