//! Trace records: their lengths, and what each kind does and answers.

use crate::bench::{Answer, Bench};
use crate::faults::Fault;
use crate::messages::{self, Kind};
use crate::registers::lanes;
use crate::setup::WORDS_PER_SLOT;
use crate::state::{Cause, Status};

pub const ADVANCE: u8 = 0x01;
pub const READ: u8 = 0x02;
pub const WRITE: u8 = 0x03;
pub const MESSAGE: u8 = 0x04;
pub const LINK_UP: u8 = 0x05;
pub const LINK_DOWN: u8 = 0x06;
pub const COLD_RESET: u8 = 0x07;
pub const QUEUE_READ: u8 = 0x08;
pub const QUEUE_REMOVE: u8 = 0x09;
pub const CLEAR_STATUS: u8 = 0x0A;
pub const CONTROL: u8 = 0x0B;
pub const HARDWARE_SETS: u8 = 0x0C;
pub const STATUS_READ: u8 = 0x0D;

const CRS_SHOWN: u8 = 16;
const CRS: u8 = 17;
const UNSUPPORTED: u8 = 18;
const NO_SLOT: u8 = 20;
const NO_WORD: u8 = 21;
const WRONG_TIME: u8 = 23;
const WRONG_VALUE: u8 = 24;

/// A record's length with its kind byte, or none for an unknown kind.
pub const fn record_length(kind: u8) -> Option<usize> {
    match kind {
        ADVANCE => Some(5),
        READ => Some(4),
        WRITE => Some(8),
        MESSAGE => Some(17),
        LINK_UP | LINK_DOWN | COLD_RESET | QUEUE_READ | QUEUE_REMOVE | STATUS_READ => Some(1),
        CLEAR_STATUS | CONTROL => Some(2),
        HARDWARE_SETS => Some(7),
        _ => None,
    }
}

/// Four bytes, low byte first.
fn number(bytes: &[u8]) -> u32 {
    u32::from_le_bytes([bytes[0], bytes[1], bytes[2], bytes[3]])
}

/// Slot, word and enables of a configuration record.
#[derive(Clone, Copy)]
struct Access {
    slot: usize,
    word: usize,
    enables: u8,
}

impl Access {
    fn from(body: &[u8]) -> Access {
        Access { slot: usize::from(body[0]), word: usize::from(body[1]), enables: body[2] }
    }
}

impl Bench<'_> {
    /// Runs one whole record.
    pub fn run_record(&mut self, record: &[u8]) -> Answer {
        let mut answer = Answer::default();
        let body = &record[1..];
        let made = self.made.len();
        (self.running.kind, self.running.clock) = (record[0], self.state.port.clock);
        match record[0] {
            ADVANCE if self.has(Fault::NumbersHighByteFirst) => {
                self.advance(number(body).swap_bytes(), &mut answer);
            }
            ADVANCE => self.advance(number(body), &mut answer),
            READ => answer = self.configuration_read(Access::from(body)),
            WRITE => answer = self.configuration_write(Access::from(body), number(&body[3..])),
            MESSAGE => self.message(body, &mut answer),
            LINK_UP => answer = self.link_change(true),
            LINK_DOWN => answer = self.link_change(false),
            COLD_RESET => self.cold_reset(),
            QUEUE_READ => answer.data = self.queue_register(),
            QUEUE_REMOVE => self.remove_oldest(),
            CLEAR_STATUS => self.clear_status(body[0]),
            CONTROL => answer = self.control(body[0]),
            HARDWARE_SETS => answer = self.hardware_record(body),
            _ => answer.data = self.status_bits(),
        }
        self.settle(&mut answer);
        self.leave_record(made);
        answer
    }

    fn link_change(&mut self, up: bool) -> Answer {
        let unchecked = match up {
            true => self.has(Fault::LinkUpTwice),
            false => self.has(Fault::LinkDownTwice),
        };
        if self.state.port.link == up && !unchecked {
            return Answer::refused(WRONG_TIME);
        }
        if up {
            self.link_up();
        } else {
            self.link_down();
        }
        Answer::default()
    }

    fn slot_missing(&self, slot: usize) -> bool {
        slot >= self.setup.slot_count()
    }

    /// The statuses 20, 21, 24 of a configuration record, in this order.
    fn access_refusal(&self, access: Access) -> Option<u8> {
        let missing = self.slot_missing(access.slot);
        let word_wrong = access.word >= WORDS_PER_SLOT;
        let enables_wrong = access.enables > 15;
        let order = match self.fault {
            Fault::WordBeforeSlot => {
                [(word_wrong, NO_WORD), (missing, NO_SLOT), (enables_wrong, WRONG_VALUE)]
            }
            Fault::EnablesBeforeWord => {
                [(missing, NO_SLOT), (enables_wrong, WRONG_VALUE), (word_wrong, NO_WORD)]
            }
            Fault::EnablesNotChecked => [(missing, NO_SLOT), (word_wrong, NO_WORD), (false, 0)],
            _ => [(missing, NO_SLOT), (word_wrong, NO_WORD), (enables_wrong, WRONG_VALUE)],
        };
        order.iter().find(|(applies, _)| *applies).map(|(_, status)| *status)
    }

    /// 18 or CRS (17) of a slot, before CRS visibility is looked at.
    fn slot_refusal(&self, slot: usize) -> Option<u8> {
        let now = self.state.port.clock;
        match self.state.statuses[slot] {
            Status::Down => Some(UNSUPPORTED),
            Status::Ready => None,
            Status::Pending { cause: Cause::Flr { end }, .. } => {
                let in_progress = match self.fault {
                    Fault::FlrInProgressAtEnd => now <= end,
                    Fault::FlrGivesCrs => false,
                    _ => now < end,
                };
                Some(if in_progress { UNSUPPORTED } else { CRS })
            }
            Status::Pending { .. } => Some(CRS),
        }
    }

    fn shows_crs(&self, access: Access) -> bool {
        let visible = self.state.port.visibility || self.has(Fault::CrsAlwaysVisible);
        let word = access.word == 0 || self.has(Fault::CrsShownAtAnyWord);
        let enables = match self.fault {
            Fault::CrsShownWithOneByte => access.enables & 3 != 0,
            Fault::CrsShownOnlyWith3 => access.enables == 3,
            Fault::CrsShownOnlyWith15 => access.enables == 15,
            _ => access.enables & 3 == 3,
        };
        visible && word && enables
    }

    fn configuration_read(&self, access: Access) -> Answer {
        let crossed = self.has(Fault::UnsupportedBeforeEnables) && !self.state.port.link;
        if let Some(status) = self.access_refusal(access) {
            if !(crossed && status == WRONG_VALUE) {
                return Answer::refused(status);
            }
        }
        let lanes = lanes(access.enables);
        let (status, data) = match self.slot_refusal(access.slot) {
            None if self.has(Fault::ReadIgnoresEnables) => {
                (0, self.shown_word(access.slot, access.word))
            }
            None => (0, self.shown_word(access.slot, access.word) & lanes),
            Some(CRS) if self.shows_crs(access) => (CRS_SHOWN, self.crs_data(lanes)),
            Some(CRS) if self.has(Fault::CrsReadGivesOnes) => (CRS, lanes),
            Some(UNSUPPORTED) if self.has(Fault::UnsupportedGivesZeros) => (UNSUPPORTED, 0),
            Some(UNSUPPORTED) if self.has(Fault::UnsupportedGivesAllOnes) => {
                (UNSUPPORTED, u32::MAX)
            }
            Some(UNSUPPORTED) => (UNSUPPORTED, lanes),
            Some(status) => (status, 0),
        };
        Answer { status, data, ..Answer::default() }
    }

    /// Vendor bytes 0001h, other enabled bytes FFh.
    fn crs_data(&self, lanes: u32) -> u32 {
        match self.fault {
            Fault::CrsVendorSwapped => lanes & 0xFFFF_0000 | 0x0100,
            Fault::CrsOtherBytesZero => 1,
            Fault::CrsOtherBytesAlways => 0xFFFF_0001,
            _ => lanes & 0xFFFF_0000 | 0x0001,
        }
    }

    fn configuration_write(&mut self, access: Access, data: u32) -> Answer {
        let refusal = self.access_refusal(access).or_else(|| self.slot_refusal(access.slot));
        match refusal {
            Some(CRS) if self.has(Fault::WriteUnderCrs) => {}
            Some(UNSUPPORTED) if self.has(Fault::UnsupportedWriteGivesOnes) => {
                let data = lanes(access.enables);
                return Answer { status: UNSUPPORTED, data, ..Answer::default() };
            }
            Some(status) => return Answer::refused(status),
            None => {}
        }
        self.write_register(access.slot, access.word, access.enables, data);
        Answer::default()
    }

    fn message(&mut self, body: &[u8], answer: &mut Answer) {
        let read = messages::read(body, self.fault);
        let early = self.has(Fault::LayoutBeforeLink);
        match read {
            Err(status) if early => answer.status = status,
            _ if !self.state.port.link && !self.has(Fault::MessageWithLinkDown) => {
                answer.status = WRONG_TIME;
            }
            Err(status) => answer.status = status,
            Ok(message) if message.kind == Kind::Frs => {
                self.arrive(message.reason, message.id, answer);
            }
            Ok(_) => {
                if self.has(Fault::DrsMessagePaysOwed) {
                    self.state.port.owed = false;
                }
                self.set_drs_received(answer);
            }
        }
    }

    fn clear_status(&mut self, bits: u8) {
        let port = &mut self.state.port;
        let bits = match self.fault {
            Fault::ClearWhereZero => !bits,
            Fault::ClearSwapsBits => bits & 4 | bits >> 1 & 1 | bits << 1 & 2,
            Fault::ClearRefusesOthers if bits > 7 => 0,
            _ => bits,
        };
        port.received &= bits & 1 == 0;
        port.overflow &= bits & 2 == 0;
        port.drs_received &= bits & 4 == 0;
        if self.fault == Fault::ClearOtherBits && bits & 8 != 0 {
            port.visibility = false;
        }
    }

    fn control(&mut self, bits: u8) -> Answer {
        let above = bits > 15 && !self.has(Fault::ControlAbove15Allowed);
        let signalling = bits >> 2 & 3;
        if above || signalling == 3 && !self.has(Fault::Signalling3Allowed) {
            return Answer::refused(WRONG_VALUE);
        }
        let (visibility, interrupt) = match self.fault {
            Fault::ControlBitsSwapped => (bits & 2, bits & 1),
            _ => (bits & 1, bits & 2),
        };
        self.state.port.visibility = visibility != 0;
        self.state.port.frs_interrupt = interrupt != 0;
        if !self.has(Fault::ControlKeepsSignalling) {
            self.state.port.signalling = signalling;
        }
        Answer::default()
    }

    fn hardware_record(&mut self, body: &[u8]) -> Answer {
        let (slot, word) = (usize::from(body[0]), usize::from(body[1]));
        if self.slot_missing(slot) {
            return Answer::refused(NO_SLOT);
        }
        let ready = self.state.statuses[slot] == Status::Ready;
        let early = self.has(Fault::NotReadyBeforeWord) && !ready;
        if word >= WORDS_PER_SLOT && !early {
            return Answer::refused(NO_WORD);
        }
        if !ready && !self.has(Fault::HardwareSetsWhenNotReady) {
            return Answer::refused(WRONG_TIME);
        }
        self.hardware_sets(slot, word, number(&body[2..]));
        Answer::default()
    }

    fn status_bits(&self) -> u32 {
        let port = &self.state.port;
        let (low, next) = match self.fault {
            Fault::StatusBitsSwapped => (port.overflow, port.received),
            _ => (port.received, port.overflow),
        };
        u32::from(low) | u32::from(next) << 1 | u32::from(port.drs_received) << 2
    }
}
