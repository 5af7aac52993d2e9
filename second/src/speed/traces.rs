//! The benchmark's traces, made from a seed: each with its card, and so many records long. A longer one starts with the shorter.

use crate::faults::Fault;
use crate::generate::records::{advance, read, write};
use crate::messages;
use crate::random::Random;
use crate::records::*;
use crate::setup::{DEVICE_CONTROL, PMCSR, WORDS_PER_SLOT};
use crate::speed::cards::{card, short, slow_start, Front};

/// What a trace is about.
#[derive(Clone, Copy, PartialEq, Eq, Debug)]
pub enum Subject {
    ReadsAndWrites8,
    ReadsAndWrites32,
    Polling,
    Resets,
    LongAdvances,
    FullQueue,
    Mixed,
}

pub const SUBJECTS: [(Subject, &str); 7] = [
    (Subject::ReadsAndWrites8, "reads-and-writes-8"),
    (Subject::ReadsAndWrites32, "reads-and-writes-32"),
    (Subject::Polling, "polling"),
    (Subject::Resets, "resets"),
    (Subject::LongAdvances, "long-advances"),
    (Subject::FullQueue, "full-queue"),
    (Subject::Mixed, "mixed"),
];

pub struct Trace {
    pub card: String,
    pub bytes: Vec<u8>,
    pub records: usize,
}

/// Longer than any DL Up Time of `short`.
const ALL_UP: u32 = 20_000;
/// Longer than any FLR or D3hot time of `short`.
const ALL_BACK: u32 = 20_000;

/// The trace about a subject, this many records long.
pub fn trace(subject: Subject, records: usize) -> Trace {
    let (front, codes): (Front, fn(u8) -> [u16; 4]) = match subject {
        Subject::ReadsAndWrites32 => (Front { slots: 32, queue: 16 }, short),
        Subject::Polling => (Front { slots: 8, queue: 16 }, slow_start),
        Subject::LongAdvances => (Front { slots: 32, queue: 64 }, short),
        Subject::FullQueue => (Front { slots: 8, queue: 4 }, short),
        _ => (Front { slots: 8, queue: 16 }, short),
    };
    let mut maker = Maker::new(records, front.slots);
    maker.start(subject);
    while !maker.is_full() {
        match subject {
            Subject::ReadsAndWrites8 | Subject::ReadsAndWrites32 => maker.read_or_write(),
            Subject::Polling => maker.poll_all(),
            Subject::Resets => maker.reset(),
            Subject::LongAdvances => maker.wait_long(),
            Subject::FullQueue => maker.message_or_clear(),
            Subject::Mixed => maker.anything(),
        }
    }
    Trace { card: card(&front, codes), bytes: maker.bytes, records }
}

struct Maker {
    random: Random,
    bytes: Vec<u8>,
    left: usize,
    slots: u8,
}

impl Maker {
    fn new(records: usize, slots: u8) -> Maker {
        Maker { random: Random::new(0x5EED), bytes: Vec::new(), left: records, slots }
    }

    fn is_full(&self) -> bool {
        self.left == 0
    }

    /// Adds a record, unless there are enough.
    fn add(&mut self, record: &[u8]) {
        if self.left > 0 {
            self.bytes.extend(record);
            self.left -= 1;
        }
    }

    fn advance(&mut self, ns: u32) {
        self.add(&advance(ns));
    }

    fn slot(&mut self) -> u8 {
        self.random.below(usize::from(self.slots)) as u8
    }

    /// CRS visibility, FRS interrupt and the DRS interrupt on; the link up; but for polling, every slot Ready.
    fn start(&mut self, subject: Subject) {
        self.add(&[CONTROL, 0b0111]);
        self.add(&[LINK_UP]);
        if subject != Subject::Polling {
            self.advance(ALL_UP);
        }
    }

    /// A word: one with attributes, or any.
    fn word(&mut self) -> u8 {
        match self.random.chance(60) {
            true => self.random.pick(&[1, 3, 4, 15, 17, 20, 21, 22, 30, 32]),
            false => self.random.below(WORDS_PER_SLOT) as u8,
        }
    }

    fn enables(&mut self) -> u8 {
        if self.random.chance(70) {
            15
        } else {
            self.random.below(16) as u8
        }
    }

    fn read(&mut self) {
        let (slot, word, enables) = (self.slot(), self.word(), self.enables());
        self.add(&read(slot, word, enables));
    }

    /// A write that starts no reset.
    fn write(&mut self) {
        let (slot, word, enables) = (self.slot(), usize::from(self.word()), self.enables());
        let data = match word {
            DEVICE_CONTROL => self.random.u32() & !0x8000,
            PMCSR => self.random.u32() & !3,
            _ => self.random.u32(),
        };
        self.add(&write(slot, word, enables, data));
    }

    fn read_or_write(&mut self) {
        if self.random.chance(60) {
            self.read();
        } else {
            self.write();
        }
    }

    /// Every slot once, then a short wait; now and then another word than the vendor's.
    fn poll_all(&mut self) {
        for slot in 0..self.slots {
            let word = if self.random.chance(10) { 1 } else { 0 };
            let enables = self.random.pick(&[15, 15, 15, 3]);
            self.add(&read(slot, word, enables));
        }
        self.advance(100);
    }

    /// One kind of reset from beginning to end, with reads on the way and the queue emptied after it.
    fn reset(&mut self) {
        let slot = self.slot();
        self.write();
        self.write();
        match self.random.below(5) {
            0 | 1 => self.flr(slot),
            2 | 3 => self.d3hot(slot),
            _ => self.link_down_and_up(slot),
        }
        self.add(&read(slot, 0, 15));
        self.add(&[QUEUE_READ]);
        self.add(&[QUEUE_REMOVE]);
    }

    fn flr(&mut self, slot: u8) {
        let data = 0x8000 | self.random.u32() & 0xE0;
        self.add(&write(slot, DEVICE_CONTROL, 3, data));
        self.add(&read(slot, 0, 15));
        self.advance(500);
        self.advance(ALL_BACK);
    }

    fn d3hot(&mut self, slot: u8) {
        self.add(&write(slot, PMCSR, 15, 3));
        self.add(&write(slot, PMCSR, 15, 0));
        self.add(&read(slot, 0, 15));
        self.advance(500);
        self.advance(ALL_BACK);
    }

    fn link_down_and_up(&mut self, slot: u8) {
        self.add(&[LINK_DOWN]);
        self.add(&[LINK_UP]);
        self.add(&read(slot, 0, 15));
        self.advance(500);
        self.advance(ALL_UP);
    }

    /// Every slot made Pending, by the link or by FLR, and then a few long advances until all are Ready.
    fn wait_long(&mut self) {
        if self.random.chance(50) {
            self.add(&[LINK_DOWN]);
            self.add(&[LINK_UP]);
        } else {
            for slot in 0..self.slots {
                self.add(&write(slot, DEVICE_CONTROL, 2, 0x8000));
            }
        }
        for _ in 0..self.random.pick(&[0, 1, 3]) {
            self.advance(3_000);
        }
        self.advance(ALL_UP);
    }

    fn frs(&mut self) {
        let (id, reason) = (self.random.u16(), self.random.below(16) as u8);
        self.message(messages::FRS, id, reason);
    }

    fn message(&mut self, kind: u8, id: u16, reason: u8) {
        let mut record = [MESSAGE; 17];
        let written = messages::write(kind, id, reason, &mut record[1..], Fault::None);
        written.expect("kind and reason fit");
        self.add(&record);
    }

    /// FRS after FRS; now and then the status bits are cleared, so that the next drop raises its interrupt.
    fn message_or_clear(&mut self) {
        if self.random.below(16) == 0 {
            self.add(&[CLEAR_STATUS, 3]);
        } else {
            self.frs();
        }
    }

    /// Any record, by weight; a link that goes down comes up soon.
    fn anything(&mut self) {
        match self.random.weighted(&[320, 250, 40, 50, 140, 60, 40, 40, 20, 8, 30, 20, 4, 2]) {
            0 => self.read_anywhere(),
            1 => self.write(),
            2 => self.start_flr(),
            3 => self.change_power(),
            4 => self.wait(),
            5 => self.any_message(),
            6 => self.add(&[QUEUE_READ]),
            7 => self.add(&[QUEUE_REMOVE]),
            8 => self.clear(),
            9 => self.control(),
            10 => self.hardware_sets(),
            11 => self.add(&[STATUS_READ]),
            12 => self.take_down(LINK_DOWN),
            _ => self.take_down(COLD_RESET),
        }
    }

    /// A read; now and then of a slot or a word that isn't there, or with wrong enables.
    fn read_anywhere(&mut self) {
        let (slot, word, enables) = match self.random.below(60) {
            0 => (self.slots, 0, 15),
            1 => (self.slot(), 64, 15),
            2 => (self.slot(), 0, 16),
            3..=20 => (self.slot(), 0, self.random.pick(&[15, 3])),
            _ => (self.slot(), self.word(), self.enables()),
        };
        self.add(&read(slot, word, enables));
    }

    fn start_flr(&mut self) {
        let slot = self.slot();
        self.add(&write(slot, DEVICE_CONTROL, 2, 0x8000));
    }

    fn change_power(&mut self) {
        let (slot, state) = (self.slot(), self.random.pick(&[0, 0, 1, 2, 3, 3]));
        self.add(&write(slot, PMCSR, 1, state));
    }

    fn wait(&mut self) {
        let ns = self.random.pick(&[100, 1_000, 4_000]);
        self.advance(ns);
    }

    /// Mostly FRS; some DRS, some that are no readiness message.
    fn any_message(&mut self) {
        match self.random.below(20) {
            0 => self.message(messages::DRS, 0x0100, 0),
            1 => self.add(&[MESSAGE; 17]),
            _ => self.frs(),
        }
    }

    fn clear(&mut self) {
        let bits = self.random.below(8) as u8;
        self.add(&[CLEAR_STATUS, bits]);
    }

    fn control(&mut self) {
        let bits = self.random.pick(&[1, 3, 5, 7, 7, 11, 12]);
        self.add(&[CONTROL, bits]);
    }

    fn hardware_sets(&mut self) {
        let (slot, word) = (self.slot(), self.random.pick(&[1, 17, 30]));
        let mask = self.random.u32().to_le_bytes();
        self.add(&[&[HARDWARE_SETS, slot, word][..], &mask].concat());
    }

    /// Down by link down or cold reset, a record or two, and up again; a second link up is refused.
    fn take_down(&mut self, kind: u8) {
        self.add(&[kind]);
        self.read();
        self.add(&[CONTROL, 0b0111]);
        self.add(&[LINK_UP]);
        if self.random.chance(10) {
            self.add(&[LINK_UP]);
        }
    }
}
