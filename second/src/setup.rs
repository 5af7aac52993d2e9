//! The set-up and its refusals 1 to 4.

use crate::faults::Fault;
use crate::times::{Code, GREATEST_TIME};

pub const MOST_SLOTS: usize = 32;
pub const WORDS_PER_SLOT: usize = 64;
pub const MOST_CELLS: usize = 4095;

/// The number of the word at a byte offset.
pub const fn word_at(offset: usize) -> usize {
    offset / 4
}

pub const PMCSR: usize = word_at(0x44);
pub const DEVICE_CAPABILITIES: usize = word_at(0x74);
pub const DEVICE_CONTROL: usize = word_at(0x78);

/// What a slot is set up with.
#[derive(Clone, Copy, PartialEq, Eq, Debug)]
pub struct SlotEntry {
    pub reset: Code,
    pub dl_up: Code,
    pub flr: Code,
    pub d3hot: Code,
    pub sends_frs: bool,
    /// 1 until Q-8.
    pub edition: u8,
    /// 0 until Q-12.
    pub v: Code,
    /// None until Q-12.
    pub parent: Option<u8>,
}

impl SlotEntry {
    /// Codes 0, sends none, and the default of every later field.
    pub const BLANK: SlotEntry = SlotEntry {
        reset: Code(0),
        dl_up: Code(0),
        flr: Code(0),
        d3hot: Code(0),
        sends_frs: false,
        edition: 1,
        v: Code(0),
        parent: None,
    };

    pub fn codes(&self) -> [Code; 4] {
        [self.reset, self.dl_up, self.flr, self.d3hot]
    }
}

/// A set-up, with the lengths of the memory lent.
#[derive(Clone, PartialEq, Eq, Debug)]
pub struct Setup {
    pub slots: u8,
    pub statuses: usize,
    pub live_words: usize,
    pub cells: usize,
    pub bus: u8,
    pub port_id: u16,
    /// A card without PCI Express; no until Q-9.
    pub conventional: bool,
    pub entries: [SlotEntry; MOST_SLOTS],
    pub defaults: Vec<u32>,
}

impl Setup {
    pub fn slot_count(&self) -> usize {
        usize::from(self.slots)
    }

    /// 256 * B + slot.
    pub fn function_id(&self, slot: usize) -> u16 {
        u16::from(self.bus) * 256 + slot as u16
    }

    pub fn default_word(&self, slot: usize, word: usize) -> u32 {
        self.defaults[slot * WORDS_PER_SLOT + word]
    }

    /// The first of 1 to 4 that applies, or none.
    pub fn refusal(&self, fault: Fault) -> Option<u8> {
        if self.lengths_wrong(fault) {
            Some(1)
        } else if self.queue_wrong(fault) {
            Some(2)
        } else if self.codes_wrong(fault) {
            Some(3)
        } else if self.defaults_wrong(fault) {
            Some(4)
        } else {
            None
        }
    }

    fn lengths_wrong(&self, fault: Fault) -> bool {
        let slots = self.slot_count();
        let words = slots * WORDS_PER_SLOT;
        let statuses_wrong = match fault {
            Fault::ManyStatusesAllowed => self.statuses < slots,
            _ => self.statuses != slots,
        };
        let live_wrong = match fault {
            Fault::ManyLiveWordsAllowed => self.live_words < words,
            _ => self.live_words != words,
        };
        let defaults_wrong = match fault {
            Fault::ManyDefaultWordsAllowed => self.defaults.len() < words,
            _ => self.defaults.len() != words,
        };
        let fewest = if fault == Fault::NoSlotsAllowed { 0 } else { 1 };
        let slots_wrong = slots < fewest || slots > MOST_SLOTS;
        slots_wrong || statuses_wrong || live_wrong || defaults_wrong
    }

    fn queue_wrong(&self, fault: Fault) -> bool {
        let most = match fault {
            Fault::Queue4096Allowed => MOST_CELLS + 1,
            Fault::Queue4095Refused => MOST_CELLS - 1,
            _ => MOST_CELLS,
        };
        let empty_wrong = self.cells == 0 && fault != Fault::EmptyQueueAllowed;
        empty_wrong || self.cells > most
    }

    fn codes_wrong(&self, fault: Fault) -> bool {
        let looked_at = match fault {
            Fault::UnusedCodesChecked => MOST_SLOTS,
            _ => self.slot_count(),
        };
        self.entries[..looked_at].iter().any(|entry| {
            let first = usize::from(fault == Fault::ResetTimeNotChecked);
            entry.codes()[first..].iter().any(|code| match fault {
                Fault::CodesComparedAsTimes => code.0 > 0xFFF || code.time() > GREATEST_TIME,
                Fault::CodeA1FAllowed => code.0 > 0xA1F,
                Fault::CodeA1ERefused => code.0 >= 0xA1E,
                _ => !code.is_allowed(),
            })
        })
    }

    fn defaults_wrong(&self, fault: Fault) -> bool {
        let control = match fault {
            Fault::DefaultBit15Allowed => 1 << 21,
            Fault::DefaultBit21Allowed => 1 << 15,
            _ => 1 << 15 | 1 << 21,
        };
        let power = match fault {
            Fault::DefaultPowerStateAllowed => 0,
            _ => 3,
        };
        (0..self.slot_count()).any(|slot| {
            self.default_word(slot, DEVICE_CONTROL) & control != 0
                || self.default_word(slot, PMCSR) & power != 0
        })
    }
}

/// The parts of refusals 1 to 4.
#[derive(Clone, Copy, PartialEq, Eq, Debug)]
pub enum Part {
    NoSlots,
    ManySlots,
    Statuses,
    LiveWords,
    DefaultWords,
    NoQueue,
    LongQueue,
    ResetCode,
    DlUpCode,
    FlrCode,
    D3hotCode,
    Bit15,
    Bit21,
    PowerState,
}

pub const PARTS: [(Part, u8, &str); 14] = [
    (Part::NoSlots, 1, "no slots"),
    (Part::ManySlots, 1, "more than 32 slots"),
    (Part::Statuses, 1, "statuses not one per slot"),
    (Part::LiveWords, 1, "live words not 64 per slot"),
    (Part::DefaultWords, 1, "default words not 64 per slot"),
    (Part::NoQueue, 2, "no queue cells"),
    (Part::LongQueue, 2, "more than 4,095 queue cells"),
    (Part::ResetCode, 3, "Reset code above A1Eh"),
    (Part::DlUpCode, 3, "DL Up code above A1Eh"),
    (Part::FlrCode, 3, "FLR code above A1Eh"),
    (Part::D3hotCode, 3, "D3hot code above A1Eh"),
    (Part::Bit15, 4, "default bit 15 of 78h"),
    (Part::Bit21, 4, "default bit 21 of 78h"),
    (Part::PowerState, 4, "default bits 1:0 of 44h"),
];

impl Setup {
    /// The parts of refusals 1 to 4 that this set-up breaks; of more than 32 slots only 32 can have statuses.
    pub fn broken_parts(&self) -> Vec<Part> {
        PARTS.iter().map(|(part, _, _)| *part).filter(|part| self.breaks(*part)).collect()
    }

    fn breaks(&self, part: Part) -> bool {
        let slots = self.slot_count();
        let there = &self.entries[..slots.min(MOST_SLOTS)];
        let default_has = |word: usize, bits: u32| {
            let of_word = self.defaults.iter().skip(word).step_by(WORDS_PER_SLOT);
            of_word.take(slots).any(|default| default & bits != 0)
        };
        match part {
            Part::NoSlots => slots == 0,
            Part::ManySlots => slots > MOST_SLOTS,
            Part::Statuses => self.statuses != slots.min(MOST_SLOTS),
            Part::LiveWords => self.live_words != slots * WORDS_PER_SLOT,
            Part::DefaultWords => self.defaults.len() != slots * WORDS_PER_SLOT,
            Part::NoQueue => self.cells == 0,
            Part::LongQueue => self.cells > MOST_CELLS,
            Part::ResetCode => there.iter().any(|entry| !entry.reset.is_allowed()),
            Part::DlUpCode => there.iter().any(|entry| !entry.dl_up.is_allowed()),
            Part::FlrCode => there.iter().any(|entry| !entry.flr.is_allowed()),
            Part::D3hotCode => there.iter().any(|entry| !entry.d3hot.is_allowed()),
            Part::Bit15 => default_has(DEVICE_CONTROL, 1 << 15),
            Part::Bit21 => default_has(DEVICE_CONTROL, 1 << 21),
            Part::PowerState => default_has(PMCSR, 3),
        }
    }
}

#[cfg(test)]
mod tests {
    use super::*;
    use crate::generate::setups;
    use crate::random::Random;

    #[test]
    fn a_refusal_is_that_of_the_first_part_that_is_broken() {
        for number in 0..20_000 {
            let mut random = Random::for_case(21, number);
            let setup = if number % 4 == 0 { setups::good } else { setups::bad }(&mut random);
            let broken = setup.broken_parts();
            let first = PARTS.iter().find(|(part, _, _)| broken.contains(part));
            assert_eq!(setup.refusal(Fault::None), first.map(|(_, number, _)| *number));
        }
    }
}
