//! Register attributes, configuration writes and register resets.

use crate::bench::Bench;
use crate::faults::Fault;
use crate::setup::{word_at, DEVICE_CAPABILITIES, DEVICE_CONTROL, PMCSR, WORDS_PER_SLOT};

/// The four masks of one word.
#[derive(Clone, Copy, PartialEq, Eq, Debug)]
pub struct Masks {
    /// Written by software.
    pub w: u32,
    /// Cleared by writing 1.
    pub c: u32,
    /// Sticky.
    pub s: u32,
    /// Kept through FLR.
    pub k: u32,
}

const fn row(w: u32, c: u32, s: u32, k: u32) -> Masks {
    Masks { w, c, s, k }
}

const fn table() -> Table {
    let mut rows = [row(0, 0, 0, 0); WORDS_PER_SLOT];
    rows[word_at(0x04)] = row(0x0000_0547, 0xF900_0000, 0, 0);
    rows[word_at(0x0C)] = row(0x0000_00FF, 0, 0, 0);
    rows[word_at(0x10)] = row(0xFFFF_0000, 0, 0, 0);
    rows[word_at(0x3C)] = row(0x0000_00FF, 0, 0, 0);
    rows[word_at(0x44)] = row(0x0000_0103, 0x0000_8000, 0x0000_8100, 0);
    rows[word_at(0x50)] = row(0x0071_0000, 0, 0, 0);
    rows[word_at(0x54)] = row(0xFFFF_FFFC, 0, 0, 0);
    rows[word_at(0x58)] = row(0x0000_FFFF, 0, 0, 0);
    rows[word_at(0x78)] = row(0x0000_79FF, 0x000F_0000, 0, 0x0000_00E0);
    rows[word_at(0x80)] = row(0x0000_00CB, 0, 0, 0x0000_00CB);
    rows
}

/// The masks of all words.
pub type Table = [Masks; WORDS_PER_SLOT];

pub static TABLE: Table = table();

const POWER_STATE: u32 = 3;
const NO_SOFT_RESET: u32 = 1 << 3;
const INITIATE_FLR: u32 = 1 << 15;
const TRANSACTIONS_PENDING: u32 = 1 << 21;
const FLR_CAPABLE: u32 = 1 << 28;
const CACHE_LINE: usize = word_at(0x0C);
const INTERRUPT_LINE: usize = word_at(0x3C);

/// The bits of the bytes that the enables choose.
pub fn lanes(enables: u8) -> u32 {
    (0..4).filter(|byte| enables >> byte & 1 == 1).map(|byte| 0xFFu32 << (8 * byte)).sum()
}

/// The three resets that keep some bits.
#[derive(Clone, Copy, PartialEq, Eq)]
pub enum Reset {
    LinkDown,
    Flr,
    D3hot,
}

impl Bench<'_> {
    pub fn live_word(&self, slot: usize, word: usize) -> u32 {
        self.state.live[slot * WORDS_PER_SLOT + word]
    }

    fn set_live_word(&mut self, slot: usize, word: usize, value: u32) {
        self.state.live[slot * WORDS_PER_SLOT + word] = value;
    }

    /// What a read gives before the enables choose bytes.
    pub fn shown_word(&self, slot: usize, word: usize) -> u32 {
        let hidden = match (word, self.fault) {
            (DEVICE_CONTROL, Fault::Bit15Shown) => TRANSACTIONS_PENDING,
            (DEVICE_CONTROL, Fault::Bit21Shown) => INITIATE_FLR,
            (DEVICE_CONTROL, _) => INITIATE_FLR | TRANSACTIONS_PENDING,
            _ => 0,
        };
        self.live_word(slot, word) & !hidden
    }

    /// Hardware sets those mask bits that lie in C.
    pub fn hardware_sets(&mut self, slot: usize, word: usize, mask: u32) {
        let allowed = match self.fault {
            Fault::HardwareSetsAnyBit => u32::MAX,
            Fault::HardwareSetsWrittenBits => self.table[word].w | self.table[word].c,
            _ => self.table[word].c,
        };
        let kept = match self.fault {
            Fault::HardwareReplacesBits => self.live_word(slot, word) & !self.table[word].c,
            _ => self.live_word(slot, word),
        };
        self.set_live_word(slot, word, kept | mask & allowed);
    }

    /// W bits take the data, C bits are cleared where the data is 1, the rest stay.
    fn merged(&self, word: usize, old: u32, enables: u8, data: u32) -> u32 {
        let enables = if self.has(Fault::WriteIgnoresEnables) { 15 } else { enables };
        let lanes = lanes(enables);
        let mut w = self.table[word].w & lanes;
        let c = self.table[word].c & lanes;
        let asked = data & POWER_STATE;
        if word == PMCSR && enables & 1 == 1 && (asked == 1 || asked == 2) {
            match self.fault {
                Fault::PowerState12Written => {}
                Fault::PowerState12DropsWrite => return old,
                _ => w &= !POWER_STATE,
            }
        }
        if self.has(Fault::Bit15Written) && word == DEVICE_CONTROL {
            w |= INITIATE_FLR & lanes;
        }
        match self.fault {
            Fault::ReadOnlyWritten => (old & !lanes | data & lanes) & !(c & data),
            Fault::ClearBitsTakeData => old & !(w | c) | data & (w | c),
            Fault::ClearBitsStay => old & !w | data & w,
            Fault::ClearedByZero => (old & !w | data & w) & !(c & !data),
            Fault::WriteOnlySets => (old | data & w) & !(c & data),
            _ => (old & !w | data & w) & !(c & data),
        }
    }

    /// A configuration write that nothing refuses, with what follows from it.
    pub fn write_register(&mut self, slot: usize, word: usize, enables: u8, data: u32) {
        let old = self.live_word(slot, word);
        let new = self.merged(word, old, enables, data);
        let flr = word == DEVICE_CONTROL && self.asks_for_flr(slot, enables, data);
        if flr && self.has(Fault::FlrBeforeWrite) {
            self.start_flr(slot);
            let reset = self.live_word(slot, word);
            let new = self.merged(word, reset, enables, data);
            self.set_live_word(slot, word, new);
            return;
        }
        self.set_live_word(slot, word, new);
        if flr {
            self.start_flr(slot);
        }
        if word == PMCSR && self.leaves_d3hot(old, new) {
            self.start_d0(slot, new & NO_SOFT_RESET != 0);
        }
    }

    fn leaves_d3hot(&self, old: u32, new: u32) -> bool {
        let was_off = match self.fault {
            Fault::AnyPowerStateToD0 => old & POWER_STATE != 0,
            _ => old & POWER_STATE == 3,
        };
        was_off && new & POWER_STATE == 0
    }

    fn asks_for_flr(&self, slot: usize, enables: u8, data: u32) -> bool {
        let capabilities = match self.fault {
            Fault::FlrCapabilityIgnored => FLR_CAPABLE,
            Fault::FlrCapabilityFromLive => self.live_word(slot, DEVICE_CAPABILITIES),
            _ => self.setup.default_word(slot, DEVICE_CAPABILITIES),
        };
        let enabled = enables & 2 != 0 || self.has(Fault::FlrWithoutByte1);
        enabled && data & INITIATE_FLR != 0 && capabilities & FLR_CAPABLE != 0
    }

    /// The registers' part of leaving D3hot.
    pub fn reset_for_d0(&mut self, slot: usize, no_soft_reset: bool) {
        let no_soft_reset = match self.fault {
            Fault::NoSoftResetFromDefault => {
                self.setup.default_word(slot, PMCSR) & NO_SOFT_RESET != 0
            }
            Fault::NoSoftResetIgnored => false,
            Fault::NoSoftResetAlways => true,
            _ => no_soft_reset,
        };
        if !no_soft_reset {
            self.reset_slot(slot, Reset::D3hot);
        }
    }

    /// Live registers equal the defaults.
    pub fn cold_reset_registers(&mut self) {
        for index in 0..self.state.live.len() {
            let masks = self.table[index % WORDS_PER_SLOT];
            let kept = match self.fault {
                Fault::ColdResetKeepsSticky => masks.s,
                Fault::ColdResetKeepsReadOnly => !(masks.w | masks.c),
                _ => 0,
            };
            let live = self.state.live[index];
            let default = self.setup.defaults[index];
            self.state.live[index] = live & kept | default & !kept;
        }
    }

    /// Each bit that the reset reaches takes its default; others stay.
    pub fn reset_slot(&mut self, slot: usize, reset: Reset) {
        for word in 0..WORDS_PER_SLOT {
            let reached = self.reached(word, reset);
            let live = self.live_word(slot, word);
            let default = self.setup.default_word(slot, word);
            let default = if self.has(Fault::ResetToZero) { 0 } else { default };
            self.set_live_word(slot, word, live & !reached | default & reached);
        }
    }

    fn reached(&self, word: usize, reset: Reset) -> u32 {
        let Masks { w, c, s, k } = self.table[word];
        let usual = (w | c) & !s;
        match (reset, self.fault) {
            (Reset::LinkDown, Fault::LinkDownResetsSticky) => w | c,
            (Reset::LinkDown, Fault::LinkDownKeepsClearBits) => w & !s,
            (Reset::LinkDown, Fault::LinkDownResetsReadOnly) => !s,
            (Reset::LinkDown, Fault::LinkDownKeepsK) => usual & !k,
            (Reset::Flr, Fault::FlrResetsK) => usual,
            (Reset::Flr, Fault::FlrResetsSticky) => (w | c) & !k,
            (Reset::Flr, Fault::FlrKeepsInterruptLine) if word == INTERRUPT_LINE => 0,
            (Reset::Flr, Fault::FlrKeepsCacheLine) if word == CACHE_LINE => 0,
            (Reset::Flr, Fault::FlrKeepsClearBits) => w & !s & !k,
            (Reset::Flr, _) => usual & !k,
            (Reset::D3hot, Fault::D3hotResetKeepsK) => usual & !k,
            (Reset::D3hot, Fault::D3hotResetsSticky) => w | c,
            _ => usual,
        }
    }
}

#[cfg(test)]
mod tests {
    use super::*;

    #[test]
    fn table_rule_holds_for_every_row() {
        for masks in TABLE {
            assert_eq!(masks.w & masks.c, 0);
            assert_eq!((masks.s | masks.k) & !(masks.w | masks.c), 0);
            assert_eq!(masks.s & masks.k, 0);
        }
    }

    #[test]
    fn lanes_follow_enables() {
        assert_eq!(lanes(0), 0);
        assert_eq!(lanes(5), 0x00FF_00FF);
        assert_eq!(lanes(15), u32::MAX);
    }
}
