//! Time sheets: text that names the four times of slots, turned into their codes.

mod encode;
mod faulty;
mod line;
mod order;
pub mod reached;
#[cfg(test)]
mod tests;

pub use encode::{codes_of, nanoseconds, Unit, UNITS};
pub use line::{tell, Line, Told, LINE_END, MOST_DIGITS};

use crate::faults::Fault;
use crate::setup::{SlotEntry, MOST_SLOTS};
use crate::times::Nanos;
use encode::{claim, encode_with, is_too_long};

pub const LAYOUT: u8 = 40;
pub const NO_SUCH_SLOT: u8 = 41;
pub const NAMED_BEFORE: u8 = 42;
pub const TOO_LONG: u8 = 43;

type Entries = [SlotEntry; MOST_SLOTS];

/// A sheet for a set-up of so many slots.
pub struct Sheet<'a> {
    pub text: &'a [u8],
    pub slots: u8,
    pub fault: Fault,
    /// Bits of slots that earlier sheets named, which count with a planted fault alone.
    pub named_earlier: u32,
}

/// What came of a sheet.
#[derive(Clone, PartialEq, Eq, Debug)]
pub struct Taken {
    /// 0, or that of the refusal.
    pub number: u8,
    /// That of the refusal, counted from 1; 0 with number 0.
    pub line: u16,
    pub entries: Entries,
    /// The lines before the one that is refused; all with number 0.
    pub good: Vec<Line>,
}

impl<'a> Sheet<'a> {
    pub fn new(text: &'a [u8], slots: u8) -> Sheet<'a> {
        Sheet { text, slots, fault: Fault::None, named_earlier: 0 }
    }

    /// The lines, each with its 0Ah; the last may lack it.
    pub fn lines(&self) -> Vec<&'a [u8]> {
        self.text.split_inclusive(|byte| *byte == LINE_END).collect()
    }

    /// Takes the sheet line by line; the first that is bad refuses the whole of it.
    pub fn take(&self, entries: &Entries) -> Taken {
        if let Some(taken) = self.take_otherwise(entries) {
            return taken;
        }
        let mut good: Vec<Line> = Vec::new();
        for (index, text) in self.lines().into_iter().enumerate() {
            match self.read_line(text, &good) {
                Ok(line) => good.push(line),
                Err(number) => {
                    let line = index as u16 + 1;
                    return Taken { number, line, entries: *entries, good };
                }
            }
        }
        Taken { number: 0, line: 0, entries: self.entries_after(entries, &good), good }
    }

    /// Every bad line and its number, each as if the bad ones before it weren't there.
    pub fn bad_lines(&self) -> Vec<(u16, u8)> {
        let (mut good, mut bad) = (Vec::new(), Vec::new());
        for (index, text) in self.lines().into_iter().enumerate() {
            match self.read_line(text, &good) {
                Ok(line) => good.push(line),
                Err(number) => bad.push((index as u16 + 1, number)),
            }
        }
        bad
    }

    /// Reads a line that comes after good ones, or gives the first of 40 to 43 that applies to it.
    fn read_line(&self, text: &[u8], before: &[Line]) -> Result<Line, u8> {
        if let Some(number) = self.asked_in_another_order(text, before) {
            return Err(number);
        }
        let mut line = line::read(&line::taken(text, self.fault)).ok_or(LAYOUT)?;
        line.slot = self.slot_meant(line.slot);
        line.unit = self.unit_meant(line.unit, before);
        if self.is_no_slot(line.slot) {
            Err(NO_SUCH_SLOT)
        } else if self.is_named(line.slot, before) {
            Err(NAMED_BEFORE)
        } else if self.is_too_long(&line) {
            Err(TOO_LONG)
        } else {
            Ok(line)
        }
    }

    /// Not below the set-up's count, or not below 32.
    fn is_no_slot(&self, slot: u64) -> bool {
        let (slots, most) = (u64::from(self.slots), MOST_SLOTS as u64);
        match self.fault {
            Fault::SheetSlotBelow32Taken => slot >= most,
            Fault::SheetSlotAtCountTaken => slot > slots || slot >= most,
            Fault::SheetSlotAbove31Taken => slot >= slots,
            _ => slot >= slots || slot >= most,
        }
    }

    /// Whether an earlier line names the slot.
    fn is_named(&self, slot: u64, before: &[Line]) -> bool {
        let looked_at = match self.fault {
            Fault::SheetNamedInLineBefore => &before[before.len().saturating_sub(1)..],
            Fault::SheetNamedInFirstLine => &before[..before.len().min(1)],
            Fault::SheetNamedTwiceTaken => &[],
            Fault::SheetSlot31Forgotten if slot == 31 => &[],
            _ => before,
        };
        looked_at.iter().any(|earlier| earlier.slot == slot) || self.is_named_earlier(slot)
    }

    /// Whether a time of the line is above 1,006,632,960 ns.
    fn is_too_long(&self, line: &Line) -> bool {
        let looked_at = match self.fault {
            Fault::SheetResetNotLimited => &line.times[1..],
            Fault::SheetD3hotNotLimited => &line.times[..3],
            _ => &line.times[..],
        };
        looked_at.iter().any(|time| {
            let claim = match self.fault {
                Fault::SheetLimitWithoutUnit => Some(Nanos(*time)),
                _ => claim(*time, line.unit, self.fault),
            };
            is_too_long(claim, self.fault)
        })
    }

    /// The entries with the codes of these lines; a slot that is not named keeps its own.
    fn entries_after(&self, entries: &Entries, lines: &[Line]) -> Entries {
        let mut after = *entries;
        for line in lines {
            let codes = line.times.map(|time| {
                let claim = claim(time, line.unit, self.fault).expect("43 was not given");
                encode_with(claim, self.fault)
            });
            let Some(entry) = after.get_mut(line.slot as usize) else {
                continue;
            };
            [entry.reset, entry.dl_up, entry.flr, entry.d3hot] = self.in_order(codes);
            entry.sends_frs &= self.fault != Fault::SheetClearsSendsFrs;
        }
        self.leave_unnamed(&mut after, lines);
        after
    }
}
