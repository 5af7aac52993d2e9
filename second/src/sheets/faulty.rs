//! What only a faulty reader of sheets does.

use super::encode::{claim, is_too_long, Unit};
use super::line::{self, Line};
use super::{Entries, Sheet, Taken, LAYOUT, NAMED_BEFORE, NO_SUCH_SLOT, TOO_LONG};
use crate::faults::Fault;
use crate::setup::SlotEntry;
use crate::times::Code;

/// The order in which a faulty reader asks for 40 to 43 of a line.
fn order(fault: Fault) -> Option<[u8; 4]> {
    Some(match fault {
        Fault::SheetSlotBeforeLayout => [NO_SUCH_SLOT, LAYOUT, NAMED_BEFORE, TOO_LONG],
        Fault::SheetNamedBeforeLayout => [NAMED_BEFORE, LAYOUT, NO_SUCH_SLOT, TOO_LONG],
        Fault::SheetLimitBeforeLayout => [TOO_LONG, LAYOUT, NO_SUCH_SLOT, NAMED_BEFORE],
        Fault::SheetNamedBeforeSlot => [LAYOUT, NAMED_BEFORE, NO_SUCH_SLOT, TOO_LONG],
        Fault::SheetLimitBeforeSlot => [LAYOUT, TOO_LONG, NO_SUCH_SLOT, NAMED_BEFORE],
        Fault::SheetLimitBeforeNamed => [LAYOUT, NO_SUCH_SLOT, TOO_LONG, NAMED_BEFORE],
        _ => return None,
    })
}

impl Sheet<'_> {
    /// The first number that applies, in a faulty order; none in the right one.
    pub(super) fn asked_in_another_order(&self, text: &[u8], before: &[Line]) -> Option<u8> {
        order(self.fault)?.into_iter().find(|number| self.applies(*number, text, before))
    }

    /// Whether a number applies to a line, whatever else is wrong with it.
    fn applies(&self, number: u8, text: &[u8], before: &[Line]) -> bool {
        let told = line::tell(text);
        match number {
            LAYOUT => line::read(text).is_none(),
            NO_SUCH_SLOT => told.slot.is_some_and(|slot| self.is_no_slot(slot)),
            // A slot that isn't there can't have been named, but for a reader that keeps five bits of it.
            NAMED_BEFORE => told.slot.is_some_and(|slot| self.is_named(slot % 32, before)),
            _ => told.unit.is_some_and(|unit| {
                let too_long = |time| is_too_long(claim(time, unit, self.fault), self.fault);
                told.times.into_iter().flatten().any(too_long)
            }),
        }
    }

    /// The slot that a number is taken for.
    pub(super) fn slot_meant(&self, number: u64) -> u64 {
        match self.fault {
            Fault::SheetSlotOf5Bits => number % 32,
            Fault::SheetSlotOf8Bits => number % 256,
            Fault::SheetSlotOf32Bits => number % (1 << 32),
            Fault::SheetSlotsFrom1 => number.wrapping_sub(1),
            _ => number,
        }
    }

    /// Whether an earlier sheet named the slot; in the sound model no name lasts so long.
    pub(super) fn is_named_earlier(&self, slot: u64) -> bool {
        slot < u64::from(u32::BITS) && self.named_earlier >> slot & 1 == 1
    }

    /// Bits of the slots whose names last beyond the sheet.
    pub fn names_kept(&self, taken: &Taken) -> u32 {
        let last = match self.fault {
            Fault::SheetNamesLast => true,
            Fault::SheetRefusedNamesLast => taken.number != 0,
            _ => false,
        };
        let named = taken.good.iter().filter(|_| last);
        named.fold(0, |bits, line| bits | 1 << line.slot)
    }

    /// The unit that a line's is taken for.
    pub(super) fn unit_meant(&self, unit: Unit, before: &[Line]) -> Unit {
        match (self.fault, before.first()) {
            (Fault::SheetUnitOfFirstLine, Some(first)) => first.unit,
            _ => unit,
        }
    }

    /// Codes in the order of an entry: Reset, DL Up, FLR, D3hot.
    pub(super) fn in_order(&self, codes: [Code; 4]) -> [Code; 4] {
        let [reset, dl_up, flr, d3hot] = codes;
        match self.fault {
            Fault::SheetFlrAndD3hotSwapped => [reset, dl_up, d3hot, flr],
            Fault::SheetResetAndDlUpSwapped => [dl_up, reset, flr, d3hot],
            Fault::SheetDlUpAndFlrSwapped => [reset, flr, dl_up, d3hot],
            _ => codes,
        }
    }

    /// What becomes of the slots that no line names.
    pub(super) fn leave_unnamed(&self, entries: &mut Entries, lines: &[Line]) {
        if self.fault != Fault::SheetClearsUnnamed {
            return;
        }
        for (slot, entry) in entries.iter_mut().enumerate() {
            if !lines.iter().any(|line| line.slot == slot as u64) {
                clear(entry);
            }
        }
    }

    /// Takes the whole sheet otherwise than line by line; none where the fault lies elsewhere.
    pub(super) fn take_otherwise(&self, entries: &Entries) -> Option<Taken> {
        let sound = Sheet { fault: Fault::None, ..*self };
        let mut taken = sound.take_unless_none(self.fault, entries)?;
        match self.fault {
            Fault::SheetLineFrom0 => taken.line = taken.line.saturating_sub(1),
            Fault::SheetLineAlwaysGiven if taken.number == 0 => {
                taken.line = taken.good.len() as u16;
            }
            Fault::SheetRefusedKeepsEarlier => {
                taken.entries = sound.entries_after(entries, &taken.good);
            }
            Fault::SheetRefusedClears if taken.number != 0 => {
                taken.entries.iter_mut().for_each(clear);
            }
            Fault::SheetPastSlotsCleared => {
                taken.entries.iter_mut().skip(usize::from(self.slots)).for_each(clear);
            }
            Fault::SheetEmptyRefused if self.text.is_empty() => {
                (taken.number, taken.line) = (LAYOUT, 1);
            }
            Fault::SheetOf32LinesRefused if taken.good.len() == 32 => {
                (taken.number, taken.line, taken.entries) = (LAYOUT, 32, *entries);
            }
            Fault::SheetLayoutOfAllFirst => sound.layout_of_all(&mut taken, entries),
            Fault::SheetLastBadLine => sound.last_bad_line(&mut taken),
            _ => {}
        }
        Some(taken)
    }

    /// The sound sheet, or that of a text with something left out.
    fn take_unless_none(&self, fault: Fault, entries: &Entries) -> Option<Taken> {
        let left: Vec<u8> = match fault {
            Fault::SheetEmptyLineTaken => self.without(|line| line == b"\n"),
            Fault::SheetCommentTaken => self.without(|line| line.starts_with(b"#")),
            Fault::SheetTooLongLeftOut => {
                self.without(|line| line::read(line).is_some() && self.applies(TOO_LONG, line, &[]))
            }
            Fault::SheetEndsAtZeroByte => {
                self.text.iter().copied().take_while(|byte| *byte != 0).collect()
            }
            Fault::SheetLineFrom0
            | Fault::SheetLineAlwaysGiven
            | Fault::SheetRefusedKeepsEarlier
            | Fault::SheetRefusedClears
            | Fault::SheetPastSlotsCleared
            | Fault::SheetEmptyRefused
            | Fault::SheetOf32LinesRefused
            | Fault::SheetLayoutOfAllFirst
            | Fault::SheetLastBadLine => self.text.to_vec(),
            _ => return None,
        };
        Some(Sheet { text: &left, ..*self }.take(entries))
    }

    /// The text without the lines that are left out.
    fn without(&self, left_out: impl Fn(&[u8]) -> bool) -> Vec<u8> {
        self.lines().into_iter().filter(|line| !left_out(line)).collect::<Vec<_>>().concat()
    }

    fn layout_of_all(&self, taken: &mut Taken, entries: &Entries) {
        let bad = self.lines().iter().position(|line| line::read(line).is_none());
        if let Some(index) = bad {
            (taken.number, taken.line, taken.entries) = (LAYOUT, index as u16 + 1, *entries);
        }
    }

    fn last_bad_line(&self, taken: &mut Taken) {
        if let Some((line, number)) = self.bad_lines().pop() {
            (taken.number, taken.line) = (number, line);
        }
    }
}

fn clear(entry: &mut SlotEntry) {
    [entry.reset, entry.dl_up, entry.flr, entry.d3hot] = [Code(0); 4];
}
