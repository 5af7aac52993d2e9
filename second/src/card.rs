//! The text of a card: a set-up and its default registers, one fact a line.

use crate::setup::{Setup, SlotEntry, MOST_CELLS, MOST_SLOTS, WORDS_PER_SLOT};
use crate::times::Code;

/// What has been named so far.
struct Sheet {
    slots: Option<usize>,
    queue: Option<usize>,
    bus: Option<u8>,
    port: Option<u16>,
    entries: [Option<SlotEntry>; MOST_SLOTS],
    words: Vec<Option<u32>>,
}

/// The set-up that a text names, with memory lent to fit; none if the text is no card.
pub fn read(text: &[u8]) -> Option<Setup> {
    let mut sheet = Sheet {
        slots: None,
        queue: None,
        bus: None,
        port: None,
        entries: [None; MOST_SLOTS],
        words: vec![None; MOST_SLOTS * WORDS_PER_SLOT],
    };
    for line in text.split(|byte| *byte == b'\n') {
        sheet.enter(line)?;
    }
    sheet.setup()
}

fn is_blank(byte: &u8) -> bool {
    matches!(byte, b' ' | b'\t' | b'\r')
}

/// Names something that has not been named before.
fn name<T>(place: &mut Option<T>, value: T) -> Option<()> {
    match place.replace(value) {
        None => Some(()),
        Some(_) => None,
    }
}

/// A number of so many digits, at most 8.
fn number(field: &[u8], base: u32, least: usize, most: usize) -> Option<usize> {
    if field.len() < least || field.len() > most {
        return None;
    }
    let mut value = 0;
    for byte in field {
        value = value * base as usize + char::from(*byte).to_digit(base)? as usize;
    }
    Some(value)
}

fn code(field: &[u8]) -> Option<Code> {
    Some(Code(number(field, 16, 3, 3)? as u16))
}

impl Sheet {
    /// Enters a line; none if it is refused.
    fn enter(&mut self, line: &[u8]) -> Option<()> {
        let fact = line.split(|byte| *byte == b'#').next()?;
        let mut fields = [&fact[..0]; 13];
        let mut count = 0;
        for field in fact.split(is_blank).filter(|field| !field.is_empty()) {
            *fields.get_mut(count)? = field;
            count += 1;
        }
        match fields[..count] {
            [] => Some(()),
            [b"slots", n] => name(&mut self.slots, decimal(n, 1, MOST_SLOTS)?),
            [b"queue", n] => name(&mut self.queue, decimal(n, 1, MOST_CELLS)?),
            [b"bus", n] => name(&mut self.bus, number(n, 16, 2, 2)? as u8),
            [b"port", n] => name(&mut self.port, number(n, 16, 4, 4)? as u16),
            [b"slot", n, b"reset", reset, b"dlup", dl_up, b"flr", flr, b"d3hot", d3hot, b"frs", frs] =>
            {
                let entry = SlotEntry {
                    reset: code(reset)?,
                    dl_up: code(dl_up)?,
                    flr: code(flr)?,
                    d3hot: code(d3hot)?,
                    sends_frs: yes_no(frs)?,
                    ..SlotEntry::BLANK
                };
                let slot = self.slot(n)?;
                name(&mut self.entries[slot], entry)
            }
            [b"word", n, offset, value] => {
                let offset = number(offset, 16, 1, 8)?;
                if offset % 4 != 0 || offset >= 4 * WORDS_PER_SLOT {
                    return None;
                }
                let value = number(value, 16, 1, 8)? as u32;
                let place = self.slot(n)? * WORDS_PER_SLOT + offset / 4;
                name(&mut self.words[place], value)
            }
            _ => None,
        }
    }

    /// The number of a slot; slots must be named before.
    fn slot(&self, field: &[u8]) -> Option<usize> {
        number(field, 10, 1, 8).filter(|slot| Some(*slot) < self.slots)
    }

    fn setup(self) -> Option<Setup> {
        let slots = self.slots?;
        let words = slots * WORDS_PER_SLOT;
        Some(Setup {
            slots: slots as u8,
            statuses: slots,
            live_words: words,
            cells: self.queue?,
            bus: self.bus?,
            port_id: self.port?,
            conventional: false,
            entries: self.entries.map(|entry| entry.unwrap_or(SlotEntry::BLANK)),
            defaults: self.words[..words].iter().map(|word| word.unwrap_or(0)).collect(),
        })
    }
}

/// A decimal number from low to high.
fn decimal(field: &[u8], low: usize, high: usize) -> Option<usize> {
    number(field, 10, 1, 8).filter(|n| (low..=high).contains(n))
}

fn yes_no(field: &[u8]) -> Option<bool> {
    match field {
        b"yes" => Some(true),
        b"no" => Some(false),
        _ => None,
    }
}

#[cfg(test)]
mod tests {
    use super::*;

    const FRONT: &str = "slots 2\nqueue 3\nbus 0a\nport 00Ff\n";

    fn with(lines: &str) -> Option<Setup> {
        read(format!("{FRONT}{lines}").as_bytes())
    }

    #[test]
    fn a_card_is_read() {
        let setup =
            with("slot 1 reset 001 dlup 00A flr A1E d3hot FFF frs yes # slow\r\nword 1 78 1f")
                .unwrap();
        assert_eq!((setup.slots, setup.cells, setup.bus, setup.port_id), (2, 3, 10, 255));
        assert_eq!(setup.entries[0], SlotEntry::BLANK);
        assert_eq!(setup.entries[1].codes(), [Code(1), Code(10), Code(0xA1E), Code(0xFFF)]);
        assert!(setup.entries[1].sends_frs);
        assert_eq!(setup.default_word(1, 30), 0x1F);
    }

    #[test]
    fn comments_and_blanks_are_free() {
        assert!(with("").is_some());
        assert!(with("# word\n\t \r\n  word\t0 0 0#x").is_some());
    }

    #[test]
    fn other_texts_are_refused() {
        for line in [
            "slots 2",
            "queue",
            "word 2 0 0",
            "word 0 2 0",
            "word 0 100 0",
            "word 0 0 123456789",
            "word 0 0 0 0",
            "word 0 0 0\nword 00 00 1",
            "Word 0 0 0",
            "slot 0 reset 01 dlup 000 flr 000 d3hot 000 frs no",
            "slot 0 reset 001 dlup 000 flr 000 d3hot 000 frs maybe",
            "slot 0 reset 001 dlup 000 flr 000 d3hot 000 frs no yes",
        ] {
            assert!(with(line).is_none(), "{line}");
        }
        assert!(read(b"slots 33\nqueue 1\nbus 00\nport 0000").is_none());
        assert!(read(b"slots 0\nqueue 1\nbus 00\nport 0000").is_none());
        assert!(read(b"slots 1\nqueue 4096\nbus 00\nport 0000").is_none());
        assert!(read(b"slots 1\nqueue 1\nbus 00").is_none());
        assert!(read(b"word 0 0 0\nslots 1\nqueue 1\nbus 00\nport 0000").is_none());
    }
}
