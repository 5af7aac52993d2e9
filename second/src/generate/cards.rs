//! Card files: a set-up as text, with blanks, comments, digits and lines as the format leaves them free.

use crate::random::Random;
use crate::setup::{Setup, SlotEntry, MOST_CELLS, MOST_SLOTS, WORDS_PER_SLOT};
use crate::times::{Code, GREATEST_CODE};

/// The greatest code that a card can name.
const MOST_CODE: u16 = 0xFFF;
/// Codes that a card can name and a set-up may not hold; some have a small time.
const HIGH_CODES: [u16; 8] = [0xA1F, 0xA20, 0xBFF, 0xC00, 0xC01, 0xE00, 0xFFE, MOST_CODE];

/// What a card can name: codes and default words are as the rules want them, or any.
pub fn setup(random: &mut Random) -> Setup {
    let one_in_three = 1 + random.below(MOST_SLOTS);
    let slots = random.pick(&[1, MOST_SLOTS, one_in_three, 1 + one_in_three % 4]);
    let mut entries = [SlotEntry::BLANK; MOST_SLOTS];
    let high = random.pick(&[0, 0, 10, 50]);
    for entry in &mut entries[..slots] {
        *entry = self::entry(random, high);
    }
    let any_queue = 1 + random.below(MOST_CELLS);
    Setup {
        slots: slots as u8,
        statuses: slots,
        live_words: slots * WORDS_PER_SLOT,
        cells: random.pick(&[1, 2, 16, MOST_CELLS, any_queue]),
        bus: random.u8(),
        port_id: random.u16(),
        conventional: false,
        entries,
        defaults: defaults(random, slots),
    }
}

/// A code, in so many of a hundred above A1Eh.
fn code(random: &mut Random, high: usize) -> Code {
    let most = usize::from(GREATEST_CODE.0);
    if !random.chance(high) {
        return Code(random.below(most + 1) as u16);
    }
    let (any, edge) = (random.below(usize::from(MOST_CODE) - most), random.pick(&HIGH_CODES));
    Code(random.pick(&[edge, (most + 1 + any) as u16]))
}

fn entry(random: &mut Random, high: usize) -> SlotEntry {
    if random.chance(20) {
        return SlotEntry::BLANK;
    }
    let mut code = || self::code(random, high);
    let (reset, dl_up, flr, d3hot) = (code(), code(), code(), code());
    SlotEntry { reset, dl_up, flr, d3hot, sends_frs: random.chance(50), ..SlotEntry::BLANK }
}

fn defaults(random: &mut Random, slots: usize) -> Vec<u32> {
    let (allowed, percent) = (random.chance(70), random.pick(&[0, 10, 60, 100]));
    let mut words = vec![0; slots * WORDS_PER_SLOT];
    for (place, word) in words.iter_mut().enumerate() {
        if random.chance(percent) {
            let any = random.u32();
            *word = random.pick(&[any, any & 0xFF, 1, u32::MAX]);
        }
        match place % WORDS_PER_SLOT * 4 {
            0x44 if allowed => *word &= !3,
            0x78 if allowed => *word &= !(1 << 15 | 1 << 21),
            _ => {}
        }
    }
    words
}

/// How a card is written.
struct Hand<'a> {
    random: &'a mut Random,
    /// Plain: one space between fields, 0Ah after each line.
    plain: bool,
    text: Vec<u8>,
}

impl Hand<'_> {
    fn blanks(&mut self, least: usize) {
        let more = if self.plain { 0 } else { self.random.pick(&[0, 0, 0, 1, 3]) };
        for _ in 0..least + more {
            let blank = if self.plain { b' ' } else { self.random.pick(b"    \t") };
            self.text.push(blank);
        }
    }

    /// A line of fields, perhaps with a comment, and lines without a fact after it.
    fn line(&mut self, fields: &[String]) {
        self.blanks(0);
        for (place, field) in fields.iter().enumerate() {
            self.blanks(usize::from(place > 0));
            self.text.extend(field.as_bytes());
        }
        self.blanks(0);
        if !self.plain && self.random.chance(10) {
            self.text.extend(self.random.pick(&["#", "# word 0 0 0", "#slow # and more"]).bytes());
        }
        let ends = ["\n", "\n", "\n", "\n", "\r\n", "\n\n", "\n \t\n", "\n# slots 3\n", "\n#\n"];
        let end = if self.plain { "\n" } else { self.random.pick(&ends) };
        self.text.extend(end.bytes());
    }

    /// A decimal number, perhaps with leading zeros.
    fn decimal(&mut self, number: usize) -> String {
        let width = if self.plain { 1 } else { self.random.pick(&[1, 1, 1, 2, 8]) };
        format!("{number:0width$}")
    }

    /// A number of so many hexadecimal digits, in either letters.
    fn hexadecimal(&mut self, number: u32, width: usize) -> String {
        match self.random.chance(50) {
            true => format!("{number:0width$X}"),
            false => format!("{number:0width$x}"),
        }
    }

    /// The same with as many digits as there may be.
    fn word(&mut self, number: u32) -> String {
        let width = if self.plain { 8 } else { self.random.pick(&[1, 2, 8]) };
        self.hexadecimal(number, width)
    }
}

fn fields<const N: usize>(fields: [&str; N]) -> Vec<String> {
    fields.map(String::from).to_vec()
}

/// The lines of slots and words, in any order; what is 0 is left out now and then.
fn facts(hand: &mut Hand, setup: &Setup) -> Vec<Vec<String>> {
    let mut facts = Vec::new();
    for (slot, entry) in setup.entries[..setup.slot_count()].iter().enumerate() {
        if *entry != SlotEntry::BLANK || hand.random.chance(50) {
            let codes = entry.codes().map(|code| hand.hexadecimal(code.0.into(), 3));
            let [reset, dl_up, flr, d3hot] = &codes;
            let sends = if entry.sends_frs { "yes" } else { "no" };
            let slot = hand.decimal(slot);
            facts.push(fields([
                "slot", &slot, "reset", reset, "dlup", dl_up, "flr", flr, "d3hot", d3hot, "frs",
                sends,
            ]));
        }
    }
    for (place, word) in setup.defaults.iter().enumerate() {
        if *word != 0 || hand.random.chance(3) {
            let slot = hand.decimal(place / WORDS_PER_SLOT);
            let offset = hand.word((place % WORDS_PER_SLOT * 4) as u32);
            facts.push(fields(["word", &slot, &offset, &hand.word(*word)]));
        }
    }
    if !hand.plain {
        for place in (1..facts.len()).rev() {
            facts.swap(place, hand.random.below(place + 1));
        }
    }
    facts
}

/// The text of a card that names this set-up.
pub fn text(random: &mut Random, setup: &Setup) -> Vec<u8> {
    let plain = random.chance(30);
    let mut hand = Hand { random, plain, text: Vec::new() };
    let mut front = [
        ["slots".to_string(), hand.decimal(setup.slot_count())],
        ["queue".to_string(), hand.decimal(setup.cells)],
        ["bus".to_string(), hand.hexadecimal(setup.bus.into(), 2)],
        ["port".to_string(), hand.hexadecimal(setup.port_id.into(), 4)],
    ];
    let turned = if plain { 0 } else { hand.random.below(4) };
    front.rotate_left(turned);
    for line in &front {
        hand.line(line);
    }
    for line in facts(&mut hand, setup) {
        hand.line(&line);
    }
    let open = !plain && hand.random.chance(20);
    let mut text = hand.text;
    if open && text.ends_with(b"\n") {
        text.pop();
    }
    text
}

#[cfg(test)]
mod tests {
    use super::*;
    use crate::card;

    #[test]
    fn a_card_reads_back() {
        for number in 0..2000 {
            let mut random = Random::for_case(5, number);
            let setup = setup(&mut random);
            let text = text(&mut random, &setup);
            assert_eq!(card::read(&text), Some(setup), "case {number}");
        }
    }
}
