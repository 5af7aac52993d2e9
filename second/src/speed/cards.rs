//! The cards that the benchmark's traces run on, as texts.

use std::fmt::Write;

/// What a card has beside its slots.
pub struct Front {
    pub slots: u8,
    pub queue: u16,
}

/// The four codes of a slot: Reset, DL Up, FLR, D3hot.
type Codes = [u16; 4];

/// Times of some microseconds, another for each slot, not in order of slots.
pub fn short(slot: u8) -> Codes {
    let place = u16::from(slot) * 11 % 32;
    [0x001, 0x240 + place * 8, 0x280 + place * 8, 0x220 + place * 8]
}

/// DL Up Times of a second, so that a slot stays Pending throughout.
pub fn slow_start(_: u8) -> Codes {
    [0x001, 0xA1E, 0x280, 0x220]
}

/// A card whose slots have these codes, send FRS, and are capable of FLR; every fourth has No_Soft_Reset.
pub fn card(front: &Front, codes: fn(u8) -> Codes) -> String {
    let Front { slots, queue } = front;
    let mut text = format!("slots {slots}\nqueue {queue}\nbus 01\nport 0008\n");
    for slot in 0..*slots {
        let [reset, dl_up, flr, d3hot] = codes(slot);
        let power = if slot % 4 == 3 { 8 } else { 0 };
        let lines = [
            format!("slot {slot} reset {reset:03X} dlup {dl_up:03X} flr {flr:03X} d3hot {d3hot:03X} frs yes"),
            format!("word {slot} 00 5678{slot:02X}34"),
            format!("word {slot} 0C 00000010"),
            format!("word {slot} 44 {power:08X}"),
            format!("word {slot} 74 10000000"),
            format!("word {slot} 78 00002810"),
            format!("word {slot} 80 00000040"),
        ];
        for line in lines {
            writeln!(text, "{line}").expect("a String takes all");
        }
    }
    text
}
