//! Single trace records, chosen with an eye on the state of the bench.

use crate::bench::Bench;
use crate::generate::messages;
use crate::random::Random;
use crate::records::*;
use crate::setup::{DEVICE_CONTROL, PMCSR};
use crate::state::{Cause, Status};
use crate::times::LAST_MOMENT;

/// Words with attributes, and those next to them.
const WORDS: [u8; 14] = [0, 1, 3, 4, 15, 17, 20, 21, 22, 29, 30, 31, 32, 63];

pub fn advance(ns: u32) -> Vec<u8> {
    [&[ADVANCE], &ns.to_le_bytes()[..]].concat()
}

pub fn read(slot: u8, word: u8, enables: u8) -> Vec<u8> {
    vec![READ, slot, word, enables]
}

pub fn write(slot: u8, word: usize, enables: u8, data: u32) -> Vec<u8> {
    [&[WRITE, slot, word as u8, enables], &data.to_le_bytes()[..]].concat()
}

/// Moments that matter: ready times, FLR ends, the clock's last moment.
pub fn moments(bench: &Bench) -> Vec<u64> {
    let mut moments = vec![LAST_MOMENT.0];
    for status in &bench.state.statuses {
        if let Status::Pending { cause, ready } = status {
            moments.push(ready.0);
            if let Cause::Flr { end } = cause {
                moments.push(end.0);
            }
        }
    }
    moments
}

/// An advance to a moment that matters, or just before or after it.
fn advance_near(random: &mut Random, bench: &Bench) -> Vec<u8> {
    let moment = random.pick(&moments(bench));
    let distance = moment.saturating_sub(bench.state.port.clock.0);
    let near = distance + random.pick(&[0, 0, 0, 1, 2]);
    let near = near.saturating_sub(random.pick(&[0, 0, 1]));
    advance(u32::try_from(near).unwrap_or(u32::MAX))
}

fn any_advance(random: &mut Random, bench: &Bench) -> Vec<u8> {
    match random.below(10) {
        0 => advance(random.pick(&[0, 1, 2])),
        1 => advance(random.below(2000) as u32),
        2 => advance(random.u32()),
        3 => advance(random.pick(&[100_000_000, 1_006_632_960, u32::MAX])),
        _ => advance_near(random, bench),
    }
}

fn slot(random: &mut Random, bench: &Bench) -> u8 {
    let slots = bench.setup.slots;
    match random.below(100) {
        0..=2 => slots,
        3 => 255,
        4 => random.u8(),
        _ => random.below(usize::from(slots).max(1)) as u8,
    }
}

fn word(random: &mut Random) -> u8 {
    match random.below(100) {
        0..=3 => 64,
        4 => random.u8(),
        5..=9 => random.below(64) as u8,
        _ => random.pick(&WORDS),
    }
}

fn enables(random: &mut Random) -> u8 {
    match random.below(20) {
        0 => random.pick(&[16, 19, 31, 255]),
        1..=9 => 15,
        _ => random.below(16) as u8,
    }
}

fn any_read(random: &mut Random, bench: &Bench) -> Vec<u8> {
    let word = if random.chance(40) { 0 } else { word(random) };
    let enables = if random.chance(20) { 3 } else { enables(random) };
    read(slot(random, bench), word, enables)
}

/// A write to PMCSR, often from PowerState 3 to 0.
fn power_write(random: &mut Random, bench: &Bench, slot: u8) -> Vec<u8> {
    let in_d3hot = usize::from(slot) < bench.setup.slot_count()
        && bench.live_word(usize::from(slot), PMCSR) & 3 == 3;
    let state = match in_d3hot {
        true if random.chance(70) => 0,
        false if random.chance(60) => 3,
        _ => random.below(4) as u32,
    };
    let data = random.u32() & !3 | state;
    let enables = if random.chance(80) { 15 } else { enables(random) };
    write(slot, PMCSR, enables, data)
}

fn flr_write(random: &mut Random, slot: u8) -> Vec<u8> {
    let data = random.u32() | 0x8000;
    let enables = random.pick(&[2, 2, 15, 15, 3, 1, 13, 6]);
    write(slot, DEVICE_CONTROL, enables, data)
}

/// A write that starts an FLR or leaves D3hot where it can.
pub fn reset_write(random: &mut Random, bench: &Bench, slot: u8) -> Vec<u8> {
    if random.chance(50) {
        flr_write(random, slot)
    } else {
        power_write(random, bench, slot)
    }
}

fn any_write(random: &mut Random, bench: &Bench) -> Vec<u8> {
    let slot = slot(random, bench);
    match random.below(10) {
        0..=2 => flr_write(random, slot),
        3..=5 => power_write(random, bench, slot),
        _ => {
            let choices = [0, u32::MAX, random.u32(), random.u32()];
            let data = random.pick(&choices);
            let word = usize::from(word(random));
            write(slot, word, enables(random), data)
        }
    }
}

fn any_message(random: &mut Random) -> Vec<u8> {
    let mut bytes = messages::sound(random);
    if random.chance(25) {
        messages::damage(random, &mut bytes);
    }
    [&[MESSAGE], &bytes[..]].concat()
}

fn control(random: &mut Random) -> Vec<u8> {
    let bits = match random.below(12) {
        0 => random.u8(),
        1 => 12 + random.below(4) as u8,
        2 => random.pick(&[16, 32, 128, 255]),
        _ => random.below(12) as u8,
    };
    vec![CONTROL, bits]
}

fn clear(random: &mut Random) -> Vec<u8> {
    let bits = if random.chance(70) { random.below(8) as u8 } else { random.u8() };
    vec![CLEAR_STATUS, bits]
}

fn hardware(random: &mut Random, bench: &Bench) -> Vec<u8> {
    let word = if random.chance(70) { random.pick(&[1, 17, 30]) } else { word(random) };
    let masks = [u32::MAX, random.u32(), random.u32(), 0];
    let mask = random.pick(&masks);
    let front = [HARDWARE_SETS, slot(random, bench), word];
    [&front[..], &mask.to_le_bytes()[..]].concat()
}

/// Weights of kinds 01 to 0D with the link up, and with it down.
const UP: [usize; 13] = [22, 14, 22, 14, 1, 2, 1, 5, 6, 5, 5, 6, 3];
const DOWN: [usize; 13] = [6, 5, 4, 5, 60, 2, 2, 2, 2, 2, 8, 2, 2];

/// Any record, fitting the state more often than not.
pub fn any(random: &mut Random, bench: &Bench) -> Vec<u8> {
    let weights = if bench.state.port.link { &UP } else { &DOWN };
    match random.weighted(weights) as u8 + 1 {
        ADVANCE => any_advance(random, bench),
        READ => any_read(random, bench),
        WRITE => any_write(random, bench),
        MESSAGE => any_message(random),
        CLEAR_STATUS => clear(random),
        CONTROL => control(random),
        HARDWARE_SETS => hardware(random, bench),
        kind => vec![kind],
    }
}

/// Any record but an advance, fitting the state more often than not.
pub fn any_but_advance(random: &mut Random, bench: &Bench) -> Vec<u8> {
    loop {
        let record = any(random, bench);
        if record[0] != ADVANCE {
            return record;
        }
    }
}

/// Any record, whatever the state.
pub fn plain(random: &mut Random) -> Vec<u8> {
    match random.below(7) {
        0 => advance(random.u32()),
        1 => read(0, random.pick(&WORDS), random.below(16) as u8),
        2 => write(0, usize::from(random.pick(&WORDS)), random.below(16) as u8, random.u32()),
        3 => any_message(random),
        4 => clear(random),
        5 => control(random),
        _ => [&[HARDWARE_SETS, 0, random.pick(&WORDS)], &random.u32().to_le_bytes()[..]].concat(),
    }
}

/// A kind that no record has.
pub fn unknown_kind(random: &mut Random) -> u8 {
    random.pick(&[0x00, 0x0E, 0x0F, 0x10, 0x7F, 0x81, 0xFF])
}
