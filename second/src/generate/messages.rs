//! Messages to be written and to be read: sound ones, damaged ones, and what is none.

use crate::faults::Fault;
use crate::messages::{self, DRS, FRS, MESSAGE_LENGTH};
use crate::random::Random;
use crate::stream::{Operation, MOST_MESSAGE};

const OTHER_KINDS: [u8; 10] = [0x00, 0x08, 0x09, 0x31, 0x33, 0x35, 0x38, 0x74, 0xB0, 0xFF];

fn id(random: &mut Random) -> u16 {
    let ids = [random.u16(), random.u16(), random.u8().into(), 0x0100];
    random.pick(&ids)
}

/// A message that is read, half the time with something in what is ignored.
pub fn sound(random: &mut Random) -> [u8; MESSAGE_LENGTH] {
    let mut bytes = [0; MESSAGE_LENGTH];
    let (kind, reason) = match random.below(3) {
        0 => (DRS, 0),
        _ => (FRS, random.below(16) as u8),
    };
    let written = messages::write(kind, id(random), reason, &mut bytes, Fault::None);
    written.expect("kind and reason fit");
    if random.chance(50) {
        for byte in [2, 3, 6, 8, 9, 13, 14] {
            bytes[byte] = random.u8();
        }
        bytes[1] = random.u8() & 0x8F;
        bytes[15] |= random.u8() & if kind == DRS { 0xFF } else { 0xF0 };
    }
    bytes
}

/// Changes something; most of it is checked.
pub fn damage(random: &mut Random, bytes: &mut [u8; MESSAGE_LENGTH]) {
    match random.below(8) {
        0 => bytes[12] ^= 1,
        1 => bytes[0] ^= 4,
        2 => bytes[1] |= 0x10 << random.below(3),
        3 => bytes[10..12].copy_from_slice(&[1, 0]),
        4 => bytes[random.below(16)] ^= 1 << random.below(8),
        5 => bytes[random.pick(&[0, 7, 10, 11, 12])] = random.u8(),
        6 => bytes[random.pick(&[0, 7, 10, 11, 12])] ^= 1 << random.below(8),
        _ => bytes.fill_with(|| random.u8()),
    }
}

/// The bytes of a message cut short, or with more after them.
fn of_another_length(random: &mut Random, bytes: &[u8]) -> Vec<u8> {
    let length = match random.below(4) {
        0 => MESSAGE_LENGTH - 1,
        1 => MESSAGE_LENGTH + 1,
        _ => random.below(MOST_MESSAGE + 1),
    };
    let same = random.chance(50);
    let more = |place: usize| if same { bytes[place % MESSAGE_LENGTH] } else { 0 };
    (0..length).map(|place| *bytes.get(place).unwrap_or(&more(place))).collect()
}

fn to_read(random: &mut Random) -> Operation {
    let mut bytes = sound(random);
    if random.chance(35) {
        damage(random, &mut bytes);
    }
    Operation::ReadMessage(match random.chance(25) {
        true => of_another_length(random, &bytes),
        false => bytes.to_vec(),
    })
}

fn kind_to_write(random: &mut Random) -> u8 {
    match random.below(20) {
        0 | 1 => random.pick(&OTHER_KINDS),
        2 => random.u8(),
        3..=9 => DRS,
        _ => FRS,
    }
}

fn reason_to_write(random: &mut Random, kind: u8) -> u8 {
    match random.below(10) {
        0 => random.pick(&[16, 17, 19, 0x31, 0x80, 0xF3, 255]),
        1 => random.u8(),
        2..=6 if kind == DRS => 0,
        _ => random.below(16) as u8,
    }
}

fn to_write(random: &mut Random) -> Operation {
    let kind = kind_to_write(random);
    let reason = reason_to_write(random, kind);
    let room = match random.below(12) {
        0 => random.pick(&[15, 17]),
        1 | 2 => random.below(MOST_MESSAGE + 1) as u8,
        _ => MESSAGE_LENGTH as u8,
    };
    Operation::WriteMessage { kind, id: id(random), reason, room }
}

/// A message to be written or to be read.
pub fn any(random: &mut Random) -> Operation {
    if random.chance(50) {
        to_write(random)
    } else {
        to_read(random)
    }
}
