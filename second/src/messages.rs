//! Readiness messages of 16 bytes: reader and writer.

use crate::faults::Fault;

pub const MESSAGE_LENGTH: usize = 16;
/// The number given for what is no readiness message.
pub const NO_MESSAGE: u8 = 19;
/// Byte 0 of either kind.
pub const DRS: u8 = 0x34;
pub const FRS: u8 = 0x30;
const MOST_REASON: u8 = 15;

#[derive(Clone, Copy, PartialEq, Eq, Debug)]
pub enum Kind {
    Drs,
    Frs,
}

impl Kind {
    /// Byte 0 of its layout.
    pub fn byte_0(self) -> u8 {
        match self {
            Kind::Drs => DRS,
            Kind::Frs => FRS,
        }
    }

    fn byte_12(self) -> u8 {
        match self {
            Kind::Drs => 0x08,
            Kind::Frs => 0x09,
        }
    }
}

#[derive(Clone, Copy, PartialEq, Eq, Debug)]
pub struct Message {
    pub kind: Kind,
    pub id: u16,
    /// 0 for a DRS.
    pub reason: u8,
}

/// What the reader gives 19 for.
#[derive(Clone, Copy, PartialEq, Eq, Debug)]
pub enum Unreadable {
    Length,
    Byte0,
    TrafficClass,
    Byte7,
    Byte10,
    Byte11,
    Byte12,
    Disagree,
}

pub const UNREADABLE: [(Unreadable, &str); 8] = [
    (Unreadable::Length, "another length"),
    (Unreadable::Byte0, "byte 0"),
    (Unreadable::TrafficClass, "byte 1 bits 6:4"),
    (Unreadable::Byte7, "byte 7"),
    (Unreadable::Byte10, "byte 10"),
    (Unreadable::Byte11, "byte 11"),
    (Unreadable::Byte12, "byte 12"),
    (Unreadable::Disagree, "bytes 0 and 12 do not agree"),
];

/// All that the reader refuses in these bytes; in another length, nothing else is looked at.
pub fn unreadable(bytes: &[u8]) -> Vec<Unreadable> {
    if bytes.len() != MESSAGE_LENGTH {
        return vec![Unreadable::Length];
    }
    let wrong = |what: Unreadable| match what {
        Unreadable::Length => false,
        Unreadable::Byte0 => !matches!(bytes[0], DRS | FRS),
        Unreadable::TrafficClass => bytes[1] & 0x70 != 0,
        Unreadable::Byte7 => bytes[7] != 0x7F,
        Unreadable::Byte10 => bytes[10] != 0,
        Unreadable::Byte11 => bytes[11] != 1,
        Unreadable::Byte12 => !matches!(bytes[12], 0x08 | 0x09),
        Unreadable::Disagree => matches!((bytes[0], bytes[12]), (DRS, 0x09) | (FRS, 0x08)),
    };
    UNREADABLE.iter().map(|(what, _)| *what).filter(|what| wrong(*what)).collect()
}

/// What the writer gives 19 for.
#[derive(Clone, Copy, PartialEq, Eq, Debug)]
pub enum Unwritable {
    Kind,
    Reason,
    DrsReason,
    Room,
}

pub const UNWRITABLE: [(Unwritable, &str); 4] = [
    (Unwritable::Kind, "another kind"),
    (Unwritable::Reason, "a reason above 15"),
    (Unwritable::DrsReason, "a DRS reason not 0"),
    (Unwritable::Room, "another room"),
];

/// All that the writer refuses in these.
pub fn unwritable(kind: u8, reason: u8, room: usize) -> Vec<Unwritable> {
    let wrong = |what: Unwritable| match what {
        Unwritable::Kind => !matches!(kind, DRS | FRS),
        Unwritable::Reason => reason > MOST_REASON,
        Unwritable::DrsReason => kind == DRS && reason != 0,
        Unwritable::Room => room != MESSAGE_LENGTH,
    };
    UNWRITABLE.iter().map(|(what, _)| *what).filter(|what| wrong(*what)).collect()
}

fn kind_of(bytes: &[u8], fault: Fault) -> Option<Kind> {
    match (bytes[0], bytes[12]) {
        (0x34, 0x08) => Some(Kind::Drs),
        (0x30, 0x09) => Some(Kind::Frs),
        (0x34, 0x09) if fault == Fault::KindsNeedNotAgree => Some(Kind::Drs),
        (0x30, 0x08) if fault == Fault::KindsNeedNotAgree => Some(Kind::Frs),
        (0x34, _) if fault == Fault::Byte12NotChecked => Some(Kind::Drs),
        (0x30, _) if fault == Fault::Byte12NotChecked => Some(Kind::Frs),
        (_, 0x08) if fault == Fault::Byte0NotChecked => Some(Kind::Drs),
        (_, 0x09) if fault == Fault::Byte0NotChecked => Some(Kind::Frs),
        _ => None,
    }
}

/// Checks that only faulty readers make.
fn needlessly_refused(bytes: &[u8], fault: Fault) -> bool {
    match fault {
        Fault::TagChecked => bytes[6] != 0,
        Fault::AttrChecked => bytes[2] & 0x30 != 0,
        Fault::Byte1AllChecked => bytes[1] != 0,
        Fault::Byte13Checked => bytes[13] != 0,
        Fault::DrsBus0Refused => bytes[0] == 0x34 && bytes[4] == 0,
        Fault::OnlyListedReasons => {
            bytes[0] == 0x30 && !matches!(bytes[15] & 15, 1 | 2 | 3 | 8 | 9)
        }
        Fault::ReasonHighBitsChecked => bytes[15] & 0xF0 != 0,
        _ => false,
    }
}

/// The bytes of a message, if there are 16.
fn of_its_length(bytes: &[u8], fault: Fault) -> Option<[u8; MESSAGE_LENGTH]> {
    let fits = match fault {
        Fault::ReaderLongTaken => bytes.len() >= MESSAGE_LENGTH,
        Fault::ReaderShortTaken => bytes.len() <= MESSAGE_LENGTH,
        _ => bytes.len() == MESSAGE_LENGTH,
    };
    let mut taken = [0; MESSAGE_LENGTH];
    for (to, from) in taken.iter_mut().zip(bytes) {
        *to = *from;
    }
    fits.then_some(taken)
}

/// Reads a message, or gives 19 for any other length or layout.
pub fn read(bytes: &[u8], fault: Fault) -> Result<Message, u8> {
    let bytes = &of_its_length(bytes, fault).ok_or(NO_MESSAGE)?;
    let kind = kind_of(bytes, fault).ok_or(NO_MESSAGE)?;
    let class_wrong = bytes[1] & 0x70 != 0 && fault != Fault::TrafficClassNotChecked;
    let code_wrong = bytes[7] != 0x7F && fault != Fault::Byte7NotChecked;
    let vendor_wrong = match fault {
        Fault::Byte10NotChecked => bytes[11] != 1,
        Fault::Byte11NotChecked => bytes[10] != 0,
        Fault::VendorLowByteFirst => bytes[10..12] != [1, 0],
        _ => bytes[10..12] != [0, 1],
    };
    if class_wrong || code_wrong || vendor_wrong || needlessly_refused(bytes, fault) {
        return Err(NO_MESSAGE);
    }
    let id = match (kind, fault) {
        (_, Fault::IdLowByteFirst) => u16::from_le_bytes([bytes[4], bytes[5]]),
        (Kind::Drs, Fault::ReaderDrsIdZero) => 0,
        _ => u16::from_be_bytes([bytes[4], bytes[5]]),
    };
    let reason = match (kind, fault) {
        (Kind::Drs, Fault::ReaderDrsReasonKept) => bytes[15] & 15,
        (Kind::Drs, _) => 0,
        (Kind::Frs, Fault::ReasonNotMasked) => bytes[15],
        (Kind::Frs, Fault::ReasonOfThreeBits) => bytes[15] & 7,
        (Kind::Frs, Fault::ReasonInHighBits) => bytes[15] >> 4,
        (Kind::Frs, _) => bytes[15] & 15,
    };
    Ok(Message { kind, id, reason })
}

/// The kind that a writer's kind byte names.
fn kind_named(byte: u8, fault: Fault) -> Option<Kind> {
    let (drs, frs) = match fault {
        Fault::WriterKindByByte12 => (0x08, 0x09),
        _ => (DRS, FRS),
    };
    match byte {
        _ if byte == drs => Some(Kind::Drs),
        _ if byte == frs => Some(Kind::Frs),
        _ if fault == Fault::WriterTakesAnyKind => Some(Kind::Frs),
        _ => None,
    }
}

fn reason_fits(kind: Kind, reason: u8, fault: Fault) -> bool {
    match (kind, fault) {
        (Kind::Drs, Fault::WriterDrsReasonWritten | Fault::WriterDrsReasonDropped) => reason <= 15,
        (Kind::Drs, _) => reason == 0,
        (Kind::Frs, Fault::WriterReasonMasked | Fault::WriterReasonWhole) => true,
        (Kind::Frs, Fault::WriterReason15Refused) => reason < MOST_REASON,
        (Kind::Frs, Fault::WriterReason16Taken) => reason <= 16,
        (Kind::Frs, Fault::WriterOnlyListedReasons) => matches!(reason, 1 | 2 | 3 | 8 | 9),
        (Kind::Frs, _) => reason <= MOST_REASON,
    }
}

fn room_fits(length: usize, fault: Fault) -> bool {
    match fault {
        Fault::WriterLongRoomTaken => length >= MESSAGE_LENGTH,
        Fault::WriterShortRoomTaken => length <= MESSAGE_LENGTH,
        _ => length == MESSAGE_LENGTH,
    }
}

fn byte_12(kind: Kind, fault: Fault) -> u8 {
    match (kind, fault) {
        (Kind::Drs, Fault::WriterByte12Swapped | Fault::WriterByte12AlwaysFrs) => 0x09,
        (Kind::Frs, Fault::WriterByte12Swapped) => 0x08,
        _ => kind.byte_12(),
    }
}

fn byte_15(kind: Kind, reason: u8, fault: Fault) -> u8 {
    match fault {
        Fault::WriterReasonMasked => reason & 15,
        Fault::WriterReasonInHighBits => reason << 4,
        Fault::WriterDrsReasonDropped if kind == Kind::Drs => 0,
        _ => reason,
    }
}

/// The 16 bytes of a message; `before` are those that stood there.
fn layout(kind: Kind, id: u16, reason: u8, before: &[u8], fault: Fault) -> [u8; MESSAGE_LENGTH] {
    let mut bytes = [0; MESSAGE_LENGTH];
    if fault == Fault::WriterLeavesOtherBytes {
        bytes[..before.len()].copy_from_slice(before);
    }
    let id = if fault == Fault::WriterDrsIdZero && kind == Kind::Drs { 0 } else { id };
    bytes[0] = match (kind, fault) {
        (Kind::Drs, Fault::WriterByte0Swapped) => FRS,
        (Kind::Frs, Fault::WriterByte0Swapped) => DRS,
        _ => kind.byte_0(),
    };
    bytes[4..6].copy_from_slice(&match fault {
        Fault::WriterIdLowByteFirst => id.to_le_bytes(),
        _ => id.to_be_bytes(),
    });
    bytes[7] = if fault == Fault::WriterByte7Zero { 0 } else { 0x7F };
    bytes[10..12].copy_from_slice(&match fault {
        Fault::WriterVendorLowByteFirst => [1, 0],
        _ => [0, 1],
    });
    bytes[12] = byte_12(kind, fault);
    bytes[15] = byte_15(kind, reason, fault);
    bytes
}

/// Writes a message of a kind by its byte 0, or gives 19 and writes nothing.
pub fn write(kind: u8, id: u16, reason: u8, room: &mut [u8], fault: Fault) -> Result<(), u8> {
    let named = kind_named(kind, fault).filter(|kind| reason_fits(*kind, reason, fault));
    let Some(kind) = named.filter(|_| room_fits(room.len(), fault)) else {
        match fault {
            Fault::WriterClearsRefusedRoom => room.fill(0),
            Fault::WriterStartsRefused => room.iter_mut().take(1).for_each(|byte| *byte = kind),
            Fault::WriterRoomGives30 if room.len() < MESSAGE_LENGTH => return Err(30),
            _ => {}
        }
        return Err(NO_MESSAGE);
    };
    let length = room.len().min(MESSAGE_LENGTH);
    let bytes = layout(kind, id, reason, &room[..length], fault);
    room[..length].copy_from_slice(&bytes[..length]);
    Ok(())
}

#[cfg(test)]
mod tests {
    use super::*;

    fn written(kind: u8, id: u16, reason: u8) -> [u8; 16] {
        let mut room = [0xEE; 16];
        write(kind, id, reason, &mut room, Fault::None).unwrap();
        room
    }

    #[test]
    fn round_trip_over_kinds_ids_and_reasons() {
        for id in (0..=0xFFFFu16).step_by(0x101).chain([1, 0x8000, 0xFFFE]) {
            let drs = read(&written(DRS, id, 0), Fault::None).unwrap();
            assert_eq!(drs, Message { kind: Kind::Drs, id, reason: 0 });
            for reason in 0..=15 {
                let frs = read(&written(FRS, id, reason), Fault::None).unwrap();
                assert_eq!(frs, Message { kind: Kind::Frs, id, reason });
            }
        }
    }

    #[test]
    fn writer_refuses_and_writes_nothing() {
        let mut room = [0xEE; 17];
        for (kind, reason, length) in [
            (8, 0, 16),
            (9, 3, 16),
            (0x31, 0, 16),
            (FRS, 16, 16),
            (DRS, 1, 16),
            (FRS, 3, 15),
            (FRS, 3, 17),
            (DRS, 0, 0),
        ] {
            assert_eq!(write(kind, 5, reason, &mut room[..length], Fault::None), Err(19));
            assert!(room.iter().all(|byte| *byte == 0xEE));
        }
    }

    #[test]
    fn reader_checks_exactly_the_listed_bits() {
        let sound = written(FRS, 0x0102, 3);
        for bit in 0..128 {
            let mut bytes = sound;
            bytes[bit / 8] ^= 1 << (bit % 8);
            let checked = match bit / 8 {
                0 | 7 | 10 | 11 | 12 => true,
                1 => (4..=6).contains(&(bit % 8)),
                _ => false,
            };
            assert_eq!(read(&bytes, Fault::None).is_err(), checked, "bit {bit}");
        }
    }

    #[test]
    fn reader_refuses_other_lengths() {
        let sound = written(DRS, 0, 0);
        assert_eq!(read(&sound[..15], Fault::None), Err(19));
        let mut long = sound.to_vec();
        long.push(0);
        assert_eq!(read(&long, Fault::None), Err(19));
    }

    #[test]
    fn tag_and_attr_are_not_checked() {
        let mut bytes = written(FRS, 7, 8);
        bytes[6] = 0xA5;
        bytes[2] = 0x30;
        bytes[1] = 0x8F;
        assert_eq!(read(&bytes, Fault::None), Ok(Message { kind: Kind::Frs, id: 7, reason: 8 }));
    }

    #[test]
    fn what_the_writer_refuses_is_listed() {
        for kind in 0..=255 {
            for reason in [0, 1, 3, 15, 16, 17, 19, 255] {
                for length in 0..=40 {
                    let mut room = [0xEE; 40];
                    let refused = write(kind, 7, reason, &mut room[..length], Fault::None).is_err();
                    assert_eq!(refused, !unwritable(kind, reason, length).is_empty());
                }
            }
        }
    }

    #[test]
    fn what_the_reader_refuses_is_listed() {
        let mut random = crate::random::Random::new(5);
        for kind in [(DRS, 0), (FRS, 9)] {
            for round in 0..4000 {
                let mut bytes = written(kind.0, round, kind.1).to_vec();
                for _ in 0..random.below(3) {
                    let place = random.pick(&[0, 1, 7, 10, 11, 12, 12]);
                    bytes[place] = random.pick(&[0, 1, 8, 9, DRS, FRS, 0x7F, 0x80, 0xFF]);
                }
                assert_eq!(read(&bytes, Fault::None).is_err(), !unreadable(&bytes).is_empty());
            }
        }
        assert_eq!(unreadable(&[0; 15]), [Unreadable::Length]);
    }
}
