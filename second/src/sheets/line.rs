//! One line of a sheet: slot number, four times, unit.

use super::encode::{Unit, UNITS};
use crate::faults::Fault;

/// What stands after each line.
pub const LINE_END: u8 = 0x0A;
pub const MOST_DIGITS: usize = 10;

/// What a line says.
#[derive(Clone, Copy, PartialEq, Eq, Debug)]
pub struct Line {
    pub slot: u64,
    /// Reset, DL Up, FLR, D3hot, in units.
    pub times: [u64; 4],
    pub unit: Unit,
}

/// A decimal number of 1 to 10 digits.
fn number(field: &[u8]) -> Option<u64> {
    if field.is_empty() || field.len() > MOST_DIGITS {
        return None;
    }
    digits(field)
}

/// The number that digits make; none with any other byte.
fn digits(field: &[u8]) -> Option<u64> {
    let mut value: u64 = 0;
    for byte in field {
        if !byte.is_ascii_digit() {
            return None;
        }
        value = value.checked_mul(10)?.checked_add(u64::from(byte - b'0'))?;
    }
    Some(value)
}

/// Reads a line with its 0Ah; none where the layout or the unit is another.
pub fn read(line: &[u8]) -> Option<Line> {
    let line = line.strip_suffix(&[LINE_END])?;
    let fields: Vec<&[u8]> = line.split(|byte| *byte == b' ').collect();
    let [slot, reset, dl_up, flr, d3hot, unit] = fields[..] else {
        return None;
    };
    Some(Line {
        slot: number(slot)?,
        times: [number(reset)?, number(dl_up)?, number(flr)?, number(d3hot)?],
        unit: Unit::named(unit)?,
    })
}

/// As much of a line as can be told whatever its layout.
pub struct Told {
    pub slot: Option<u64>,
    pub times: [Option<u64>; 4],
    pub unit: Option<Unit>,
}

/// Goes by the pieces between blanks: the first, the next four, and the first piece that is a unit in any letters.
pub fn tell(line: &[u8]) -> Told {
    let pieces: Vec<&[u8]> =
        line.split(u8::is_ascii_whitespace).filter(|piece| !piece.is_empty()).collect();
    let number_at = |place: usize| {
        let piece = pieces.get(place)?;
        digits(piece.strip_prefix(b"+").unwrap_or(piece))
    };
    let is_unit = |unit: &Unit| {
        let name = unit.name().as_bytes();
        pieces.iter().any(|piece| piece.eq_ignore_ascii_case(name))
    };
    Told {
        slot: number_at(0),
        times: [number_at(1), number_at(2), number_at(3), number_at(4)],
        unit: UNITS.into_iter().find(is_unit),
    }
}

/// The line as a faulty reader takes it: what it lets through is put right, what it refuses needlessly is spoiled.
pub fn taken(line: &[u8], fault: Fault) -> Vec<u8> {
    let mut taken = line.to_vec();
    match fault {
        Fault::SheetWithoutLastEnd if !taken.ends_with(&[LINE_END]) => taken.push(LINE_END),
        Fault::SheetCrTaken => taken.retain(|byte| *byte != b'\r'),
        Fault::SheetCapitalUnits => taken.make_ascii_lowercase(),
        Fault::SheetTabTaken => change(&mut taken, b'\t', b' '),
        Fault::SheetCommaTaken => change(&mut taken, b',', b' '),
        Fault::SheetSpaceBefore => taken = taken.trim_ascii_start().to_vec(),
        Fault::SheetSpaceAfter => taken = [taken.trim_ascii_end(), &[LINE_END]].concat(),
        Fault::SheetZeroByteTaken => taken.retain(|byte| *byte != 0),
        Fault::SheetHighBitDropped => taken.iter_mut().for_each(|byte| *byte &= 0x7F),
        _ => taken = by_fields(line, fault),
    }
    taken
}

fn change(line: &mut [u8], from: u8, to: u8) {
    line.iter_mut().filter(|byte| **byte == from).for_each(|byte| *byte = to);
}

/// The same for faults that go by the fields.
fn by_fields(line: &[u8], fault: Fault) -> Vec<u8> {
    let Some(text) = line.strip_suffix(&[LINE_END]) else {
        return line.to_vec();
    };
    let mut fields: Vec<Vec<u8>> = text.split(|byte| *byte == b' ').map(<[u8]>::to_vec).collect();
    match fault {
        Fault::SheetManySpaces => fields.retain(|field| !field.is_empty()),
        Fault::SheetMoreFields => fields.truncate(6),
        Fault::SheetUnitLeftOut if fields.len() == 5 => fields.push(b"ns".to_vec()),
        Fault::SheetTimeLeftOut if fields.len() == 5 => fields.insert(4, b"0".to_vec()),
        Fault::SheetSecondsTaken => {
            if fields.last().is_some_and(|unit| unit == b"s") {
                fields[5..].fill(b"ms".to_vec());
            }
        }
        Fault::SheetUnitByFirstLetter => {
            for unit in fields.iter_mut().skip(5) {
                let first = unit.first().copied();
                let found = UNITS.iter().find(|one| first == one.name().bytes().next());
                *unit = found.map_or(unit.clone(), |one| one.name().into());
            }
        }
        _ => fields.iter_mut().take(5).for_each(|field| spoil_number(field, fault)),
    }
    [fields.join(&b' '), vec![LINE_END]].concat()
}

/// The same for faults that go by each number.
fn spoil_number(field: &mut Vec<u8>, fault: Fault) {
    let first = field.first().copied();
    match fault {
        Fault::SheetPlusTaken if field.len() > 1 && first == Some(b'+') => drop(field.remove(0)),
        Fault::SheetMinusTaken if field.len() > 1 && first == Some(b'-') => drop(field.remove(0)),
        Fault::SheetElevenDigits => drop_zeros(field, 11),
        Fault::SheetAnyDigits => drop_zeros(field, usize::MAX),
        Fault::SheetTenDigitsRefused if field.len() == 10 => field.clear(),
        Fault::SheetLeadingZeroRefused if field.len() > 1 && first == Some(b'0') => field.clear(),
        Fault::SheetNoDigitsTaken if field.is_empty() => field.push(b'0'),
        Fault::SheetNumberToFirstOther => {
            let count = field.iter().take_while(|byte| byte.is_ascii_digit()).count();
            field.truncate(count);
        }
        _ => {}
    }
}

/// Of a number of more than 10 and at most so many digits, the last 10.
fn drop_zeros(field: &mut Vec<u8>, most: usize) {
    if field.len() > MOST_DIGITS && field.len() <= most && digits(&field[..1]).is_some() {
        field.drain(..field.len() - MOST_DIGITS);
    }
}
