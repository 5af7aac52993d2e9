//! Names for the bytes of an operation's output.

use crate::stream::{
    image_length, Case, Operation, MOMENT_BYTES, REPLAY_BYTES, REPORT_BYTES, STATUS_BYTES,
    TAKEN_BYTES, TOTALS_BYTES,
};

pub const PORT_FIELDS: [(&str, usize); 15] = [
    ("clock", 8),
    ("moment of the last reset", 8),
    ("link", 1),
    ("owed", 1),
    ("Received", 1),
    ("Overflow", 1),
    ("DRS Received", 1),
    ("visibility", 1),
    ("FRS interrupt", 1),
    ("signalling", 1),
    ("queue start", 2),
    ("queue depth", 2),
    ("carried count", 1),
    ("carried bytes", 16),
    ("broken", 1),
];
pub const STATUS_FIELDS: [(&str, usize); 6] = [
    ("phase", 1),
    ("cause", 1),
    ("ready time", 8),
    ("FLR end", 8),
    ("set", 1),
    ("end of change", 8),
];
pub const REPLAY_FIELDS: [(&str, usize); 6] = [
    ("begun", 1),
    ("earlier stamp", 4),
    ("stamp bytes taken", 1),
    ("stamp bytes", 4),
    ("advances answered", 1),
    ("ended", 1),
];
/// Of each slot, after those of a replay image.
pub const MOMENT_FIELDS: [(&str, usize); 2] = [("made Ready", 1), ("moment", 8)];
pub const SEEN_FIELDS: [(&str, usize); 2] = [("seen", 1), ("when", 8)];
const DIFFERENCE_FIELDS: [(&str, usize); 2] =
    [("whether there is a difference", 1), ("difference", 8)];
const TOTALS_FIELDS: [(&str, usize); 7] = [
    ("number", 1),
    ("early", 4),
    ("on time", 4),
    ("late", 4),
    ("least", 8),
    ("greatest", 8),
    ("sum", 8),
];
const READING_FIELDS: [(&str, usize); 4] = [("number", 1), ("kind", 1), ("ID", 2), ("reason", 1)];
const ANSWER_FIELDS: [&str; 8] = [
    "status",
    "interrupts",
    "FRS queued",
    "FRS dropped",
    "data byte 0",
    "data byte 1",
    "data byte 2",
    "data byte 3",
];

const CODES: [&str; 4] = ["Reset", "DL Up", "FLR", "D3hot"];

/// The field at an offset, or how far past the fields it lies.
fn among(fields: &[(&'static str, usize)], offset: usize) -> Result<&'static str, usize> {
    let mut left = offset;
    for (name, length) in fields {
        if left < *length {
            return Ok(name);
        }
        left -= length;
    }
    Err(left)
}

fn image_field(case: &Case, offset: usize) -> String {
    let left = match among(&PORT_FIELDS, offset) {
        Ok(name) => return name.to_string(),
        Err(left) => left,
    };
    let setup = &case.setup;
    if left < setup.statuses * STATUS_BYTES {
        let name = among(&STATUS_FIELDS, left % STATUS_BYTES).unwrap_or("?");
        return format!("status of slot {}: {name}", left / STATUS_BYTES);
    }
    let left = left - setup.statuses * STATUS_BYTES;
    if left < setup.live_words * 4 {
        let word = left / 4;
        let (slot, place) = (word / 64, word % 64);
        return format!("live register of slot {slot}, word {place} ({:02X}h)", place * 4);
    }
    let left = left - setup.live_words * 4;
    if left < setup.cells * 4 {
        return format!("queue cell {}", left / 4);
    }
    "past the end of the image".to_string()
}

fn feed_field(case: &Case, room: usize, offset: usize) -> String {
    match offset {
        0 => "number".to_string(),
        1..=4 => "bytes consumed".to_string(),
        5..=8 => "bytes written".to_string(),
        _ if offset < 9 + room => {
            let byte = offset - 9;
            let field = ANSWER_FIELDS[byte % 8];
            format!("answer byte {} of record {} ({field})", byte % 8, byte / 8)
        }
        _ => image_field(case, offset - 9 - room),
    }
}

fn replay_field(case: &Case, room: usize, offset: usize) -> String {
    let image = 9 + room + image_length(&case.setup);
    match offset.checked_sub(image) {
        None => feed_field(case, room, offset),
        Some(left) => match among(&REPLAY_FIELDS, left) {
            Ok(name) => format!("replay: {name}"),
            Err(left) => format!("replay: {}", of_slot(&MOMENT_FIELDS, left)),
        },
    }
}

/// A field of nine bytes a slot.
fn of_slot(fields: &[(&'static str, usize)], offset: usize) -> String {
    let name = among(fields, offset % MOMENT_BYTES).unwrap_or("?");
    format!("{name} of slot {}", offset / MOMENT_BYTES)
}

fn sheet_field(offset: usize) -> String {
    match offset {
        0 => "number".to_string(),
        1 | 2 => "line".to_string(),
        _ => {
            let code = (offset - 3) / 2;
            format!("{} code of entry {}", CODES[code % 4], code / 4)
        }
    }
}

/// How many bytes an operation's output has.
pub fn output_length(case: &Case, operation: &Operation) -> usize {
    let image = image_length(&case.setup);
    match operation {
        Operation::SetUp => 1 + image,
        Operation::Feed { room, .. } => 9 + usize::from(*room) + image,
        Operation::Replay { room, .. } => 9 + usize::from(*room) + image + REPLAY_BYTES,
        Operation::Lend { .. } | Operation::LendReplay { .. } => 0,
        Operation::WriteMessage { room, .. } => 1 + usize::from(*room),
        Operation::ReadMessage(_) => READING_FIELDS.iter().map(|(_, length)| length).sum(),
        Operation::Sheet(_) => TAKEN_BYTES,
        Operation::Lateness { .. } => REPORT_BYTES,
        Operation::Totals(_) => TOTALS_BYTES,
    }
}

/// The operation and the field to which a byte of a case's output belongs.
pub fn name(case: &Case, offset: usize) -> String {
    let mut left = offset;
    for (index, operation) in case.operations.iter().enumerate() {
        let length = output_length(case, operation);
        if left < length {
            let (what, field) = match operation {
                Operation::SetUp if left == 0 => ("set-up", "number".to_string()),
                Operation::SetUp => ("set-up", image_field(case, left - 1)),
                Operation::Feed { room, .. } => {
                    ("feed", feed_field(case, usize::from(*room), left))
                }
                Operation::Replay { room, .. } => {
                    ("replay", replay_field(case, usize::from(*room), left))
                }
                Operation::Lend { .. } | Operation::LendReplay { .. } => ("lend", String::new()),
                Operation::WriteMessage { .. } if left == 0 => ("write", "number".to_string()),
                Operation::WriteMessage { .. } => ("write", format!("message byte {}", left - 1)),
                Operation::ReadMessage(_) => {
                    ("read", among(&READING_FIELDS, left).unwrap_or("?").to_string())
                }
                Operation::Sheet(_) => ("sheet", sheet_field(left)),
                Operation::Lateness { .. } => ("lateness", of_slot(&DIFFERENCE_FIELDS, left)),
                Operation::Totals(_) => {
                    ("totals", among(&TOTALS_FIELDS, left).unwrap_or("?").to_string())
                }
            };
            return format!("operation {index} ({what}), {field}");
        }
        left -= length;
    }
    "past the end of the case's output".to_string()
}
