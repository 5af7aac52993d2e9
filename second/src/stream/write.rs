//! Writing cases and state images.

use super::noise::Noise;
use super::{Case, Operation};
use crate::landed::{LANDED, NO_PARENT};
use crate::lateness::{Difference, Differences, Seen, Totals, OUTSIDE};
use crate::replay::Replay;
use crate::setup::{Setup, SlotEntry};
use crate::sheets::Taken;
use crate::state::{Cause, Port, State, Status, MOST_CARRIED};
use crate::times::Nanos;

fn put_words(words: &[u32], out: &mut Vec<u8>) {
    out.reserve(words.len() * 4);
    for word in words {
        out.extend_from_slice(&word.to_le_bytes());
    }
}

fn put_codes(entry: &SlotEntry, out: &mut Vec<u8>) {
    for code in entry.codes() {
        out.extend(code.0.to_le_bytes());
    }
}

fn put_entry(entry: &SlotEntry, out: &mut Vec<u8>) {
    put_codes(entry, out);
    out.push(u8::from(entry.sends_frs));
    out.push(entry.edition);
    out.extend(entry.v.0.to_le_bytes());
    out.push(entry.parent.unwrap_or(NO_PARENT));
}

/// Writes the front of a case, up to its operations.
fn put_setup(setup: &Setup, out: &mut Vec<u8>) {
    out.push(setup.slots);
    out.push(setup.statuses as u8);
    for length in [setup.live_words, setup.defaults.len(), setup.cells] {
        out.extend((length as u16).to_le_bytes());
    }
    out.push(setup.bus);
    out.extend(setup.port_id.to_le_bytes());
    out.push(u8::from(setup.conventional));
    for entry in &setup.entries {
        put_entry(entry, out);
    }
    put_words(&setup.defaults, out);
}

fn put_operation(operation: &Operation, out: &mut Vec<u8>) {
    match operation {
        Operation::SetUp => out.push(0x01),
        Operation::Feed { room, input } => put_call(0x02, *room, input, out),
        Operation::Lend { state, noise } => {
            out.push(0x03);
            put_whole_image(state, &state.port.carried, &mut Noise::new(*noise), out);
        }
        Operation::WriteMessage { kind, id, reason, room } => {
            out.extend([0x0D, *kind]);
            out.extend(id.to_le_bytes());
            out.extend([*reason, *room]);
        }
        Operation::ReadMessage(bytes) => {
            out.extend([0x0E, bytes.len() as u8]);
            out.extend(bytes);
        }
        Operation::Replay { room, input } => put_call(0x06, *room, input, out),
        Operation::LendReplay { replay, noise } => {
            out.push(0x07);
            put_replay_with(replay, &mut Noise::new(*noise), out);
        }
        Operation::Lateness { seen, noise } => put_seen(seen, &mut Noise::new(*noise), out),
        Operation::Totals(list) => put_list(list, out),
        Operation::Sheet(text) => {
            out.push(0x04);
            out.extend((text.len() as u16).to_le_bytes());
            out.extend(text);
        }
    }
}

/// Writes a feed or a replay.
fn put_call(operation: u8, room: u16, input: &[u8], out: &mut Vec<u8>) {
    out.push(operation);
    out.extend(room.to_le_bytes());
    out.extend((input.len() as u16).to_le_bytes());
    out.extend(input);
}

/// Writes a replay image.
pub fn put_replay(replay: &Replay, out: &mut Vec<u8>) {
    put_replay_with(replay, &mut Noise::new(0), out);
}

/// A replay state holds 0 past its count of stamp bytes.
fn put_replay_with(replay: &Replay, noise: &mut Noise, out: &mut Vec<u8>) {
    out.push(u8::from(replay.earlier.is_some()));
    let earlier = replay.earlier.map_or_else(|| noise.stamp(), |stamp| stamp.0);
    out.extend(earlier.to_le_bytes());
    out.push(replay.taken);
    for (place, byte) in replay.bytes.iter().enumerate() {
        let there = place < usize::from(replay.taken);
        out.push(if there { *byte } else { *byte | noise.byte() });
    }
    out.extend([replay.answered, replay.ended]);
    if LANDED.lateness {
        replay.moments.iter().for_each(|moment| put_time(*moment, noise, out));
    }
}

/// Whether a time is there, and the time.
fn put_time(time: Option<Nanos>, noise: &mut Noise, out: &mut Vec<u8>) {
    out.push(u8::from(time.is_some()));
    let when = time.map_or_else(|| noise.time(), |time| time.0);
    out.extend(when.to_le_bytes());
}

fn put_seen(seen: &Seen, noise: &mut Noise, out: &mut Vec<u8>) {
    out.push(0x08);
    seen.iter().for_each(|time| put_time(*time, noise, out));
}

fn put_list(list: &[i64], out: &mut Vec<u8>) {
    out.push(0x09);
    out.extend((list.len() as u16).to_le_bytes());
    list.iter().for_each(|one| out.extend(one.to_le_bytes()));
}

/// Writes what came of a report by slot.
pub fn put_differences(differences: &Differences, out: &mut Vec<u8>) {
    for difference in differences {
        let (what, difference) = match difference {
            Difference::None => (0, 0),
            Difference::Of(difference) => (1, *difference),
            Difference::Outside => (OUTSIDE, 0),
        };
        out.push(what);
        out.extend(i64::to_le_bytes(difference));
    }
}

/// Writes what a list comes to.
pub fn put_totals(totals: &Totals, out: &mut Vec<u8>) {
    let Totals { number, early, on_time, late, least, greatest, sum } = *totals;
    out.push(number);
    out.extend([early, on_time, late].map(u32::to_le_bytes).concat());
    out.extend([least, greatest, sum].map(i64::to_le_bytes).concat());
}

/// Writes what came of a sheet: number, line, and the four codes of each entry.
pub fn put_taken(taken: &Taken, out: &mut Vec<u8>) {
    out.push(taken.number);
    out.extend(taken.line.to_le_bytes());
    for entry in &taken.entries {
        put_codes(entry, out);
    }
}

/// Writes a whole case.
pub fn put_case(case: &Case, out: &mut Vec<u8>) {
    put_setup(&case.setup, out);
    for operation in &case.operations {
        put_operation(operation, out);
    }
    out.push(0);
}

/// Writes a state image, carried bytes past the count as 0.
pub fn put_image(state: &State, out: &mut Vec<u8>) {
    let mut carried = [0; MOST_CARRIED];
    let count = usize::from(state.port.carried_count).min(MOST_CARRIED);
    carried[..count].copy_from_slice(&state.port.carried[..count]);
    put_image_with(state, &carried, out);
}

/// Writes a state image with these carried bytes.
pub fn put_image_with(state: &State, carried: &[u8; MOST_CARRIED], out: &mut Vec<u8>) {
    put_whole_image(state, carried, &mut Noise::new(0), out);
}

fn put_whole_image(
    state: &State,
    carried: &[u8; MOST_CARRIED],
    noise: &mut Noise,
    out: &mut Vec<u8>,
) {
    put_port(&state.port, carried, out);
    for status in &state.statuses {
        put_status(status, noise, out);
    }
    put_words(&state.live, out);
    put_words(&state.cells, out);
}

fn put_port(port: &Port, carried: &[u8; MOST_CARRIED], out: &mut Vec<u8>) {
    out.extend(port.clock.0.to_le_bytes());
    out.extend(port.reset_at.0.to_le_bytes());
    let bits = [
        port.link,
        port.owed,
        port.received,
        port.overflow,
        port.drs_received,
        port.visibility,
        port.frs_interrupt,
    ];
    out.extend(bits.map(u8::from));
    out.push(port.signalling);
    out.extend(port.start.to_le_bytes());
    out.extend(port.depth.to_le_bytes());
    out.push(port.carried_count);
    out.extend(carried);
    out.push(u8::from(port.broken));
}

/// Phase, cause, ready time, FLR end; then the set, disabled with no change under way.
fn put_status(status: &Status, noise: &mut Noise, out: &mut Vec<u8>) {
    let (phase, cause, ready, end) = match status {
        Status::Down => (0, noise.cause(), noise.time(), noise.time()),
        Status::Ready => (2, noise.cause(), noise.time(), noise.time()),
        Status::Pending { cause, ready } => match cause {
            Cause::LinkUp => (1, 1, ready.0, noise.time()),
            Cause::Flr { end } => (1, 2, ready.0, end.0),
            Cause::D3hot => (1, 3, ready.0, noise.time()),
        },
    };
    out.push(phase);
    out.push(cause);
    out.extend(u64::to_le_bytes(ready));
    out.extend(u64::to_le_bytes(end));
    out.push(0);
    out.extend(noise.time().to_le_bytes());
}
