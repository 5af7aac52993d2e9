//! A case in readable form, and as hex.

use crate::bench::Bench;
use crate::faults::Fault;
use crate::records::record_length;
use crate::replay::{Moments, Replay, STAMP_BYTES};
use crate::run::run_operation;
use crate::setup::{Setup, SlotEntry};
use crate::sheets::LINE_END;
use crate::state::{Port, State, Status};
use crate::stream::{put_case, Case, Operation, VERSION};

pub fn hex(bytes: &[u8]) -> String {
    bytes.iter().map(|byte| format!("{byte:02X}")).collect::<Vec<_>>().join(" ")
}

/// Cuts a trace into records, from its front.
pub fn split_records(input: &[u8]) -> Vec<&[u8]> {
    let mut pieces = Vec::new();
    let mut left = input;
    while let Some(kind) = left.first() {
        let length = record_length(*kind).unwrap_or(1).min(left.len());
        pieces.push(&left[..length]);
        left = &left[length..];
    }
    pieces
}

/// Cuts a capture into stamps and records, from its front; so many bytes there belong to what came before.
pub fn split_captured(input: &[u8], before: usize) -> Vec<&[u8]> {
    let (first, mut left) = input.split_at(before.min(input.len()));
    let mut pieces: Vec<&[u8]> =
        Some(first).filter(|first| !first.is_empty()).into_iter().collect();
    while !left.is_empty() {
        let record = left.get(STAMP_BYTES).map_or(0, |kind| record_length(*kind).unwrap_or(1));
        let (piece, rest) = left.split_at((STAMP_BYTES + record).min(left.len()));
        pieces.push(piece);
        left = rest;
    }
    pieces
}

/// How many bytes complete what a replay has begun: a record, or a stamp and its record.
fn rest_of_captured(bench: &Bench, input: &[u8]) -> usize {
    let (port, taken) = (&bench.state.port, usize::from(bench.replay.taken));
    let rest = |kind: u8, count: usize| record_length(kind).unwrap_or(1).saturating_sub(count);
    match usize::from(port.carried_count) {
        0 if taken == 0 => 0,
        0 => {
            let stamp = STAMP_BYTES.saturating_sub(taken);
            stamp + input.get(stamp).map_or(0, |kind| rest(*kind, 0))
        }
        count => rest(port.carried[0], count),
    }
}

fn words(name: &str, words: &[u32]) -> String {
    let set = words.iter().enumerate().filter(|(_, word)| **word != 0);
    let listed: Vec<String> = set.map(|(index, word)| format!("{index}={word:08X}h")).collect();
    format!("  {name} (others 0): {}\n", listed.join(" "))
}

/// Edition, V and parent, where they aren't the defaults.
fn show_later_fields(entry: &SlotEntry) -> String {
    let SlotEntry { edition, v, parent, .. } = entry;
    match (edition, v.0, parent) {
        (1, 0, None) => String::new(),
        _ => format!(", edition {edition}, V {:03X}h, parent {parent:?}", v.0),
    }
}

fn show_setup(setup: &Setup) -> String {
    let mut text = format!(
        "slots {}, statuses {}, live words {}, default words {}, queue cells {}, B {}, port ID {:04X}h{}\n",
        setup.slots, setup.statuses, setup.live_words, setup.defaults.len(), setup.cells,
        setup.bus, setup.port_id, if setup.conventional { ", conventional" } else { "" }
    );
    for (slot, entry) in setup.entries.iter().enumerate().take(setup.slot_count()) {
        let codes = entry.codes().map(|code| format!("{:03X}h", code.0)).join(" ");
        let sends = if entry.sends_frs { "sends FRS" } else { "sends none" };
        text += &format!("  slot {slot}: codes {codes}, {sends}{}\n", show_later_fields(entry));
    }
    text + &words("default words", &setup.defaults)
}

fn show_port(port: &Port) -> String {
    let bits = [
        ("link", port.link),
        ("owed", port.owed),
        ("Received", port.received),
        ("Overflow", port.overflow),
        ("DRS Received", port.drs_received),
        ("visibility", port.visibility),
        ("FRS interrupt", port.frs_interrupt),
        ("broken", port.broken),
    ];
    let set: Vec<&str> = bits.iter().filter(|(_, bit)| *bit).map(|(name, _)| *name).collect();
    format!(
        "  clock {}, last reset {}, set: {}; signalling {}, queue start {}, depth {}, carried {} of {}\n",
        port.clock.0,
        port.reset_at.0,
        set.join(", "),
        port.signalling,
        port.start,
        port.depth,
        port.carried_count,
        hex(&port.carried)
    )
}

fn show_state(state: &State) -> String {
    let mut text = show_port(&state.port);
    for (slot, status) in state.statuses.iter().enumerate() {
        if *status != Status::Down {
            text += &format!("  slot {slot}: {status:?}\n");
        }
    }
    text + &words("live words", &state.live) + &words("cells", &state.cells)
}

fn show_replay(replay: &Replay) -> String {
    let Replay { earlier, taken, bytes, answered, ended, moments } = replay;
    let earlier = earlier.map_or("not begun".to_string(), |stamp| format!("earlier {}", stamp.0));
    let bytes = hex(bytes);
    let moments = show_times("made Ready", moments);
    format!("  {earlier}, {taken} stamp bytes of {bytes}, {answered} answered, ended {ended}\n")
        + &moments
}

/// The slots that have a time.
fn show_times(what: &str, times: &Moments) -> String {
    let there = times.iter().enumerate().filter_map(|(slot, time)| Some((slot, (*time)?)));
    there.map(|(slot, time)| format!("  slot {slot} {what} at {}\n", time.0)).collect()
}

/// A list in order, equal neighbours together.
fn show_list(list: &[i64]) -> String {
    let runs = list.chunk_by(|one, next| one == next).map(|run| match run {
        [one] => one.to_string(),
        run => format!("{} times {}", run.len(), run[0]),
    });
    let runs: Vec<String> = runs.collect();
    format!("totals of {} differences\n  {}\n", list.len(), runs.join(", "))
}

/// A capture, cut where the bench that has run the case so far cuts it.
fn show_capture(bench: &Bench, room: u16, input: &[u8]) -> String {
    let mut text = format!("replay, room {room}, {} bytes\n", input.len());
    for piece in split_captured(input, rest_of_captured(bench, input)) {
        text += &format!("  {}\n", hex(piece));
    }
    text
}

/// The lines of a sheet, with every byte that isn't printed written out.
fn show_sheet(text: &[u8]) -> String {
    let mut shown = format!("sheet, {} bytes\n", text.len());
    for line in text.split_inclusive(|byte| *byte == LINE_END) {
        shown += &format!("  \"{}\"\n", line.escape_ascii());
    }
    shown
}

fn show_operation(bench: &Bench, operation: &Operation) -> String {
    match operation {
        Operation::SetUp => "set-up\n".to_string(),
        Operation::Lend { state, noise: 0 } => format!("lend this state\n{}", show_state(state)),
        Operation::Lend { state, .. } => {
            format!("lend this state, with bytes that are ignored\n{}", show_state(state))
        }
        Operation::Feed { room, input } => {
            let mut text = format!("feed, room {room}, {} bytes\n", input.len());
            for record in split_records(input) {
                text += &format!("  {}\n", hex(record));
            }
            text
        }
        Operation::WriteMessage { kind, id, reason, room } => {
            format!(
                "write a message, kind {kind:02X}h, ID {id:04X}h, reason {reason}, room {room}\n"
            )
        }
        Operation::ReadMessage(bytes) => {
            format!("read a message, {} bytes\n  {}\n", bytes.len(), hex(bytes))
        }
        Operation::Sheet(text) => show_sheet(text),
        Operation::Replay { room, input } => show_capture(bench, *room, input),
        Operation::LendReplay { replay, noise: 0 } => {
            format!("lend this replay state\n{}", show_replay(replay))
        }
        Operation::LendReplay { replay, .. } => {
            format!("lend this replay state, with bytes that are ignored\n{}", show_replay(replay))
        }
        Operation::Lateness { seen, noise: 0 } => {
            format!("lateness by slot\n{}", show_times("seen", seen))
        }
        Operation::Lateness { seen, .. } => {
            let seen = show_times("seen", seen);
            format!("lateness by slot, with bytes that are ignored\n{seen}")
        }
        Operation::Totals(list) => show_list(list),
    }
}

/// The case, operation by operation, then its stream as hex.
pub fn show(case: &Case) -> String {
    let mut text = show_setup(&case.setup);
    let mut bench = Bench::new(&case.setup, Fault::None);
    for (index, operation) in case.operations.iter().enumerate() {
        text += &format!("operation {index}: {}", show_operation(&bench, operation));
        run_operation(&mut bench, operation, &mut Vec::new());
    }
    let mut stream = vec![VERSION];
    put_case(case, &mut stream);
    text + &format!("stream: {}\n", hex(&stream))
}
