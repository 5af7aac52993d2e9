//! The proved library and plain Rust give the same: number, answers, counts and the whole final state.

use std::collections::BTreeMap;

use crate::random::Random;
use crate::records::ADVANCE;
use crate::speed::captures::{Captured, CAPTURED};
use crate::speed::rows::{replays, sides, Buffers, Sides, ROWS};
use crate::speed::tally::Tally;
use crate::speed::traces::{trace, Subject, Trace};

/// A run in which the two are compared.
struct Case<'a> {
    card: &'a [u8],
    trace: &'a [u8],
    piece: usize,
    room: usize,
    image: usize,
}

/// Runs both; gives the number and the buffers, or what differs.
fn both(sides: &Sides, case: &Case) -> Result<(u64, Buffers), String> {
    let [ours, rust] = [sides.ours, sides.rust].map(|runner| {
        let mut buffers = Buffers::new(case.room);
        buffers.image.truncate(case.image);
        (buffers.run(runner, case.card, case.trace, case.piece), buffers)
    });
    if ours.0 != rust.0 {
        return Err(format!("number {} given, {} expected", ours.0, rust.0));
    }
    for (what, given, wanted) in
        [("answer", &ours.1.answers, &rust.1.answers), ("image", &ours.1.image, &rust.1.image)]
    {
        if let Some(at) = given.iter().zip(wanted).position(|(one, other)| one != other) {
            return Err(format!("{what} byte {at}: {} given, {} expected", given[at], wanted[at]));
        }
    }
    Ok(rust)
}

/// What was compared, and what differs, if anything.
type Compared = (String, Result<(), String>);

/// Holds the rows' traces and captures, this many records long, the ways in which a run can end early, and damaged cards, traces and captures.
pub fn compare(records: usize) -> Result<bool, String> {
    let (sides, replays) = (sides()?, replays()?);
    let rows = ROWS.iter().map(|row| {
        let trace = trace(row.subject, records);
        let name = format!("{} in pieces of {}, {records} records", row.name(), row.piece);
        (name, whole_trace(&sides, row.subject, &trace, row.piece))
    });
    let captures = [1, 1_000_000].map(|times| {
        let made = Captured::new(records, times);
        let name = format!("{CAPTURED}, advances times {times}, {} records", made.records);
        (name, as_its_trace(&sides, &replays, &made))
    });
    let (whole, captured) = (trace(Subject::Mixed, 200), Captured::new(200, 1));
    let damaged = [
        damaged(&sides, "traces", &whole.card, &whole.bytes),
        damaged(&replays, "captures", &captured.card, &captured.capture),
    ];
    let early = early_ends(&sides).into_iter().chain(early_replays(&replays));
    for (name, result) in rows.chain(captures).chain(early).chain(damaged) {
        match result {
            Ok(()) => println!("{name}: the same"),
            Err(what) => {
                println!("{name}: {what}");
                return Ok(false);
            }
        }
    }
    Ok(true)
}

fn whole_trace(sides: &Sides, subject: Subject, trace: &Trace, piece: usize) -> Result<(), String> {
    let case = Case {
        card: trace.card.as_bytes(),
        trace: &trace.bytes,
        piece,
        room: 8 * trace.records,
        image: usize::MAX,
    };
    let (number, buffers) = both(sides, &case)?;
    let consumed = trace.bytes.len() as u64;
    if number != 0 || buffers.image[..8] != consumed.to_le_bytes() {
        return Err(format!("the trace ends early, with {number}"));
    }
    match Tally::of(&trace.bytes, &buffers.answers).wrong(subject, trace.records) {
        None => Ok(()),
        Some(what) => Err(format!("the trace does not do as it should: {what}")),
    }
}

/// A capture's replay, by both: the same as the proved run in one piece of the trace that it stands for, but for the bytes consumed.
pub fn as_its_trace(sides: &Sides, replays: &Sides, made: &Captured) -> Result<(), String> {
    let (card, room) = (made.card.as_bytes(), 8 * made.records);
    let case = Case { card, trace: &made.capture, piece: 0, room, image: usize::MAX };
    let (number, replayed) = both(replays, &case)?;
    let mut fed = Buffers::new(room);
    let ended = fed.run(sides.ours, card, &made.trace, 0);
    let [wanted, consumed] = [&made.trace, &made.capture].map(|bytes| bytes.len().to_le_bytes());
    if (number, ended) != (0, 0) || replayed.image[..8] != consumed || fed.image[..8] != wanted {
        return Err(format!("the capture or its trace ends early, with {number} and {ended}"));
    }
    match replayed.answers == fed.answers && replayed.image[8..] == fed.image[8..] {
        true => Ok(()),
        false => Err("its trace gives other answers or another state".to_string()),
    }
}

/// Cases of either side, each with the number that it must give.
fn held(sides: &Sides, cases: &[(&str, u64, Case)]) -> Vec<Compared> {
    let held = cases.iter().map(|(name, number, case)| {
        let given = both(sides, case).and_then(|(given, _)| match given == *number {
            true => Ok(()),
            false => Err(format!("both give {given} where {number} is expected")),
        });
        (name.to_string(), given)
    });
    held.collect()
}

/// Replays that end early.
fn early_replays(replays: &Sides) -> Vec<Compared> {
    let made = Captured::new(2_000, 1);
    let refused_code = made.card.replacen("reset 001", "reset A1F", 1);
    // Control, link up, and then a record after an advance; byte 15 is its kind, from byte 11 on its stamp.
    let changed = |at: usize, byte: u8| {
        let mut capture = made.capture.clone();
        capture[at] = byte;
        capture
    };
    let (back, advance, unknown) = (changed(14, 0x80), changed(15, ADVANCE), changed(15, 0x0E));
    let usual = Case {
        card: made.card.as_bytes(),
        trace: &made.capture,
        piece: 0,
        room: 16_000,
        image: usize::MAX,
    };
    let cases = [
        ("no capture", 0, Case { trace: &[], ..usual }),
        ("a capture that ends after a stamp", 0, Case { trace: &made.capture[..15], ..usual }),
        ("a cut capture", 0, Case { trace: &made.capture[..made.capture.len() - 1], ..usual }),
        ("no room for an advance", 30, Case { room: 23, ..usual }),
        ("no room for a record after it", 30, Case { room: 31, ..usual }),
        ("an unknown kind after a stamp", 31, Case { trace: &unknown, ..usual }),
        ("a recorder that went back", 32, Case { trace: &back, ..usual }),
        ("an advance after a stamp", 33, Case { trace: &advance, ..usual }),
        ("a capture on a code that is refused", 3, Case { card: refused_code.as_bytes(), ..usual }),
        ("a capture on no card", 100, Case { card: &made.card.as_bytes()[1..], ..usual }),
        ("an image too short for a capture", 101, Case { image: 100, ..usual }),
    ];
    held(replays, &cases)
}

/// Runs that end early, each with the number that it must give.
fn early_ends(sides: &Sides) -> Vec<Compared> {
    let trace = trace(Subject::Mixed, 2_000);
    let text = |from: &str, to: &str| trace.card.replacen(from, to, 1);
    let refused_code = text("reset 001", "reset A1F");
    let refused_default = text("44 00000000", "44 00000003");
    let no_card = text("slots", "slot");
    let mut broken = trace.bytes.clone();
    broken.insert(0, 0x0E);
    let mut broken_later = trace.bytes.clone();
    broken_later.push(0);
    let usual = Case {
        card: trace.card.as_bytes(),
        trace: &trace.bytes,
        piece: 0,
        room: 16_000,
        image: usize::MAX,
    };
    let cases = [
        ("one piece", 0, Case { ..usual }),
        ("no trace", 0, Case { trace: &[], ..usual }),
        ("a cut trace", 0, Case { trace: &trace.bytes[..trace.bytes.len() - 1], ..usual }),
        ("no room", 30, Case { room: 7, ..usual }),
        ("room for some", 30, Case { room: 8_001, piece: 7, ..usual }),
        ("an unknown kind", 31, Case { trace: &broken, ..usual }),
        ("an unknown kind at the end", 31, Case { trace: &broken_later, piece: 64, ..usual }),
        ("a code that is refused", 3, Case { card: refused_code.as_bytes(), ..usual }),
        ("a default that is refused", 4, Case { card: refused_default.as_bytes(), ..usual }),
        ("no card", 100, Case { card: no_card.as_bytes(), ..usual }),
        ("an image that is too short", 101, Case { image: 100, ..usual }),
    ];
    held(sides, &cases)
}

/// How many damaged cards and traces, or captures, are run.
const DAMAGED: u64 = 4_000;

/// Bytes that mean something in a card's text.
const TELLING: &[u8] = b"0189aAfFg \t\r\n#swqbp";

/// A card and a trace, or a capture, with some bytes changed, in pieces and rooms of any size.
fn damaged(sides: &Sides, what: &str, whole_card: &str, whole: &[u8]) -> Compared {
    let name = format!("{DAMAGED} damaged cards and {what}");
    let mut given: BTreeMap<u64, u64> = BTreeMap::new();
    for number in 0..DAMAGED {
        let mut random = Random::for_case(3, number);
        let (mut card, mut bytes) = (whole_card.as_bytes().to_vec(), whole.to_vec());
        for _ in 0..random.below(3) {
            let byte = random.pick(TELLING);
            damage(&mut random, &mut card, byte);
        }
        for _ in 0..random.below(3) {
            let byte = random.below(15) as u8;
            damage(&mut random, &mut bytes, byte);
        }
        let piece = random.below(40);
        let room = random.pick(&[1_600, 1_600, 1_600, 800, 5]);
        let case = Case { card: &card, trace: &bytes, piece, room, image: usize::MAX };
        match both(sides, &case) {
            Ok((ended, _)) => *given.entry(ended).or_default() += 1,
            Err(what) => return (name, Err(format!("round {number}: {what}"))),
        }
    }
    (format!("{name}, with numbers and how often {given:?}"), Ok(()))
}

/// Puts a byte in, takes one out, or changes one.
fn damage(random: &mut Random, bytes: &mut Vec<u8>, byte: u8) {
    let place = random.below(bytes.len());
    match random.below(4) {
        0 => bytes.insert(place, byte),
        1 => {
            bytes.remove(place);
        }
        _ => bytes[place] = byte,
    }
}
