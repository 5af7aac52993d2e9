//! Feeding bytes of a trace to the fast model.

use crate::fast::records::Run;
use crate::fast::refusal;
use crate::fast::tables::{LENGTHS, LONGEST};
use crate::setup::Setup;
use crate::state::{Port, State};

/// Bytes of an answer.
const ANSWER: usize = 8;

/// A call's number, and how many bytes it consumed and wrote.
#[derive(Clone, Copy, PartialEq, Eq, Debug)]
pub struct Outcome {
    pub number: u8,
    pub consumed: usize,
    pub written: usize,
}

impl Outcome {
    fn refused(number: u8) -> Outcome {
        Outcome { number, consumed: 0, written: 0 }
    }
}

/// Feeds the input, answers going to the front of the room.
pub fn feed(setup: &Setup, state: &mut State, input: &[u8], room: &mut [u8]) -> Outcome {
    let earliest = match refusal::of_feed(setup, state) {
        Ok(earliest) => earliest,
        Err(number) => return Outcome::refused(number),
    };
    if state.port.broken {
        return Outcome::refused(31);
    }
    let mut run = Run::new(setup, state, earliest);
    if run.port.carried_count == 0 {
        return run_input(&mut run, input, 0, room, 0);
    }
    match complete_carried(&mut run, input, room) {
        Ok(at) => run_input(&mut run, input, at, room, ANSWER),
        Err(outcome) => outcome,
    }
}

/// Runs the record that is carried with the rest of its bytes; gives how many those are, or how the call ends without it.
fn complete_carried(run: &mut Run, input: &[u8], room: &mut [u8]) -> Result<usize, Outcome> {
    let carried = usize::from(run.port.carried_count);
    let length = length_of(run.port.carried[0]);
    let missing = length - carried;
    let cut = input.len() < missing;
    if cut || room.len() < ANSWER {
        let taken = input.len().min(missing - 1);
        carry_on(run.port, &input[..taken]);
        return Err(Outcome { number: if cut { 0 } else { 30 }, consumed: taken, written: 0 });
    }
    let mut record = [0; LONGEST];
    record[..carried].copy_from_slice(&run.port.carried[..carried]);
    record[carried..length].copy_from_slice(&input[..missing]);
    room[..ANSWER].copy_from_slice(&run.record(&record).to_le_bytes());
    Ok(missing)
}

/// Runs the records that stand in the input from `at` on, until it ends, a kind is unknown or the room is too small.
fn run_input(run: &mut Run, input: &[u8], from: usize, room: &mut [u8], before: usize) -> Outcome {
    let mut at = from;
    let mut written = before;
    let (number, carried) = loop {
        let rest = &input[at..];
        let Some(kind) = rest.first() else {
            break (0, 0);
        };
        let length = length_of(*kind);
        if length == 0 {
            run.port.broken = true;
            break (31, 0);
        }
        if rest.len() < length {
            break (0, rest.len());
        }
        let Some(answer) = room[written..].first_chunk_mut::<ANSWER>() else {
            break (30, length - 1);
        };
        let padded;
        let record = match rest.first_chunk::<LONGEST>() {
            Some(record) => record,
            None => {
                padded = pad(rest);
                &padded
            }
        };
        *answer = run.record(record).to_le_bytes();
        at += length;
        written += ANSWER;
    };
    carry(run.port, &input[at..at + carried]);
    Outcome { number, consumed: at + carried, written }
}

fn length_of(kind: u8) -> usize {
    usize::from(LENGTHS[usize::from(kind)])
}

/// The last bytes of the input, with zeros after them.
fn pad(rest: &[u8]) -> [u8; LONGEST] {
    let mut record = [0; LONGEST];
    record[..rest.len()].copy_from_slice(rest);
    record
}

/// The bytes of an incomplete record wait in the port for the next call.
fn carry(port: &mut Port, bytes: &[u8]) {
    port.carried_count = 0;
    carry_on(port, bytes);
}

/// More bytes join those that are carried; zeros stand after them.
fn carry_on(port: &mut Port, bytes: &[u8]) {
    let (_, free) = port.carried.split_at_mut(usize::from(port.carried_count));
    free.fill(0);
    free[..bytes.len()].copy_from_slice(bytes);
    port.carried_count += bytes.len() as u8;
}
