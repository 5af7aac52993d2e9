//! Running a case stream, and running one case.

use std::io::{self, Read, Write};

use crate::bench::Bench;
use crate::faults::Fault;
use crate::feed::Fed;
use crate::lateness::{totals, Differences, Seen, Totals};
use crate::messages::{self, Message, Unreadable, Unwritable};
use crate::registers::Table;
use crate::replay::{Replay, Replayed};
use crate::setup::{SlotEntry, MOST_SLOTS};
use crate::sheets::Taken;
use crate::state::{Port, State, Status};
use crate::stream::{
    put_differences, put_image, put_image_with, put_replay, put_taken, put_totals, Bad, Case,
    Operation, Source, Trouble,
};

/// What every answer byte is before a feed, and every byte of a message's room before it is written.
pub const UNTOUCHED: u8 = 0xEE;

/// A message that was to be written: what came of it.
pub struct Wrote {
    pub number: u8,
    pub kind: u8,
    pub id: u16,
    pub reason: u8,
    pub room: Vec<u8>,
    /// All that is refused in it.
    pub refused: Vec<Unwritable>,
}

/// Bytes that were to be read as a message: what came of it.
pub struct Reading {
    pub given: Result<Message, u8>,
    pub bytes: Vec<u8>,
    /// All that is refused in them.
    pub refused: Vec<Unreadable>,
}

/// A sheet, the set-up that it found, and what came of it.
pub struct Sheet {
    pub text: Vec<u8>,
    pub slots: u8,
    pub before: [SlotEntry; MOST_SLOTS],
    /// 1 to 4, or none.
    pub refusal_before: Option<u8>,
    pub refusal_after: Option<u8>,
    pub taken: Taken,
}

/// A replay call, what it found, and what came of it.
pub struct ReplayCall {
    pub input: Vec<u8>,
    pub room: usize,
    pub before: Replay,
    pub port_before: Port,
    pub statuses_before: Vec<Status>,
    pub replayed: Replayed,
}

/// A report by slot: the times that were handed in, and what came of them.
pub struct Report {
    pub seen: Seen,
    pub noise: bool,
    pub differences: Differences,
}

/// A list of differences, and what it comes to.
pub struct Listed {
    pub list: Vec<i64>,
    pub totals: Totals,
}

/// What an operation gave, beside the bytes written for it.
pub enum Gave {
    SetUp(u8),
    Feed(Fed),
    Lent { noise: bool },
    Wrote(Wrote),
    Reading(Reading),
    Sheet(Box<Sheet>),
    Replay(Box<ReplayCall>),
    LentReplay { noise: bool },
    Lateness(Box<Report>),
    Totals(Listed),
}

/// Runs one operation and writes its output.
pub fn run_operation(bench: &mut Bench, operation: &Operation, out: &mut Vec<u8>) -> Gave {
    match operation {
        Operation::SetUp => {
            let number = bench.set_up();
            out.push(number);
            put_state(&bench.state, bench.fault, out);
            Gave::SetUp(number)
        }
        Operation::Feed { room, input } => Gave::Feed(run_feed(bench, *room, input, out)),
        Operation::Lend { state, noise } => {
            bench.state = (**state).clone();
            if bench.has(Fault::ReplayFreshAtLend) {
                bench.replay = Replay::FRESH;
            }
            bench.lend_moments();
            Gave::Lent { noise: *noise != 0 }
        }
        Operation::WriteMessage { kind, id, reason, room } => {
            let mut bytes = vec![UNTOUCHED; usize::from(*room)];
            let written = messages::write(*kind, *id, *reason, &mut bytes, bench.fault);
            let number = written.err().unwrap_or(0);
            out.push(number);
            out.extend(&bytes);
            let refused = messages::unwritable(*kind, *reason, bytes.len());
            let (kind, id, reason) = (*kind, *id, *reason);
            Gave::Wrote(Wrote { number, kind, id, reason, room: bytes, refused })
        }
        Operation::ReadMessage(bytes) => {
            let given = messages::read(bytes, bench.fault);
            put_reading(&given, bytes, bench.fault, out);
            let refused = messages::unreadable(bytes);
            Gave::Reading(Reading { given, bytes: bytes.clone(), refused })
        }
        Operation::Sheet(text) => Gave::Sheet(Box::new(run_sheet(bench, text, out))),
        Operation::Replay { room, input } => {
            Gave::Replay(Box::new(run_replay(bench, *room, input, out)))
        }
        Operation::LendReplay { replay, noise } => {
            bench.replay = bench.take_lent(replay);
            Gave::LentReplay { noise: *noise != 0 }
        }
        Operation::Lateness { seen, noise } => {
            let differences = bench.lateness(seen);
            put_differences(&differences, out);
            Gave::Lateness(Box::new(Report { seen: **seen, noise: *noise != 0, differences }))
        }
        Operation::Totals(list) => {
            let totals = totals(list, bench.fault);
            put_totals(&totals, out);
            Gave::Totals(Listed { list: list.clone(), totals })
        }
    }
}

fn run_feed(bench: &mut Bench, room: u16, input: &[u8], out: &mut Vec<u8>) -> Fed {
    let mut answers = vec![UNTOUCHED; usize::from(room)];
    let fed = bench.feed(input, &mut answers);
    put_fed(&fed, &answers, out);
    put_state(&bench.state, bench.fault, out);
    fed
}

/// Number, counts and the whole room.
fn put_fed(fed: &Fed, answers: &[u8], out: &mut Vec<u8>) {
    out.push(fed.number);
    out.extend((fed.consumed as u32).to_le_bytes());
    out.extend((fed.written as u32).to_le_bytes());
    out.extend(answers);
}

fn run_replay(bench: &mut Bench, room: u16, input: &[u8], out: &mut Vec<u8>) -> ReplayCall {
    let (before, port_before) = (bench.replay, bench.state.port.clone());
    let statuses_before = bench.state.statuses.clone();
    let mut answers = vec![UNTOUCHED; usize::from(room)];
    let replayed = bench.replay(input, &mut answers);
    put_fed(&replayed.fed, &answers, out);
    put_state(&bench.state, bench.fault, out);
    put_replay_state(bench, replayed.fed.number, out);
    let (input, room) = (input.to_vec(), answers.len());
    ReplayCall { input, room, before, port_before, statuses_before, replayed }
}

fn put_replay_state(bench: &Bench, number: u8, out: &mut Vec<u8>) {
    let mut replay = Replay { moments: bench.moments_shown(), ..bench.replay };
    match bench.fault {
        Fault::ReplayImageLeftOut if (1..=5).contains(&number) => return,
        Fault::ReplayBytesOf4Shown if replay.taken > 4 => replay.bytes = [0; 4],
        _ => {}
    }
    put_replay(&replay, out);
}

fn run_sheet(bench: &mut Bench, text: &[u8], out: &mut Vec<u8>) -> Sheet {
    let (slots, before) = (bench.setup.slots, bench.setup.entries);
    let refusal_before = bench.setup.refusal(bench.fault);
    let taken = bench.take_sheet(text);
    put_taken(&taken, out);
    let refusal_after = bench.setup.refusal(bench.fault);
    Sheet { text: text.to_vec(), slots, before, refusal_before, refusal_after, taken }
}

fn put_state(state: &State, fault: Fault, out: &mut Vec<u8>) {
    match fault {
        Fault::CarriedPastCountShown => put_image_with(state, &state.port.carried, out),
        _ => put_image(state, out),
    }
}

/// Number, kind by its byte 0, ID and reason; zeros where a message is refused.
fn put_reading(given: &Result<Message, u8>, bytes: &[u8], fault: Fault, out: &mut Vec<u8>) {
    let (number, kind, id, reason) = match given {
        Ok(Message { kind, id, reason }) => (0, kind.byte_0(), *id, *reason),
        Err(number) => (*number, 0, 0, 0),
    };
    let kind = match (kind, fault) {
        (messages::DRS, Fault::ReaderGivesByte12) => 0x08,
        (messages::FRS, Fault::ReaderGivesByte12) => 0x09,
        _ => kind,
    };
    let id = match bytes {
        [_, _, _, _, high, low, ..] if fault == Fault::ReaderRefusalShowsId => {
            u16::from_be_bytes([*high, *low])
        }
        _ => id,
    };
    out.extend([number, kind]);
    out.extend(id.to_le_bytes());
    out.push(reason);
}

/// Runs a whole case with a fault planted, and gives its output.
pub fn run_case(case: &Case, fault: Fault) -> Vec<u8> {
    run_all(case, Bench::new(&case.setup, fault))
}

/// Runs a whole case with other register attributes, and gives its output.
pub fn run_case_with(case: &Case, table: &Table) -> Vec<u8> {
    run_all(case, Bench { table, ..Bench::new(&case.setup, Fault::None) })
}

fn run_all(case: &Case, mut bench: Bench) -> Vec<u8> {
    let mut out = Vec::new();
    for operation in &case.operations {
        run_operation(&mut bench, operation, &mut out);
    }
    out
}

/// How a stream ended.
#[derive(Clone, Copy, PartialEq, Eq, Debug)]
pub enum Ended {
    AtItsEnd,
    BadCase(Bad),
}

fn run_cases<R: Read, W: Write>(
    source: &mut Source<R>,
    output: &mut W,
    fault: Fault,
) -> Result<(), Trouble> {
    let mut bytes = Vec::new();
    source.version()?;
    while let Some(setup) = source.setup()? {
        let mut bench = Bench::new(&setup, fault);
        while let Some(operation) = source.operation(&setup)? {
            bytes.clear();
            run_operation(&mut bench, &operation, &mut bytes);
            output.write_all(&bytes).map_err(Trouble::Io)?;
        }
    }
    Ok(())
}

/// Runs a case stream to its end; what was written before a bad case stands.
pub fn run_stream<R: Read, W: Write>(input: R, output: &mut W, fault: Fault) -> io::Result<Ended> {
    let ended = match run_cases(&mut Source::new(input, fault), output, fault) {
        Ok(()) => Ended::AtItsEnd,
        Err(Trouble::BadCase(bad)) => Ended::BadCase(bad),
        Err(Trouble::Io(error)) => return Err(error),
    };
    output.flush()?;
    Ok(ended)
}

#[cfg(test)]
mod tests {
    use super::*;

    /// A stream of one case without slots and memory, with these operations.
    fn stream(operations: &[u8]) -> Vec<u8> {
        let mut bytes = vec![2, 0, 0, 0, 0, 0, 0, 0, 0, 0, 0, 0, 0];
        for _ in 0..32 {
            bytes.extend([0, 0, 0, 0, 0, 0, 0, 0, 0, 1, 0, 0, 0xFF]);
        }
        bytes.extend(operations);
        bytes
    }

    fn run(operations: &[u8]) -> (Ended, Vec<u8>) {
        let mut output = Vec::new();
        let ended = run_stream(&stream(operations)[..], &mut output, Fault::None).unwrap();
        (ended, output)
    }

    const DRS_1234: [u8; 16] = [0x34, 0, 0, 0, 0x12, 0x34, 0, 0x7F, 0, 0, 0, 1, 8, 0, 0, 0];
    const FRS_1234_9: [u8; 16] = [0x30, 0, 0, 0, 0x12, 0x34, 0, 0x7F, 0, 0, 0, 1, 9, 0, 0, 9];

    #[test]
    fn messages_are_written() {
        let (ended, output) =
            run(&[0x0D, 0x34, 0x34, 0x12, 0, 16, 0x0D, 0x30, 0x34, 0x12, 9, 16, 0]);
        assert_eq!(ended, Ended::AtItsEnd);
        assert_eq!(output, [&[0], &DRS_1234[..], &[0], &FRS_1234_9].concat());
    }

    #[test]
    fn a_message_that_is_not_written_leaves_its_room() {
        for (kind, reason, room) in [(0x08, 0, 16), (0x34, 1, 16), (0x30, 16, 16), (0x30, 9, 40)] {
            let (ended, output) = run(&[0x0D, kind, 0x34, 0x12, reason, room, 0]);
            assert_eq!(ended, Ended::AtItsEnd);
            assert_eq!(output, [&[19], &vec![0xEE; usize::from(room)][..]].concat());
        }
    }

    #[test]
    fn messages_are_read() {
        let reads = [&[0x0E, 16], &DRS_1234[..], &[0x0E, 16], &FRS_1234_9, &[0x0E, 0, 0]].concat();
        let (ended, output) = run(&reads);
        assert_eq!(ended, Ended::AtItsEnd);
        assert_eq!(output, [0, 0x34, 0x34, 0x12, 0, 0, 0x30, 0x34, 0x12, 9, 19, 0, 0, 0, 0]);
    }

    #[test]
    fn a_refused_set_up_shows_the_zero_state() {
        let (ended, output) = run(&[1, 0]);
        assert_eq!(ended, Ended::AtItsEnd);
        assert_eq!(output, [&[1], &[0; 46][..]].concat());
    }

    #[test]
    fn a_sheet_asks_for_no_set_up() {
        let (ended, output) = run(&[&[4, 13, 0], &b"0 1 1 1 1 ns\n"[..], &[4, 0, 0, 0]].concat());
        assert_eq!(ended, Ended::AtItsEnd);
        let codes = [0; 256];
        assert_eq!(output, [&[41, 1, 0], &codes[..], &[0, 0, 0], &codes].concat());
    }

    #[test]
    fn a_sheet_of_4096_bytes_is_read_and_a_longer_one_is_bad() {
        let (ended, output) = run(&[&[4, 0x00, 0x10], &[b'\n'; 4096][..], &[0]].concat());
        assert_eq!((ended, &output[..3]), (Ended::AtItsEnd, &[40, 1, 0][..]));
        let (ended, output) = run(&[&[4, 0x01, 0x10], &[b'\n'; 4097][..], &[0]].concat());
        assert_eq!((ended, output), (Ended::BadCase(Bad::SheetLength), Vec::new()));
    }

    /// A replay image: its front, and moments with the first two and the last as given.
    fn replay_image(front: [u8; 12], moments: [(u8, u64); 3]) -> Vec<u8> {
        let [first, second, last] = moments.map(|(made, when)| {
            let mut bytes = vec![made];
            bytes.extend(when.to_le_bytes());
            bytes
        });
        [&front[..], &first, &second, &[0; 29 * 9], &last].concat()
    }

    #[test]
    fn a_replay_image_comes_back_without_what_is_ignored() {
        let call = [6, 0, 0, 0, 0];
        let lent =
            replay_image([0, 9, 9, 9, 9, 2, 5, 6, 7, 8, 200, 77], [(0, 5), (1, u64::MAX), (1, 0)]);
        let (ended, output) = run(&[&[7], &lent[..], &call, &[0]].concat());
        assert_eq!(ended, Ended::AtItsEnd);
        let front = [0, 0, 0, 0, 0, 2, 5, 6, 0, 0, 200, 77];
        let image = replay_image(front, [(0, 0), (1, u64::MAX), (1, 0)]);
        assert_eq!(output, [&[1], &[0; 8 + 46][..], &image].concat());
        let front = [1, 9, 9, 9, 9, 255, 5, 6, 7, 8, 1, 2];
        let lent = replay_image(front, [(1, 1), (0, 0), (1, 1 << 63)]);
        let (_, output) = run(&[&[7], &lent[..], &call, &[0]].concat());
        assert_eq!(output[55..], lent);
        let (ended, output) = run(&[&[7, 2], &lent[1..], &call, &[0]].concat());
        assert_eq!((ended, output), (Ended::BadCase(Bad::Begun), Vec::new()));
        for (slot, made) in [(0, 2), (17, 255), (31, 2)] {
            let mut lent = lent.clone();
            lent[12 + 9 * slot] = made;
            let (ended, output) = run(&[&[7], &lent[..], &call, &[0]].concat());
            assert_eq!((ended, output), (Ended::BadCase(Bad::Made), Vec::new()));
        }
    }

    #[test]
    fn a_report_of_no_slots_has_no_difference() {
        let front = [0; 12];
        let lent = replay_image(front, [(1, 5), (1, 7), (1, 9)]);
        let seen = &replay_image(front, [(1, 5), (0, 7), (1, 9)])[12..];
        let (ended, output) = run(&[&[7], &lent[..], &[8], seen, &[0]].concat());
        assert_eq!((ended, output), (Ended::AtItsEnd, vec![0; 288]));
        for (slot, byte) in [(0, 2), (31, 255)] {
            let mut seen = seen.to_vec();
            seen[9 * slot] = byte;
            let (ended, output) = run(&[&[8], &seen[..], &[0]].concat());
            assert_eq!((ended, output), (Ended::BadCase(Bad::Seen), Vec::new()));
        }
    }

    #[test]
    fn a_list_is_read_with_its_signs() {
        let list = [3i64, -5, 0].map(i64::to_le_bytes).concat();
        let (ended, output) = run(&[&[9, 3, 0], &list[..], &[0]].concat());
        let counts = [1u32; 3].map(u32::to_le_bytes).concat();
        let edges = [-5i64, 3, -2].map(i64::to_le_bytes).concat();
        assert_eq!((ended, output), (Ended::AtItsEnd, [&[0], &counts[..], &edges].concat()));
        let (ended, output) = run(&[9, 0, 0, 0]);
        assert_eq!((ended, output), (Ended::AtItsEnd, vec![0; 37]));
    }

    #[test]
    fn a_list_of_9100_is_read_and_a_longer_one_is_bad() {
        for (count, number) in [(9000u16, 0), (9001, 35), (9100, 35)] {
            let list = vec![0; 8 * usize::from(count)];
            let (ended, output) = run(&[&[9], &count.to_le_bytes()[..], &list, &[0]].concat());
            assert_eq!((ended, output[0]), (Ended::AtItsEnd, number));
        }
        let (ended, output) = run(&[&[9], &9101u16.to_le_bytes()[..], &[0; 80_000]].concat());
        assert_eq!((ended, output), (Ended::BadCase(Bad::ListLength), Vec::new()));
    }

    #[test]
    fn a_replay_of_4096_bytes_is_read_and_a_longer_one_is_bad() {
        for (room, input, way) in [
            (4096, 4096, None),
            (4097, 0, Some(Bad::ReplayRoom)),
            (0, 4097, Some(Bad::ReplayInput)),
        ] {
            let lengths = [u16::to_le_bytes(room), u16::to_le_bytes(input)].concat();
            let bytes = vec![0; usize::from(input)];
            let (ended, _) = run(&[&[6], &lengths[..], &bytes, &[0]].concat());
            assert_eq!(ended, way.map_or(Ended::AtItsEnd, Ended::BadCase));
        }
    }

    #[test]
    fn other_operations_are_bad_and_the_output_before_them_stands() {
        for operation in [0x05].into_iter().chain(0x0A..=0x0C).chain([0x0F, 0x10, 0xFF]) {
            let (ended, output) = run(&[0x0E, 0, operation, 0, 0, 0]);
            let way = if operation > 0x0E { Bad::Operation } else { Bad::NotLanded };
            assert_eq!(ended, Ended::BadCase(way));
            assert_eq!(output, [19, 0, 0, 0, 0]);
        }
    }

    #[test]
    fn other_versions_are_bad() {
        for version in [0, 1, 3] {
            let mut bytes = stream(&[1, 0]);
            bytes[0] = version;
            let ended = run_stream(&bytes[..], &mut Vec::new(), Fault::None).unwrap();
            assert_eq!(ended, Ended::BadCase(Bad::Version));
        }
    }
}
