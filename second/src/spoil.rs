//! Streams that are bad in a given way: one field of a generated case set to what it must not hold.

use crate::landed::LANDED;
use crate::names::{MOMENT_FIELDS, PORT_FIELDS, REPLAY_FIELDS, SEEN_FIELDS, STATUS_FIELDS};
use crate::random::Random;
use crate::setup::MOST_SLOTS;
use crate::state::Status;
use crate::stream::{
    image_length, put_case, Bad, Case, Operation, ENTRY_BYTES, FRONT_BYTES, MOMENT_BYTES,
    MOST_BYTES, MOST_LISTED, MOST_MESSAGE, MOST_STATUSES, MOST_STREAM_CELLS, MOST_WORDS,
    PORT_BYTES, REPLAY_BYTES, REPLAY_FRONT_BYTES, REPORT_BYTES, STATUS_BYTES, VERSION,
};

/// Where a field stands in a stream, and what it is to hold.
struct Spot {
    at: usize,
    bytes: Vec<u8>,
}

impl Spot {
    fn byte(at: usize, byte: u8) -> Option<Spot> {
        Some(Spot { at, bytes: vec![byte] })
    }

    fn u16(at: usize, number: usize) -> Option<Spot> {
        Some(Spot { at, bytes: (number as u16).to_le_bytes().to_vec() })
    }
}

/// A byte above a limit, often the next one.
fn above(random: &mut Random, most: u8) -> u8 {
    let any = most + 1 + random.below(usize::from(u8::MAX - most)) as u8;
    random.pick(&[most + 1, u8::MAX, any])
}

/// A length above a limit, often the next one.
fn length_above(random: &mut Random, most: usize) -> usize {
    let any = most + 1 + random.below(0xFFFF - most);
    random.pick(&[most + 1, 0xFFFF, any])
}

/// Any byte but one.
fn other_than(random: &mut Random, byte: u8) -> u8 {
    byte.wrapping_add(1 + random.below(255) as u8)
}

fn offset(fields: &[(&str, usize)], name: &str) -> usize {
    let before = fields.iter().take_while(|(field, _)| *field != name);
    before.map(|(_, length)| length).sum()
}

/// The generated case of a stream of its own, with the places of its operations.
struct Layout<'a> {
    case: &'a Case,
    /// Where each operation's byte stands; the last is the case's end.
    operations: Vec<usize>,
}

fn operation_length(case: &Case, operation: &Operation) -> usize {
    1 + match operation {
        Operation::SetUp => 0,
        Operation::Feed { input, .. } | Operation::Replay { input, .. } => 4 + input.len(),
        Operation::LendReplay { .. } => REPLAY_BYTES,
        Operation::Lend { .. } => image_length(&case.setup),
        Operation::WriteMessage { .. } => 5,
        Operation::ReadMessage(bytes) => 1 + bytes.len(),
        Operation::Sheet(text) => 2 + text.len(),
        Operation::Lateness { .. } => REPORT_BYTES,
        Operation::Totals(list) => 2 + 8 * list.len(),
    }
}

impl Layout<'_> {
    fn of(case: &Case) -> Layout<'_> {
        let front = 1 + FRONT_BYTES + ENTRY_BYTES * MOST_SLOTS + 4 * case.setup.defaults.len();
        let mut operations = vec![front];
        let mut at = front;
        for operation in &case.operations {
            at += operation_length(case, operation);
            operations.push(at);
        }
        Layout { case, operations }
    }

    /// Where some operation that fits stands, with its byte.
    fn operation(&self, random: &mut Random, fits: fn(&Operation) -> bool) -> Option<usize> {
        let all = self.case.operations.iter().zip(&self.operations);
        let fitting: Vec<usize> = all.filter(|(one, _)| fits(one)).map(|(_, at)| *at).collect();
        (!fitting.is_empty()).then(|| random.pick(&fitting))
    }

    /// Where a field of some lent port stands.
    fn port_field(&self, random: &mut Random, name: &str) -> Option<usize> {
        let lend = self.operation(random, |one| matches!(one, Operation::Lend { .. }))?;
        Some(lend + 1 + offset(&PORT_FIELDS, name))
    }

    /// Where a field of some lent status that fits stands.
    fn status_field(
        &self,
        random: &mut Random,
        name: &str,
        fits: fn(&Status) -> bool,
    ) -> Option<usize> {
        let mut all = Vec::new();
        for (operation, at) in self.case.operations.iter().zip(&self.operations) {
            if let Operation::Lend { state, .. } = operation {
                let slots = state.statuses.iter().enumerate().filter(|(_, status)| fits(status));
                all.extend(slots.map(|(slot, _)| at + 1 + PORT_BYTES + STATUS_BYTES * slot));
            }
        }
        (!all.is_empty()).then(|| random.pick(&all) + offset(&STATUS_FIELDS, name))
    }

    fn entry(&self, random: &mut Random) -> usize {
        1 + FRONT_BYTES + ENTRY_BYTES * random.below(MOST_SLOTS)
    }

    /// A spot for this way, if the case has one; none for a stream that is too short.
    fn spot(&self, random: &mut Random, way: Bad) -> Option<Spot> {
        match way {
            Bad::NoVersion | Bad::Cut => None,
            Bad::Version => {
                let any = other_than(random, VERSION);
                Spot::byte(0, random.pick(&[1, 1, 0, 3, any]))
            }
            Bad::Statuses => Spot::byte(2, above(random, MOST_STATUSES as u8)),
            Bad::LiveWords => Spot::u16(3, length_above(random, MOST_WORDS)),
            Bad::DefaultWords => Spot::u16(5, length_above(random, MOST_WORDS)),
            Bad::Cells => Spot::u16(7, length_above(random, MOST_STREAM_CELLS)),
            Bad::ConventionalByte => Spot::byte(12, above(random, 1)),
            Bad::Conventional => Spot::byte(12, 1),
            Bad::SendsFrs => Spot::byte(self.entry(random) + 8, above(random, 1)),
            Bad::Edition => {
                let any = other_than(random, 1);
                Spot::byte(self.entry(random) + 9, random.pick(&[2, 2, 0, any]))
            }
            Bad::V => {
                let any = 1 + random.below(0xFFFF);
                Spot::u16(self.entry(random) + 10, random.pick(&[1, 0x100, 0x005, any]))
            }
            Bad::Parent => {
                let any = random.below(255) as u8;
                Spot::byte(self.entry(random) + 12, random.pick(&[0, 1, 31, 32, 254, any]))
            }
            _ => self.operation_spot(random, way),
        }
    }

    fn operation_spot(&self, random: &mut Random, way: Bad) -> Option<Spot> {
        let is_feed = |one: &Operation| matches!(one, Operation::Feed { .. });
        let is_replay = |one: &Operation| matches!(one, Operation::Replay { .. });
        let any_operation = random.pick(&self.operations);
        match way {
            Bad::Operation => Spot::byte(any_operation, above(random, 0x0E)),
            Bad::NotLanded => {
                let later: Vec<u8> = (1..0x0E).filter(|one| !LANDED.has_operation(*one)).collect();
                Spot::byte(any_operation, random.pick(&later))
            }
            Bad::Room => {
                Spot::u16(self.operation(random, is_feed)? + 1, length_above(random, MOST_BYTES))
            }
            Bad::Input => {
                Spot::u16(self.operation(random, is_feed)? + 3, length_above(random, MOST_BYTES))
            }
            Bad::ReplayRoom => {
                Spot::u16(self.operation(random, is_replay)? + 1, length_above(random, MOST_BYTES))
            }
            Bad::ReplayInput => {
                Spot::u16(self.operation(random, is_replay)? + 3, length_above(random, MOST_BYTES))
            }
            Bad::Begun => {
                let lends = |one: &Operation| matches!(one, Operation::LendReplay { .. });
                let at = self.operation(random, lends)? + 1 + offset(&REPLAY_FIELDS, "begun");
                Spot::byte(at, above(random, 1))
            }
            Bad::Made => {
                let lends = |one: &Operation| matches!(one, Operation::LendReplay { .. });
                let front = self.operation(random, lends)? + 1 + REPLAY_FRONT_BYTES;
                let slot = MOMENT_BYTES * random.below(MOST_SLOTS);
                let at = front + slot + offset(&MOMENT_FIELDS, "made Ready");
                Spot::byte(at, above(random, 1))
            }
            Bad::Seen => {
                let reports = |one: &Operation| matches!(one, Operation::Lateness { .. });
                let slot = MOMENT_BYTES * random.below(MOST_SLOTS);
                let at = self.operation(random, reports)? + 1 + slot + offset(&SEEN_FIELDS, "seen");
                Spot::byte(at, above(random, 1))
            }
            Bad::ListLength => {
                let lists = |one: &Operation| matches!(one, Operation::Totals(_));
                Spot::u16(self.operation(random, lists)? + 1, length_above(random, MOST_LISTED))
            }
            Bad::MessageRoom => {
                let writes = |one: &Operation| matches!(one, Operation::WriteMessage { .. });
                Spot::byte(self.operation(random, writes)? + 5, above(random, MOST_MESSAGE as u8))
            }
            Bad::MessageLength => {
                let reads = |one: &Operation| matches!(one, Operation::ReadMessage(_));
                Spot::byte(self.operation(random, reads)? + 1, above(random, MOST_MESSAGE as u8))
            }
            Bad::SheetLength => {
                let is_sheet = |one: &Operation| matches!(one, Operation::Sheet(_));
                Spot::u16(self.operation(random, is_sheet)? + 1, length_above(random, MOST_BYTES))
            }
            _ => self.image_spot(random, way),
        }
    }

    fn image_spot(&self, random: &mut Random, way: Bad) -> Option<Spot> {
        match way {
            Bad::ResetMoment => {
                let any = random.u64() | 1;
                let moment = random.pick(&[1, 256, 1 << 63, any]);
                let at = self.port_field(random, "moment of the last reset")?;
                Some(Spot { at, bytes: moment.to_le_bytes().to_vec() })
            }
            Bad::PortBit => {
                let bits = ["link", "owed", "Received", "Overflow", "DRS Received", "visibility"];
                let name = random.pick(&[&bits[..], &["FRS interrupt"]].concat());
                Spot::byte(self.port_field(random, name)?, above(random, 1))
            }
            Bad::Broken => Spot::byte(self.port_field(random, "broken")?, above(random, 1)),
            Bad::Phase => {
                Spot::byte(self.status_field(random, "phase", |_| true)?, above(random, 2))
            }
            Bad::Cause => {
                Spot::byte(self.status_field(random, "cause", |_| true)?, above(random, 3))
            }
            Bad::Set => Spot::byte(self.status_field(random, "set", |_| true)?, above(random, 0)),
            Bad::PendingWithoutCause => {
                let is_pending = |status: &Status| matches!(status, Status::Pending { .. });
                Spot::byte(self.status_field(random, "cause", is_pending)?, 0)
            }
            _ => None,
        }
    }
}

/// The stream of one case, made bad in this way; none if the case has no place for it.
pub fn spoiled(random: &mut Random, case: &Case, way: Bad) -> Option<Vec<u8>> {
    let mut stream = vec![VERSION];
    put_case(case, &mut stream);
    match way {
        Bad::NoVersion => stream.clear(),
        Bad::Cut => stream.truncate(2 + random.below(stream.len() - 2)),
        _ => {
            let Spot { at, bytes } = Layout::of(case).spot(random, way)?;
            stream[at..at + bytes.len()].copy_from_slice(&bytes);
        }
    }
    Some(stream)
}

#[cfg(test)]
mod tests {
    use super::*;
    use crate::faults::Fault;
    use crate::generate;
    use crate::run::{run_case, run_stream, Ended};
    use crate::stream::WAYS;

    #[test]
    fn a_spoiled_stream_is_bad_in_its_way_and_what_came_before_stands() {
        let cases: Vec<Case> = (0..1500).map(|number| generate::case(8, number)).collect();
        for (way, name) in WAYS {
            let mut done = 0;
            for (number, case) in (0..).zip(&cases) {
                let mut random = Random::for_case(9, number);
                let Some(stream) = spoiled(&mut random, case, way) else {
                    continue;
                };
                let mut output = Vec::new();
                let ended = run_stream(&stream[..], &mut output, Fault::None).unwrap();
                assert_eq!(ended, Ended::BadCase(way), "case {number}: {name}");
                assert!(run_case(case, Fault::None).starts_with(&output), "{name}");
                done += 1;
            }
            assert!(done > 100, "{name}");
        }
    }

    #[test]
    fn the_layout_fits_the_stream() {
        for number in 0..500 {
            let case = generate::case(8, number);
            let mut stream = vec![VERSION];
            put_case(&case, &mut stream);
            let layout = Layout::of(&case);
            assert_eq!(layout.operations.last(), Some(&(stream.len() - 1)));
        }
        let lengths = |fields: &[(&str, usize)]| fields.iter().map(|(_, length)| length).sum();
        let fields = [&PORT_FIELDS[..], &STATUS_FIELDS, &REPLAY_FIELDS];
        let lengths: [usize; 3] = fields.map(lengths);
        assert_eq!(lengths, [PORT_BYTES, STATUS_BYTES, REPLAY_FRONT_BYTES]);
        assert_eq!(lengths, [46, 27, 12]);
        assert_eq!([REPLAY_BYTES, REPORT_BYTES], [300, 288]);
    }
}
