//! Reading a case stream.

use std::io::{self, Read};

use super::{
    Bad, Operation, MOST_BYTES, MOST_LISTED, MOST_MESSAGE, MOST_STATUSES, MOST_STREAM_CELLS,
    MOST_WORDS, VERSION,
};
use crate::faults::Fault;
use crate::landed::{Landed, LANDED, NO_PARENT};
use crate::replay::{Moments, Replay, Stamp, STAMP_BYTES};
use crate::setup::{Setup, SlotEntry, MOST_SLOTS};
use crate::state::{Cause, Port, State, Status, MOST_CARRIED};
use crate::times::{Code, Nanos, LAST_MOMENT};

/// Why a stream could not be read on.
#[derive(Debug)]
pub enum Trouble {
    /// The stream is no case stream from here on.
    BadCase(Bad),
    Io(io::Error),
}

type Read1<T> = Result<T, Trouble>;

fn ensure(holds: bool, bad: Bad) -> Read1<()> {
    match holds {
        true => Ok(()),
        false => Err(Trouble::BadCase(bad)),
    }
}

/// A status as it stands in an image.
struct RawStatus {
    phase: u8,
    cause: u8,
    ready: u64,
    flr_end: u64,
    set: u8,
    end_of_change: u64,
}

/// Reads numbers, low byte first.
pub struct Source<R: Read> {
    inner: R,
    landed: Landed,
    fault: Fault,
}

impl<R: Read> Source<R> {
    pub fn new(inner: R, fault: Fault) -> Source<R> {
        Source { inner, landed: LANDED, fault }
    }

    fn fill(&mut self, bytes: &mut [u8]) -> Read1<()> {
        self.inner.read_exact(bytes).map_err(|error| match error.kind() {
            io::ErrorKind::UnexpectedEof => Trouble::BadCase(Bad::Cut),
            _ => Trouble::Io(error),
        })
    }

    /// One byte, or none at the end of the stream.
    fn next(&mut self) -> Read1<Option<u8>> {
        let mut byte = [0];
        loop {
            match self.inner.read(&mut byte) {
                Ok(0) => return Ok(None),
                Ok(_) => return Ok(Some(byte[0])),
                Err(error) if error.kind() == io::ErrorKind::Interrupted => {}
                Err(error) => return Err(Trouble::Io(error)),
            }
        }
    }

    fn u8(&mut self) -> Read1<u8> {
        let mut bytes = [0; 1];
        self.fill(&mut bytes)?;
        Ok(bytes[0])
    }

    fn u16(&mut self) -> Read1<u16> {
        let mut bytes = [0; 2];
        self.fill(&mut bytes)?;
        Ok(u16::from_le_bytes(bytes))
    }

    fn u32(&mut self) -> Read1<u32> {
        let mut bytes = [0; 4];
        self.fill(&mut bytes)?;
        Ok(u32::from_le_bytes(bytes))
    }

    fn u64(&mut self) -> Read1<u64> {
        let mut bytes = [0; 8];
        self.fill(&mut bytes)?;
        Ok(u64::from_le_bytes(bytes))
    }

    fn yes_no(&mut self, bad: Bad) -> Read1<bool> {
        let byte = self.u8()?;
        ensure(byte <= 1, bad)?;
        Ok(byte == 1)
    }

    /// A u16 length of at most `most`.
    fn length(&mut self, most: usize, bad: Bad) -> Read1<usize> {
        let length = usize::from(self.u16()?);
        ensure(length <= most, bad)?;
        Ok(length)
    }

    fn bytes(&mut self, count: usize) -> Read1<Vec<u8>> {
        let mut bytes = vec![0; count];
        self.fill(&mut bytes)?;
        Ok(bytes)
    }

    fn words(&mut self, count: usize) -> Read1<Vec<u32>> {
        let bytes = self.bytes(count * 4)?;
        let words = bytes.chunks_exact(4).map(|b| u32::from_le_bytes([b[0], b[1], b[2], b[3]]));
        Ok(words.collect())
    }

    /// The version byte that starts the stream.
    pub fn version(&mut self) -> Read1<()> {
        let version = self.next()?.ok_or(Trouble::BadCase(Bad::NoVersion))?;
        ensure(version == VERSION, Bad::Version)
    }

    /// The front of the next case, up to its operations, or none at the end of the stream.
    pub fn setup(&mut self) -> Read1<Option<Setup>> {
        let Some(slots) = self.next()? else {
            return Ok(None);
        };
        let statuses = usize::from(self.u8()?);
        ensure(statuses <= MOST_STATUSES, Bad::Statuses)?;
        let live_words = self.length(MOST_WORDS, Bad::LiveWords)?;
        let default_words = self.length(MOST_WORDS, Bad::DefaultWords)?;
        let cells = self.length(MOST_STREAM_CELLS, Bad::Cells)?;
        let bus = self.u8()?;
        let port_id = self.u16()?;
        let conventional = self.yes_no(Bad::ConventionalByte)?;
        ensure(self.landed.takes_conventional(conventional), Bad::Conventional)?;
        let mut entries = [SlotEntry::BLANK; MOST_SLOTS];
        for entry in &mut entries {
            *entry = self.entry()?;
        }
        let defaults = self.words(default_words)?;
        Ok(Some(Setup {
            slots,
            statuses,
            live_words,
            cells,
            bus,
            port_id,
            conventional,
            entries,
            defaults,
        }))
    }

    fn entry(&mut self) -> Read1<SlotEntry> {
        let mut entry = SlotEntry {
            reset: Code(self.u16()?),
            dl_up: Code(self.u16()?),
            flr: Code(self.u16()?),
            d3hot: Code(self.u16()?),
            sends_frs: self.yes_no(Bad::SendsFrs)?,
            ..SlotEntry::BLANK
        };
        entry.edition = self.u8()?;
        ensure(self.landed.takes_edition(entry.edition), Bad::Edition)?;
        entry.v = Code(self.u16()?);
        ensure(self.landed.takes_v(entry.v.0), Bad::V)?;
        let parent = self.u8()?;
        ensure(self.landed.takes_parent(parent), Bad::Parent)?;
        entry.parent = (parent != NO_PARENT).then_some(parent);
        Ok(entry)
    }

    /// The next operation, or none at the case's end.
    pub fn operation(&mut self, setup: &Setup) -> Read1<Option<Operation>> {
        let operation = self.u8()?;
        if operation == 0 {
            return Ok(None);
        }
        ensure(operation <= 0x0E, Bad::Operation)?;
        ensure(self.landed.has_operation(operation), Bad::NotLanded)?;
        Ok(Some(match operation {
            0x01 => Operation::SetUp,
            0x02 => self.feed()?,
            0x03 => Operation::Lend { state: Box::new(self.image(setup)?), noise: 0 },
            0x04 => self.sheet()?,
            0x06 => self.capture()?,
            0x07 => Operation::LendReplay { replay: Box::new(self.replay(setup)?), noise: 0 },
            0x08 => Operation::Lateness { seen: Box::new(self.seen()?), noise: 0 },
            0x09 => self.list()?,
            0x0D => self.message_to_write()?,
            0x0E => self.message_to_read()?,
            _ => return Err(Trouble::BadCase(Bad::NotLanded)),
        }))
    }

    fn feed(&mut self) -> Read1<Operation> {
        let room = self.length(MOST_BYTES, Bad::Room)? as u16;
        let length = self.length(MOST_BYTES, Bad::Input)?;
        Ok(Operation::Feed { room, input: self.bytes(length)? })
    }

    fn sheet(&mut self) -> Read1<Operation> {
        let refused = usize::from(self.fault == Fault::SheetOf4096Refused);
        let length = self.length(MOST_BYTES - refused, Bad::SheetLength)?;
        Ok(Operation::Sheet(self.bytes(length)?))
    }

    fn capture(&mut self) -> Read1<Operation> {
        let less = |fault| usize::from(self.fault == fault);
        let most_room = MOST_BYTES - less(Fault::ReplayRoomOf4096Refused);
        let most_input = MOST_BYTES - less(Fault::ReplayInputOf4096Refused);
        let room = self.length(most_room, Bad::ReplayRoom)? as u16;
        let length = self.length(most_input, Bad::ReplayInput)?;
        Ok(Operation::Replay { room, input: self.bytes(length)? })
    }

    /// What a replay state has no use for is ignored: an earlier stamp without begun, stamp bytes past the count.
    fn replay(&mut self, setup: &Setup) -> Read1<Replay> {
        let begun = self.yes_no(Bad::Begun)?;
        let earlier = self.u32()?;
        let taken = self.u8()?;
        let mut bytes = [0; STAMP_BYTES];
        self.fill(&mut bytes)?;
        let (answered, ended) = (self.u8()?, self.u8()?);
        let past = &mut bytes[usize::from(taken).min(STAMP_BYTES)..];
        let begun = begun || self.fault == Fault::ReplayUnbegunStampTaken && earlier != 0;
        ensure(!self.refuses_replay(begun, earlier, past, [taken, answered, ended]), Bad::Begun)?;
        if self.fault != Fault::ReplayBytesPastCountTaken {
            past.fill(0);
        }
        let earlier = begun.then_some(Stamp(earlier));
        let moments = self.moments(setup.slot_count())?;
        Ok(Replay { earlier, taken, bytes, answered, ended, moments })
    }

    /// The moments of a replay image; before Q-7 there are none.
    fn moments(&mut self, count: usize) -> Read1<Moments> {
        let mut moments = [None; MOST_SLOTS];
        if !self.landed.lateness {
            return Ok(moments);
        }
        for (slot, moment) in moments.iter_mut().enumerate() {
            *moment = self.time(Bad::Made, Fault::MomentNotMadeTaken, Fault::MomentNotMadeBad)?;
            let bad = match self.fault {
                Fault::MomentPastLastBad => moment.is_some_and(|moment| moment > LAST_MOMENT),
                Fault::MomentPastCountBad => moment.is_some() && slot >= count,
                _ => false,
            };
            ensure(!bad, Bad::Made)?;
        }
        Ok(moments)
    }

    /// Whether a time is there, and the time, which is ignored if it isn't.
    fn time(&mut self, bad: Bad, taken: Fault, refused: Fault) -> Read1<Option<Nanos>> {
        let there = self.yes_no(bad)?;
        let time = self.u64()?;
        ensure(self.fault != refused || there || time == 0, bad)?;
        let counts = there || self.fault == taken && time != 0;
        Ok(counts.then_some(Nanos(time)))
    }

    fn seen(&mut self) -> Read1<[Option<Nanos>; MOST_SLOTS]> {
        let mut seen = [None; MOST_SLOTS];
        for time in &mut seen {
            *time = self.time(Bad::Seen, Fault::LatenessNotSeenTaken, Fault::LatenessNotSeenBad)?;
        }
        Ok(seen)
    }

    fn list(&mut self) -> Read1<Operation> {
        let refused = usize::from(self.fault == Fault::TotalsOf9100Bad);
        let count = self.length(MOST_LISTED - refused, Bad::ListLength)?;
        let list: Read1<Vec<i64>> = (0..count).map(|_| Ok(self.u64()? as i64)).collect();
        Ok(Operation::Totals(list?))
    }

    /// What only a faulty reader refuses in a replay image.
    fn refuses_replay(&self, begun: bool, earlier: u32, past: &[u8], counts: [u8; 3]) -> bool {
        let [taken, answered, ended] = counts;
        match self.fault {
            Fault::ReplayUnbegunStampRefused => !begun && earlier != 0,
            Fault::ReplayBytesPastCountRefused => past.iter().any(|byte| *byte != 0),
            Fault::ReplayTakenRefused => taken > 4,
            Fault::ReplayAnsweredRefused => answered > 2,
            Fault::ReplayEndedRefused => ![0, 32, 33].contains(&ended),
            _ => false,
        }
    }

    fn message_to_write(&mut self) -> Read1<Operation> {
        let (kind, id, reason, room) = (self.u8()?, self.u16()?, self.u8()?, self.u8()?);
        ensure(usize::from(room) <= MOST_MESSAGE, Bad::MessageRoom)?;
        Ok(Operation::WriteMessage { kind, id, reason, room })
    }

    fn message_to_read(&mut self) -> Read1<Operation> {
        let length = usize::from(self.u8()?);
        ensure(length <= MOST_MESSAGE, Bad::MessageLength)?;
        Ok(Operation::ReadMessage(self.bytes(length)?))
    }

    fn image(&mut self, setup: &Setup) -> Read1<State> {
        let port = self.port()?;
        let statuses: Read1<Vec<Status>> = (0..setup.statuses).map(|_| self.status()).collect();
        Ok(State {
            port,
            statuses: statuses?,
            live: self.words(setup.live_words)?,
            cells: self.words(setup.cells)?,
        })
    }

    fn port(&mut self) -> Read1<Port> {
        let mut port = Port {
            clock: Nanos(self.u64()?),
            reset_at: Nanos(self.u64()?),
            link: self.yes_no(Bad::PortBit)?,
            owed: self.yes_no(Bad::PortBit)?,
            received: self.yes_no(Bad::PortBit)?,
            overflow: self.yes_no(Bad::PortBit)?,
            drs_received: self.yes_no(Bad::PortBit)?,
            visibility: self.yes_no(Bad::PortBit)?,
            frs_interrupt: self.yes_no(Bad::PortBit)?,
            signalling: self.signalling()?,
            start: self.u16()?,
            depth: self.u16()?,
            carried_count: self.u8()?,
            carried: [0; MOST_CARRIED],
            broken: false,
        };
        ensure(self.landed.takes_reset_moment(port.reset_at.0), Bad::ResetMoment)?;
        self.fill(&mut port.carried)?;
        port.broken = self.yes_no(Bad::Broken)?;
        Ok(port)
    }

    /// Any byte.
    fn signalling(&mut self) -> Read1<u8> {
        let byte = self.u8()?;
        ensure(self.fault != Fault::SignallingRefused || byte <= 3, Bad::PortBit)?;
        Ok(if self.fault == Fault::SignallingOfTwoBits { byte & 3 } else { byte })
    }

    fn status(&mut self) -> Read1<Status> {
        let raw = RawStatus {
            phase: self.u8()?,
            cause: self.u8()?,
            ready: self.u64()?,
            flr_end: self.u64()?,
            set: self.u8()?,
            end_of_change: self.u64()?,
        };
        ensure(self.landed.takes_phase(raw.phase), Bad::Phase)?;
        ensure(self.landed.takes_cause(raw.cause), Bad::Cause)?;
        ensure(self.landed.takes_set(raw.set), Bad::Set)?;
        ensure(!self.refuses_what_is_ignored(&raw), Bad::Phase)?;
        let ready = Nanos(raw.ready);
        let pending = |cause| Ok(Status::Pending { cause, ready });
        match (raw.phase, raw.cause) {
            (2, 1..) if self.fault == Fault::IgnoredCauseTaken => pending(Cause::LinkUp),
            (0, _) => Ok(Status::Down),
            (1, 0) => Err(Trouble::BadCase(Bad::PendingWithoutCause)),
            (1, 1) => pending(Cause::LinkUp),
            (1, 2) => pending(Cause::Flr { end: Nanos(raw.flr_end) }),
            (1, 3) => pending(Cause::D3hot),
            (1, _) => Err(Trouble::BadCase(Bad::Cause)),
            (2, _) => Ok(Status::Ready),
            _ => Err(Trouble::BadCase(Bad::Phase)),
        }
    }

    /// What only a faulty reader refuses: something that a status has no use for.
    fn refuses_what_is_ignored(&self, raw: &RawStatus) -> bool {
        let pending = raw.phase == 1;
        match self.fault {
            Fault::IgnoredCauseRefused => !pending && raw.cause != 0,
            Fault::IgnoredReadyTimeRefused => !pending && raw.ready != 0,
            Fault::IgnoredFlrEndRefused => pending && raw.cause != 2 && raw.flr_end != 0,
            Fault::IgnoredEndOfChangeRefused => raw.end_of_change != 0,
            _ => false,
        }
    }
}

#[cfg(test)]
mod tests {
    use super::*;
    use crate::generate;
    use crate::stream::{put_case, Case};

    /// The front of a case as a reader with these requests landed takes it.
    fn front(case: &Case, landed: Landed) -> Read1<Setup> {
        let mut bytes = Vec::new();
        put_case(case, &mut bytes);
        let mut source = Source { inner: &bytes[..], landed, fault: Fault::None };
        source.setup().map(|setup| setup.expect("a case is there"))
    }

    #[test]
    fn a_field_is_taken_once_its_request_has_landed() {
        type Change = fn(&mut Setup);
        let later: [(Change, Landed); 4] = [
            (|setup| setup.conventional = true, Landed { conventional: true, ..LANDED }),
            (|setup| setup.entries[31].edition = 2, Landed { editions: true, ..LANDED }),
            (|setup| setup.entries[5].v = Code(7), Landed { children: true, ..LANDED }),
            (|setup| setup.entries[0].parent = Some(3), Landed { children: true, ..LANDED }),
        ];
        for (change, landed) in later {
            let mut case = generate::case(4, 1);
            change(&mut case.setup);
            assert!(front(&case, Landed::NOTHING).is_err());
            assert_eq!(front(&case, landed).unwrap(), case.setup);
        }
    }

    #[test]
    fn a_replay_image_has_moments_once_lateness_has_landed() {
        let (setup, bytes) = (generate::case(4, 1).setup, [1; 300]);
        let before = Landed { lateness: false, ..LANDED };
        for (landed, length, moment) in [(before, 12, None), (LANDED, 300, Some(Nanos(0x0101)))] {
            let mut bytes = bytes;
            bytes[15..21].fill(0);
            let mut source = Source { inner: &bytes[..], landed, fault: Fault::None };
            let replay = source.replay(&setup).unwrap();
            assert_eq!((bytes.len() - source.inner.len(), replay.moments[0]), (length, moment));
        }
    }

    /// A status of these bytes, read.
    fn status(phase: u8, cause: u8, set: u8) -> Result<Status, Bad> {
        let mut bytes = [0x77; 27];
        (bytes[0], bytes[1], bytes[18]) = (phase, cause, set);
        match Source::new(&bytes[..], Fault::None).status() {
            Ok(status) => Ok(status),
            Err(Trouble::BadCase(bad)) => Err(bad),
            Err(Trouble::Io(error)) => panic!("{error}"),
        }
    }

    #[test]
    fn what_a_status_has_no_use_for_is_ignored() {
        let time = Nanos(0x7777_7777_7777_7777);
        for cause in 0..=3 {
            assert_eq!(status(0, cause, 0), Ok(Status::Down));
            assert_eq!(status(2, cause, 0), Ok(Status::Ready));
        }
        let pending = |cause| Ok(Status::Pending { cause, ready: time });
        assert_eq!(status(1, 1, 0), pending(Cause::LinkUp));
        assert_eq!(status(1, 2, 0), pending(Cause::Flr { end: time }));
        assert_eq!(status(1, 3, 0), pending(Cause::D3hot));
    }

    #[test]
    fn what_no_status_of_the_base_holds_is_bad() {
        assert_eq!(status(1, 0, 0), Err(Bad::PendingWithoutCause));
        assert_eq!(status(3, 0, 0), Err(Bad::Phase));
        for phase in 0..=2 {
            assert_eq!(status(phase, 4, 0), Err(Bad::Cause));
            assert_eq!(status(phase, 1, 1), Err(Bad::Set));
        }
    }
}
