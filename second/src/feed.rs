//! Feeding bytes of a trace to the bench.

use crate::bench::{Answer, Bench};
use crate::faults::Fault;
use crate::records::record_length;
use crate::replay::Made;

pub const ANSWER_LENGTH: usize = 8;

/// What a feed gives, with the records that it ran and the slots that became Ready (for coverage).
#[derive(Clone, PartialEq, Eq, Debug)]
pub struct Fed {
    pub number: u8,
    pub consumed: usize,
    pub written: usize,
    pub ran: Vec<(u8, Answer)>,
    pub made: Vec<Made>,
}

impl Fed {
    pub fn start() -> Fed {
        Fed { number: 0, consumed: 0, written: 0, ran: Vec::new(), made: Vec::new() }
    }

    fn refused(number: u8) -> Fed {
        Fed { number, ..Fed::start() }
    }
}

impl Bench<'_> {
    /// The first of 1 to 5 that applies, or none.
    pub fn feed_refusal(&self) -> Option<u8> {
        if let Some(number) = self.setup.refusal(self.fault) {
            return Some(number);
        }
        self.is_unsound().then_some(5)
    }

    /// Feeds the input, answers going to the front of the room.
    pub fn feed(&mut self, input: &[u8], room: &mut [u8]) -> Fed {
        if let Some(number) = self.feed_refusal() {
            return Fed::refused(number);
        }
        if self.has(Fault::ReplayFeedForgets) && self.replay.ended == 0 {
            (self.replay.taken, self.replay.answered) = (0, 0);
        }
        let mut fed = Fed::start();
        if self.state.port.broken && !self.has(Fault::BrokenIsForgotten) {
            fed.number = 31;
            return fed;
        }
        self.begin_call(false);
        self.clear_moments(Fault::MomentsClearedByFeed);
        for byte in input {
            if let Some(number) = self.take_byte(*byte, room, &mut fed) {
                fed.number = number;
                break;
            }
            fed.consumed += 1;
        }
        fed.made = self.end_call();
        if self.has(Fault::RestOfRoomCleared) {
            room[fed.written..].fill(0);
        }
        fed
    }

    /// Takes one byte, or gives 30 or 31 and leaves it.
    pub fn take_byte(&mut self, byte: u8, room: &mut [u8], fed: &mut Fed) -> Option<u8> {
        let count = usize::from(self.state.port.carried_count);
        let kind = if count == 0 { byte } else { self.state.port.carried[0] };
        let Some(length) = record_length(kind) else {
            self.state.port.broken = !self.has(Fault::BreakNotKept);
            fed.consumed += usize::from(self.has(Fault::UnknownKindConsumed));
            return Some(31);
        };
        let last = count + 1 == length;
        let left = room.len() - fed.written;
        if self.lacks_room(count, last, left) {
            fed.consumed += usize::from(self.has(Fault::LastByteConsumed));
            return Some(30);
        }
        if last {
            self.finish_record(byte, room, fed);
        } else {
            self.carry(byte);
        }
        None
    }

    fn lacks_room(&self, count: usize, last: bool, left: usize) -> bool {
        match self.fault {
            Fault::RoomAtFirstByte => (count == 0 || last) && left < ANSWER_LENGTH,
            Fault::RoomOf9Needed => last && left < ANSWER_LENGTH + 1,
            _ => last && left < ANSWER_LENGTH,
        }
    }

    fn carry(&mut self, byte: u8) {
        let port = &mut self.state.port;
        port.carried[usize::from(port.carried_count)] = byte;
        port.carried_count += 1;
    }

    fn finish_record(&mut self, byte: u8, room: &mut [u8], fed: &mut Fed) {
        let count = usize::from(self.state.port.carried_count);
        let mut record = self.state.port.carried[..count].to_vec();
        record.push(byte);
        self.state.port.carried_count = 0;
        self.state.port.carried.fill(0);
        let answer = self.run_record(&record);
        room[fed.written..fed.written + ANSWER_LENGTH].copy_from_slice(&answer.to_bytes());
        fed.written += ANSWER_LENGTH;
        fed.ran.push((record[0], answer));
    }
}
