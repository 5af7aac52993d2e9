//! Replay of captures: stamped records, fed as the trace that they stand for.

mod faulty;
mod faulty_moments;
mod matching;
mod moments;
pub mod reached;
mod stamps;
#[cfg(test)]
mod tests;

pub use matching::{broken_clauses, Clause, CLAUSES, NEVER_ALONE};
pub use moments::{Made, Moments, Running};
pub use stamps::{Stamp, Step, Ticks, BACK, NANOSECONDS_PER_TICK};

use crate::bench::Bench;
use crate::faults::Fault;
use crate::feed::{Fed, ANSWER_LENGTH};
use crate::records::{record_length, ADVANCE};
use crate::setup::MOST_SLOTS;

pub const STAMP_BYTES: usize = 4;
/// The recorder went back.
pub const WENT_BACK: u8 = 32;
/// A kind 01 after a stamp.
pub const ADVANCE_CAPTURED: u8 = 33;

/// What a replay keeps from call to call.
#[derive(Clone, Copy, PartialEq, Eq, Debug)]
pub struct Replay {
    /// The stamp of the last record whose kind byte was consumed; none until the replay has begun.
    pub earlier: Option<Stamp>,
    /// How many bytes of the next stamp are taken. Any byte may be lent.
    pub taken: u8,
    /// Those bytes, and 0 past the count.
    pub bytes: [u8; STAMP_BYTES],
    /// How many advances of that stamp are answered. Any byte may be lent.
    pub answered: u8,
    /// 0, or the number by which the replay ended, 32 or 33. Any byte may be lent.
    pub ended: u8,
    /// When the replay last made each slot Ready. Any moment may be lent, in slots past the set-up's count too.
    pub moments: Moments,
}

impl Replay {
    pub const FRESH: Replay = Replay {
        earlier: None,
        taken: 0,
        bytes: [0; STAMP_BYTES],
        answered: 0,
        ended: 0,
        moments: [None; MOST_SLOTS],
    };

    /// The stamp whose kind byte is next, with the one before it; none without 4 stamp bytes.
    pub fn step(&self, fault: Fault) -> Option<Step> {
        let mut bytes = self.bytes;
        if fault == Fault::ReplayStampHighByteFirst {
            bytes.reverse();
        }
        let step = Step { earlier: self.earlier, stamp: Stamp::from_bytes(bytes) };
        (usize::from(self.taken) == STAMP_BYTES).then_some(step)
    }

    fn take_stamp_byte(&mut self, byte: u8) {
        self.bytes[usize::from(self.taken)] = byte;
        self.taken += 1;
    }

    /// A kind byte was consumed: its stamp is now the earlier one.
    fn begin_record(&mut self, step: Step, fault: Fault) {
        let first = self.earlier.filter(|_| fault == Fault::ReplayFromFirstStamp);
        self.earlier = first.or(Some(step.stamp));
        self.taken = 0;
        if fault != Fault::ReplayAnsweredKept {
            self.answered = 0;
        }
        if fault != Fault::ReplayOldBytesShown {
            self.bytes = [0; STAMP_BYTES];
        }
    }
}

/// What a call is asked for before its bytes.
#[derive(Clone, Copy)]
enum Asked {
    /// 1 to 4.
    SetUp,
    /// 5.
    Port,
    /// 5 as well.
    Match,
    /// 32 or 33.
    Ended,
    /// 31.
    Broken,
}

const ORDER: [Asked; 5] = [Asked::SetUp, Asked::Port, Asked::Match, Asked::Ended, Asked::Broken];

/// What a replay call gives, with the stamps whose kind byte it consumed (for coverage; what became Ready is in `fed`).
#[derive(Clone, PartialEq, Eq, Debug)]
pub struct Replayed {
    pub fed: Fed,
    pub steps: Vec<Step>,
}

impl Bench<'_> {
    /// The first of 1 to 5, an ended replay's number and 31 that applies, or none.
    fn replay_refusal(&self, input: &[u8]) -> Option<u8> {
        let broken = self.state.port.broken && !self.has(Fault::BrokenIsForgotten);
        faulty::order(self.fault).into_iter().find_map(|asked| match asked {
            Asked::SetUp => self.setup.refusal(self.fault),
            Asked::Port => self.is_unsound().then_some(5),
            Asked::Match => self.replay_does_not_match().then_some(5),
            Asked::Ended => self.ended_number(input),
            Asked::Broken => broken.then_some(31),
        })
    }

    /// The number by which the replay has ended, if it has.
    fn ended_number(&self, input: &[u8]) -> Option<u8> {
        let ended = self.replay.ended;
        let ended = match self.fault {
            Fault::ReplayEndedGoesOn => 0,
            Fault::ReplayEndedNeedsInput if input.is_empty() => 0,
            Fault::ReplayEndedGives32 if ended != 0 => WENT_BACK,
            Fault::ReplayEndedGives31 if ended != 0 => 31,
            _ => ended,
        };
        (ended != 0).then_some(ended)
    }

    /// Replays the bytes of a capture, answers going to the front of the room.
    pub fn replay(&mut self, input: &[u8], room: &mut [u8]) -> Replayed {
        let mut replayed = Replayed { fed: Fed::start(), steps: Vec::new() };
        if let Some(number) = self.replay_refusal(input) {
            self.leave_refused(number);
            self.leave_refused_moments(number);
            replayed.fed.number = number;
            return replayed;
        }
        let (moments, statuses) = (self.replay.moments, self.state.statuses.clone());
        self.begin_call(true);
        self.begin_moments();
        for byte in input {
            if let Some(number) = self.replay_byte(*byte, room, &mut replayed) {
                replayed.fed.number = number;
                break;
            }
            replayed.fed.consumed += 1;
        }
        self.leave_replay(room, &mut replayed.fed);
        self.leave_moments(replayed.fed.number, &moments, &statuses);
        replayed.fed.made = self.end_call();
        replayed
    }

    /// Takes one byte: of a record's body, of a stamp, or a kind byte; or gives a number and leaves it.
    fn replay_byte(&mut self, byte: u8, room: &mut [u8], replayed: &mut Replayed) -> Option<u8> {
        if self.state.port.carried_count > 0 {
            return self.take_byte(byte, room, &mut replayed.fed);
        }
        match self.replay.step(self.fault) {
            None => {
                self.replay.take_stamp_byte(byte);
                self.stamp_taken(room, &mut replayed.fed)
            }
            Some(step) => self.replay_kind(byte, step, room, replayed),
        }
    }

    /// At the kind byte: 32, then 33, then the advances due, and the byte once they are answered.
    fn replay_kind(
        &mut self,
        kind: u8,
        step: Step,
        room: &mut [u8],
        replayed: &mut Replayed,
    ) -> Option<u8> {
        let fed = &mut replayed.fed;
        if let Some(number) = self.asked_too_early(kind, step, room, fed) {
            return Some(number);
        }
        if let Some(number) = self.ending(kind, step) {
            return Some(self.end_replay(number, fed));
        }
        if self.has(Fault::ReplayAdvancesAfterKind) {
            return self.kind_before_advances(kind, step, room, replayed);
        }
        if let Some(number) = self.answer_advances(kind, step, room, fed) {
            return Some(number);
        }
        if kind == ADVANCE && self.has(Fault::ReplayAdvanceAfterAdvances) {
            return Some(self.end_replay(ADVANCE_CAPTURED, fed));
        }
        let number = self.take_byte(kind, room, fed);
        self.kind_taken(number, step, replayed);
        number
    }

    /// The stamp is the earlier one from the moment that its kind byte is consumed.
    fn kind_taken(&mut self, number: Option<u8>, step: Step, replayed: &mut Replayed) {
        if number == Some(31) {
            self.leave_broken(step);
        }
        if number.is_none() {
            replayed.steps.push(step);
        }
        let early = number == Some(30) && self.has(Fault::ReplayEarlierAt30);
        if number.is_none() || early {
            self.replay.begin_record(step, self.fault);
        }
    }

    /// 32 or 33, if the stamp and the kind end the replay.
    fn ending(&self, kind: u8, step: Step) -> Option<u8> {
        let back = step.is_back(self.fault).then_some(WENT_BACK);
        let excused = match self.fault {
            Fault::ReplayAdvanceTaken | Fault::ReplayAdvanceAfterAdvances => true,
            Fault::ReplayAdvanceTakenFirst => step.earlier.is_none(),
            Fault::ReplayAdvanceTakenAtOnce => step.earlier == Some(step.stamp),
            _ => false,
        };
        let advance = (kind == ADVANCE && !excused).then_some(ADVANCE_CAPTURED);
        match self.fault {
            Fault::ReplayAdvanceBeforeBack => advance.or(back),
            _ => back.or(advance),
        }
    }

    /// Ends the replay with a number; the kind byte isn't consumed.
    fn end_replay(&mut self, number: u8, fed: &mut Fed) -> u8 {
        if !self.has(Fault::ReplayEndForgotten) {
            self.replay.ended = number;
        }
        match self.fault {
            Fault::ReplayKindConsumedAt32 => fed.consumed += usize::from(number == WENT_BACK),
            Fault::ReplayKindConsumedAt33 => fed.consumed += usize::from(number != WENT_BACK),
            Fault::ReplayStampGivenBack => fed.consumed -= fed.consumed.min(STAMP_BYTES),
            Fault::ReplayEndDropsStamp => self.replay.taken = 0,
            Fault::ReplayEndBreaks => self.state.port.broken = true,
            Fault::ReplayEndForgetsAdvances => self.replay.answered = 0,
            Fault::ReplayEndUndoes => fed.written = 0,
            _ => {}
        }
        number
    }

    /// Answers the advances of a stamp that aren't answered; 30 where there is no room for one.
    fn answer_advances(
        &mut self,
        kind: u8,
        step: Step,
        room: &mut [u8],
        fed: &mut Fed,
    ) -> Option<u8> {
        let advances = step.advances(self.fault);
        if self.has(Fault::ReplayAdvancesRepeated) && fed.consumed == 0 {
            self.replay.answered = 0;
        }
        while let Some(ns) = advances.get(usize::from(self.replay.answered)) {
            let due = advances.len() - usize::from(self.replay.answered);
            if room.len() - fed.written < self.room_for_advance(kind, due) {
                return Some(30);
            }
            self.answer_advance(*ns, room, fed);
        }
        None
    }

    /// How much room an advance needs, with so many due.
    fn room_for_advance(&self, kind: u8, due: usize) -> usize {
        let one_byte = usize::from(record_length(kind) == Some(1));
        match self.fault {
            Fault::ReplayRoomForAllAdvances => due * ANSWER_LENGTH,
            Fault::ReplayRoomForRecordToo => (1 + one_byte) * ANSWER_LENGTH,
            Fault::ReplayAdvanceRoomOf9 => ANSWER_LENGTH + 1,
            Fault::ReplayAdvancesUnanswered => 0,
            _ => ANSWER_LENGTH,
        }
    }

    /// Runs an advance as the record 01 that it stands for.
    fn answer_advance(&mut self, ns: u32, room: &mut [u8], fed: &mut Fed) {
        let answer = self.run_record(&[&[ADVANCE], &ns.to_le_bytes()[..]].concat());
        fed.ran.push((ADVANCE, answer));
        if !self.has(Fault::ReplayAdvancesUnanswered) {
            room[fed.written..fed.written + ANSWER_LENGTH].copy_from_slice(&answer.to_bytes());
            fed.written += ANSWER_LENGTH;
        }
        self.replay.answered += 1;
        if self.has(Fault::Replay22SkipsRest) && answer.status == 22 {
            self.replay.answered = 2;
        }
    }
}
