//! What only a faulty replay does.

use super::{Asked, Replayed, Step, ORDER, WENT_BACK};
use crate::bench::Bench;
use crate::faults::Fault;
use crate::feed::{Fed, ANSWER_LENGTH};
use crate::records::{record_length, ADVANCE};
use crate::replay::Replay;

/// The order in which a call is asked for its numbers.
pub(super) fn order(fault: Fault) -> [Asked; 5] {
    use Asked::{Broken, Ended, Match, Port, SetUp};
    match fault {
        Fault::ReplayEndedFirst => [Ended, SetUp, Port, Match, Broken],
        Fault::ReplayEndedBeforeUnsound => [SetUp, Ended, Port, Match, Broken],
        Fault::ReplayEndedBeforeMatch => [SetUp, Port, Ended, Match, Broken],
        Fault::ReplayBrokenBeforeEnded => [SetUp, Port, Match, Broken, Ended],
        Fault::ReplayBrokenBeforeMatch => [SetUp, Port, Broken, Match, Ended],
        Fault::ReplayMatchFirst => [Match, SetUp, Port, Ended, Broken],
        _ => ORDER,
    }
}

impl Bench<'_> {
    /// A stamp's byte was taken; a faulty replay acts once the stamp is whole.
    pub(super) fn stamp_taken(&mut self, room: &mut [u8], fed: &mut Fed) -> Option<u8> {
        let step = self.replay.step(self.fault)?;
        match self.fault {
            Fault::ReplayAdvancesAtStamp => {
                let number = self.answer_advances(0, step, room, fed);
                fed.consumed += usize::from(number.is_some());
                number
            }
            Fault::ReplayBackAtStamp if step.is_back(self.fault) => {
                fed.consumed += 1;
                Some(self.end_replay(WENT_BACK, fed))
            }
            Fault::ReplayBegunAtStamp => {
                self.replay.earlier = self.replay.earlier.or(Some(step.stamp));
                None
            }
            _ => None,
        }
    }

    /// A number that a faulty replay asks for too early at a kind byte.
    pub(super) fn asked_too_early(
        &mut self,
        kind: u8,
        step: Step,
        room: &[u8],
        fed: &Fed,
    ) -> Option<u8> {
        let unknown = record_length(kind).is_none();
        let lacks_room = room.len() - fed.written < ANSWER_LENGTH;
        let due = step.advances(self.fault).len() > usize::from(self.replay.answered);
        let back = step.is_back(self.fault);
        match self.fault {
            Fault::ReplayUnknownBeforeBack if unknown && back => {}
            Fault::ReplayUnknownBeforeAdvances if unknown && !back => {}
            Fault::ReplayRoomBeforeBack if lacks_room && back => return Some(30),
            Fault::ReplayRoomBefore33 if lacks_room && due && kind == ADVANCE => return Some(30),
            Fault::ReplayRoomBeforeUnknown if lacks_room && unknown && !back => return Some(30),
            _ => return None,
        }
        self.state.port.broken = true;
        Some(31)
    }

    /// The kind byte first, then the advances, where the room lets both be.
    pub(super) fn kind_before_advances(
        &mut self,
        kind: u8,
        step: Step,
        room: &mut [u8],
        replayed: &mut Replayed,
    ) -> Option<u8> {
        let number = self.take_byte(kind, room, &mut replayed.fed);
        self.kind_taken(number, step, replayed);
        if number.is_none() {
            self.answer_advances(kind, step, room, &mut replayed.fed);
            self.replay.answered = 0;
        }
        number
    }

    /// How 31 leaves a stamp: as it is.
    pub(super) fn leave_broken(&mut self, step: Step) {
        match self.fault {
            Fault::ReplayEarlierAt31 => self.replay.begin_record(step, self.fault),
            Fault::ReplayEndsAt31 => self.replay.ended = 31,
            _ => {}
        }
    }

    /// How a refused call leaves the replay state: as it is.
    pub(super) fn leave_refused(&mut self, number: u8) {
        if self.has(Fault::ReplayRefusalResets) && number <= 5 {
            self.replay = Replay::FRESH;
        }
    }

    /// How a call leaves its state and its room: as they are.
    pub(super) fn leave_replay(&mut self, room: &mut [u8], fed: &mut Fed) {
        let answered_22 = fed.ran.last().is_some_and(|(_, answer)| answer.status == 22);
        match self.fault {
            Fault::ReplayCutDropsStamp if self.replay.ended == 0 => {
                (self.replay.taken, self.replay.answered) = (0, 0);
            }
            Fault::ReplayCutForgetsAdvances => self.replay.answered = 0,
            Fault::Replay22NotAnswered if answered_22 && self.replay.answered > 0 => {
                self.replay.answered -= 1;
            }
            Fault::ReplayCutForgetsEarlier if self.state.port.carried_count == 0 => {
                self.replay.earlier = None;
            }
            Fault::ReplayRoomCleared => room[fed.written..].fill(0),
            Fault::ReplayBackGivenAtCut => {
                let back =
                    self.replay.step(self.fault).is_some_and(|step| step.is_back(self.fault));
                if fed.number == 0 && back {
                    fed.number = self.end_replay(WENT_BACK, fed);
                }
            }
            _ => {}
        }
    }
}
