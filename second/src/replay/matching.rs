//! Which replay states match the port's carried bytes and the advances due, clause by clause.

use super::faulty_moments::moments_do_not_match;
use super::{Replay, Step, ADVANCE_CAPTURED, STAMP_BYTES, WENT_BACK};
use crate::bench::Bench;
use crate::faults::Fault;
use crate::records::ADVANCE;
use crate::state::Port;

/// The ways in which a replay state doesn't match.
#[derive(Clone, Copy, PartialEq, Eq, Debug)]
pub enum Clause {
    EndedOther,
    ManyBytes,
    CarriedNotBegun,
    CarriedWithStampBytes,
    CarriedWithAnswered,
    CarriedEnded,
    CarriedAdvance,
    AnsweredEarly,
    AnsweredMore,
    AnsweredBack,
    Ended32Early,
    Ended32Forward,
    Ended33Early,
    Ended33Back,
}

pub const CLAUSES: [(Clause, &str); 14] = [
    (Clause::EndedOther, "ended is not 0, 32 or 33"),
    (Clause::ManyBytes, "more than 4 stamp bytes"),
    (Clause::CarriedNotBegun, "bytes carried, not begun"),
    (Clause::CarriedWithStampBytes, "bytes carried and stamp bytes"),
    (Clause::CarriedWithAnswered, "bytes carried and advances answered"),
    (Clause::CarriedEnded, "bytes carried and ended"),
    (Clause::CarriedAdvance, "the first carried byte is 01"),
    (Clause::AnsweredEarly, "advances answered without 4 stamp bytes"),
    (Clause::AnsweredMore, "more advances answered than the stamp has"),
    (Clause::AnsweredBack, "advances answered with a difference of 2^31 or more"),
    (Clause::Ended32Early, "ended 32 without 4 stamp bytes"),
    (Clause::Ended32Forward, "ended 32 without such a difference"),
    (Clause::Ended33Early, "ended 33 without 4 stamp bytes"),
    (Clause::Ended33Back, "ended 33 with such a difference"),
];

/// Those that can't be broken alone: advances answered or an end want 4 stamp bytes, carried bytes want none.
pub const NEVER_ALONE: [Clause; 2] = [Clause::CarriedWithAnswered, Clause::CarriedEnded];

/// Whether a replay state breaks this clause beside this port.
fn breaks(clause: Clause, replay: &Replay, port: &Port, fault: Fault) -> bool {
    let carries = port.carried_count > 0;
    let answered = usize::from(replay.answered);
    let step = replay.step(fault);
    let forward = step.filter(|step| !step.is_back(fault));
    let back = step.is_some_and(|step| step.is_back(fault));
    let has_stamp = usize::from(replay.taken) == STAMP_BYTES;
    match clause {
        Clause::EndedOther => ![0, WENT_BACK, ADVANCE_CAPTURED].contains(&replay.ended),
        Clause::ManyBytes => usize::from(replay.taken) > STAMP_BYTES,
        Clause::CarriedNotBegun => carries && replay.earlier.is_none(),
        Clause::CarriedWithStampBytes => carries && replay.taken > 0,
        Clause::CarriedWithAnswered => carries && answered > 0,
        Clause::CarriedEnded => carries && replay.ended != 0,
        Clause::CarriedAdvance => carries && port.carried[0] == ADVANCE,
        Clause::AnsweredEarly => answered > 0 && !has_stamp,
        Clause::AnsweredMore => {
            forward.is_some_and(|step: Step| answered > step.advances(fault).len())
        }
        Clause::AnsweredBack => back && answered > 0,
        Clause::Ended32Early => replay.ended == WENT_BACK && !has_stamp,
        Clause::Ended32Forward => replay.ended == WENT_BACK && forward.is_some(),
        Clause::Ended33Early => replay.ended == ADVANCE_CAPTURED && !has_stamp,
        Clause::Ended33Back => replay.ended == ADVANCE_CAPTURED && back,
    }
}

/// The clauses that a replay state breaks beside this port.
pub fn broken_clauses(replay: &Replay, port: &Port) -> Vec<Clause> {
    let all = CLAUSES.iter().map(|(clause, _)| *clause);
    all.filter(|clause| breaks(*clause, replay, port, Fault::None)).collect()
}

/// What only a faulty replay asks for.
fn asks_too_much(replay: &Replay, port: &Port, fault: Fault) -> bool {
    let answered = usize::from(replay.answered);
    let due = replay.step(fault).map_or(0, |step| step.advances(fault).len());
    match fault {
        Fault::ReplayAllAnsweredRefused => answered > 0 && answered == due,
        Fault::ReplayAnsweredRefusedAt33 => replay.ended == ADVANCE_CAPTURED && answered > 0,
        Fault::ReplayFirstStampRefusedAt33 => {
            replay.ended == ADVANCE_CAPTURED && replay.earlier.is_none()
        }
        Fault::ReplayBrokenDoesNotMatch => port.broken,
        Fault::ReplayBackStampRefused => {
            replay.ended == 0 && replay.step(fault).is_some_and(|step| step.is_back(fault))
        }
        Fault::ReplayFedRecordRefused => port.carried_count > 1,
        _ => false,
    }
}

impl Bench<'_> {
    /// Whether the replay state doesn't match the port's carried bytes or the advances due.
    pub fn replay_does_not_match(&self) -> bool {
        let (replay, port, fault) = (&self.replay, &self.state.port, self.fault);
        let broken = |clause| !fault.lets_through(clause) && breaks(clause, replay, port, fault);
        let of_moments =
            moments_do_not_match(&replay.moments, &self.state, self.setup.slot_count(), fault);
        CLAUSES.iter().any(|(clause, _)| broken(*clause))
            || asks_too_much(replay, port, fault)
            || of_moments
    }
}
