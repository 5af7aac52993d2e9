//! Which moments a replay keeps, and what only a faulty one keeps or clears.

use super::{Made, Moments, Replay};
use crate::bench::Bench;
use crate::faults::Fault;
use crate::setup::MOST_SLOTS;
use crate::state::{Cause, State, Status};
use crate::times::{Nanos, LAST_MOMENT};

const NOTHING: Moments = [None; MOST_SLOTS];

impl Bench<'_> {
    /// The moment to keep for a slot that became Ready: its ready time in a replay call, none in another.
    pub(super) fn moment_to_keep(&self, made: &Made) -> Option<Nanos> {
        if !self.replays && !self.has(Fault::MomentsKeptByFeed) {
            return None;
        }
        if self.leaves_out(made) {
            return None;
        }
        let earlier = self.replay.moments[made.slot];
        let moment = made.moment;
        Some(match (self.fault, made.cause) {
            (Fault::MomentBeforeRecord, _) => made.by.clock,
            (Fault::MomentOfWholeTicks, _) => Nanos(moment.0 / 4 * 4),
            (Fault::MomentOf32Bits, _) => Nanos(moment.0 % (1 << 32)),
            (Fault::MomentOfFlrEnd, Cause::Flr { end }) => end,
            (Fault::MomentOneLate, _) => Nanos(moment.0 + 1),
            (Fault::MomentIsTheWait, _) => Nanos(moment.0 - made.by.clock.0),
            (Fault::MomentFirstKept, _) => earlier.unwrap_or(moment),
            (Fault::MomentGreatestKept, _) => earlier.map_or(moment, |earlier| earlier.max(moment)),
            (Fault::MomentLeastKept, _) => earlier.map_or(moment, |earlier| earlier.min(moment)),
            _ => moment,
        })
    }

    /// Whether only a faulty replay keeps no moment of this.
    fn leaves_out(&self, made: &Made) -> bool {
        let at_once = made.at_once();
        let by_flr = matches!(made.cause, Cause::Flr { .. });
        let same_record = || self.made.iter().filter(|other| other.by.number == made.by.number);
        match self.fault {
            Fault::MomentNotOfLinkUp => made.cause == Cause::LinkUp,
            Fault::MomentNotOfFlr => by_flr,
            Fault::MomentNotOfD3hot => made.cause == Cause::D3hot,
            Fault::MomentNotOfLinkUpAtOnce => made.cause == Cause::LinkUp && at_once,
            Fault::MomentNotOfFlrAtOnce => by_flr && at_once,
            Fault::MomentNotOfD3hotAtOnce => made.cause == Cause::D3hot && at_once,
            Fault::MomentNotInAdvance => !at_once,
            Fault::MomentOfFrsSendersOnly => !self.setup.entries[made.slot].sends_frs,
            Fault::MomentFirstOfCall => self.made.iter().any(|other| other.slot == made.slot),
            Fault::MomentOneOfAdvance => !at_once && same_record().count() > 0,
            Fault::MomentOneOfTie => same_record().any(|other| other.moment == made.moment),
            Fault::MomentNotOfSlot0 => made.slot == 0,
            _ => false,
        }
    }

    /// A record was run, which made Ready what came to the list after so many; a faulty replay keeps the clock that it left.
    pub(super) fn leave_record_moments(&mut self, before: usize) {
        if self.has(Fault::MomentAfterRecord) && self.replays {
            self.clock_for(before);
        }
    }

    /// Keeps the clock for all that came to the list after so many.
    fn clock_for(&mut self, before: usize) {
        for made in &self.made[before..] {
            self.replay.moments[made.slot] = Some(self.state.port.clock);
        }
    }

    /// Keeps the clock for each slot that is Ready.
    fn clock_for_ready(&mut self) {
        for (status, moment) in self.state.statuses.iter().zip(&mut self.replay.moments) {
            if *status == Status::Ready {
                *moment = Some(self.state.port.clock);
            }
        }
    }

    /// An advance was answered 22, in which a faulty replay makes slots Ready nevertheless.
    pub fn leave_22(&mut self) {
        if !self.has(Fault::MomentKeptAt22) || !self.replays {
            return;
        }
        for (status, moment) in self.state.statuses.iter().zip(&mut self.replay.moments) {
            if let Status::Pending { ready, .. } = status {
                *moment = Some(*ready).filter(|ready| *ready <= LAST_MOMENT).or(*moment);
            }
        }
    }

    /// Clears all moments with this fault.
    pub fn clear_moments(&mut self, fault: Fault) {
        if self.has(fault) {
            self.replay.moments = NOTHING;
        }
    }

    /// Clears the moment of one slot with this fault.
    pub fn clear_moment(&mut self, slot: usize, fault: Fault) {
        if self.has(fault) {
            self.replay.moments[slot] = None;
        }
    }

    /// How a call that isn't refused finds the moments: as they are.
    pub(super) fn begin_moments(&mut self) {
        self.clear_moments(Fault::MomentsClearedByCall);
        if self.replay == (Replay { moments: self.replay.moments, ..Replay::FRESH }) {
            self.clear_moments(Fault::MomentsClearedByStart);
        }
    }

    /// How a call that isn't refused leaves the moments: as they are.
    pub(super) fn leave_moments(&mut self, number: u8, kept: &Moments, before: &[Status]) {
        let undone = match self.fault {
            Fault::MomentsUndoneAt30 => number == 30,
            Fault::MomentsUndoneAt31 => number == 31,
            Fault::MomentsUndoneAtEnd => number == 32 || number == 33,
            _ => false,
        };
        if undone {
            self.replay.moments = *kept;
        }
        if [32, 33].contains(&number) {
            self.clear_moments(Fault::MomentsClearedByEnd);
        }
        if self.has(Fault::MomentAtCallEnd) {
            self.clock_for(0);
        }
        if self.has(Fault::MomentOfEveryReadySlot) {
            self.clock_for_ready();
        }
        for slot in 0..self.state.statuses.len() {
            self.leave_moment(slot, kept[slot], before[slot]);
        }
    }

    /// By how the slot is now, or was before the call.
    fn leave_moment(&mut self, slot: usize, kept: Option<Nanos>, before: Status) {
        let now = self.state.statuses[slot];
        let pending = matches!(now, Status::Pending { .. });
        let undone = match self.fault {
            Fault::MomentUndoneIfPending => pending,
            Fault::MomentUndoneIfDown => now == Status::Down,
            Fault::MomentOfNewlyReadyOnly => before == Status::Ready,
            _ => return,
        };
        if undone {
            self.replay.moments[slot] = kept;
        }
    }

    /// How a refused call leaves the moments: as they are.
    pub(super) fn leave_refused_moments(&mut self, number: u8) {
        if number <= 5 {
            self.clear_moments(Fault::MomentsClearedByRefusal);
        }
        if [32, 33].contains(&number) {
            self.clear_moments(Fault::MomentsClearedAfterEnd);
        }
        if number == 5 && self.has(Fault::MomentsKeptByRefusal) {
            self.clock_for_ready();
        }
    }

    /// How a set-up that isn't refused leaves the moments: as they are.
    pub fn set_up_moments(&mut self) {
        self.clear_moments(Fault::MomentsClearedBySetUp);
        if self.has(Fault::MomentsKeptBySetUp) {
            self.replay.moments[..self.state.statuses.len()].fill(Some(Nanos(0)));
        }
    }

    /// How the lending of a state leaves the moments: as they are.
    pub fn lend_moments(&mut self) {
        self.clear_moments(Fault::MomentsClearedByLend);
        if self.has(Fault::MomentsKeptByLend) {
            self.clock_for_ready();
        }
    }

    /// A replay state that was lent, as this bench takes it.
    pub fn take_lent(&self, lent: &Replay) -> Replay {
        let mut replay = *lent;
        match self.fault {
            Fault::ReplayLendForgotten => replay = self.replay,
            Fault::MomentsNotLent => replay.moments = self.replay.moments,
            Fault::MomentsPastCountNotLent => {
                replay.moments[self.setup.slot_count().min(MOST_SLOTS)..].fill(None);
            }
            _ => {}
        }
        replay
    }

    /// The moments that a faulty image shows.
    pub fn moments_shown(&self) -> Moments {
        let count = self.setup.slot_count().min(MOST_SLOTS);
        let mut shown = self.replay.moments;
        match self.fault {
            Fault::MomentsPastCountNotShown => shown[count..].fill(None),
            Fault::MomentsNotShownUnbegun if self.replay.earlier.is_none() => shown = NOTHING,
            Fault::MomentsNotShownEnded if self.replay.ended != 0 => shown = NOTHING,
            Fault::MomentsOfReadySlotsShown => {
                for (status, moment) in self.state.statuses.iter().zip(&mut shown) {
                    *moment = moment.filter(|_| *status == Status::Ready);
                }
            }
            _ => {}
        }
        shown
    }
}

/// What only a faulty match asks of the kept moments.
pub(super) fn moments_do_not_match(
    moments: &Moments,
    state: &State,
    count: usize,
    fault: Fault,
) -> bool {
    let clock = state.port.clock;
    match fault {
        Fault::MomentAfterClockRefused => moments.iter().flatten().any(|moment| *moment > clock),
        Fault::MomentPastCountRefused => {
            moments[count.min(MOST_SLOTS)..].iter().any(Option::is_some)
        }
        Fault::MomentPastLastRefused => {
            moments.iter().flatten().any(|moment| *moment > LAST_MOMENT)
        }
        _ => false,
    }
}
