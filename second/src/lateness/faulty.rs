//! What only a faulty report does.

use super::{difference as sound, is_outside, Difference, Differences, FARTHEST};
use crate::bench::Bench;
use crate::faults::Fault;
use crate::setup::MOST_SLOTS;
use crate::state::Status;
use crate::times::{Nanos, LAST_MOMENT};

/// The difference of two times.
pub(super) fn difference(seen: Nanos, made: Nanos, fault: Fault) -> Difference {
    let exact = i128::from(seen.0) - i128::from(made.0);
    let far = i128::from(FARTHEST);
    let refuses = match fault {
        Fault::LatenessUpperEdgeRefused => exact == far,
        Fault::LatenessLowerEdgeRefused => exact == -far,
        Fault::LatenessSeenPastLastRefused => seen > LAST_MOMENT,
        Fault::LatenessMadePastLastRefused => made > LAST_MOMENT,
        _ => false,
    };
    if refuses {
        return Difference::Outside;
    }
    match sound(seen, made) {
        Difference::Outside => outside(exact, fault),
        Difference::Of(of) => within(of, fault),
        Difference::None => Difference::None,
    }
}

fn outside(exact: i128, fault: Fault) -> Difference {
    // What 64 bits keep of it.
    let kept = exact as i64;
    let far = i128::from(FARTHEST);
    match fault {
        Fault::LatenessOneMoreTaken if exact == far + 1 => Difference::Of(kept),
        Fault::LatenessOneLessTaken if exact == -far - 1 => Difference::Of(kept),
        Fault::LatenessWraps if !is_outside(kept) => Difference::Of(kept),
        Fault::LatenessClamped if exact < 0 => Difference::Of(-FARTHEST),
        Fault::LatenessClamped => Difference::Of(FARTHEST),
        Fault::LatenessOutsideIsNone => Difference::None,
        Fault::LatenessEarlyNotLimited if exact < 0 => Difference::Of(kept),
        _ => Difference::Outside,
    }
}

fn within(of: i64, fault: Fault) -> Difference {
    Difference::Of(match fault {
        Fault::LatenessBenchMinusSeen => -of,
        Fault::LatenessWithoutSign => of.abs(),
        Fault::LatenessEarlyIsZero => of.max(0),
        Fault::LatenessOf32Bits => i64::from(of as i32),
        Fault::LatenessInTicks => of / 4,
        Fault::LatenessEarlyIsNone if of < 0 => return Difference::None,
        Fault::LatenessOnTimeIsNone if of == 0 => return Difference::None,
        _ => of,
    })
}

impl Bench<'_> {
    /// How many slots are reported: the set-up's count.
    pub(super) fn slots_reported(&self) -> usize {
        let count = self.setup.slot_count();
        match self.fault {
            Fault::LatenessPastCount => MOST_SLOTS,
            Fault::LatenessOneMoreSlot => count + 1,
            Fault::LatenessLastSlotLeftOut => count.saturating_sub(1),
            Fault::LatenessByStatuses => self.state.statuses.len(),
            Fault::LatenessManySlotsNone if count > MOST_SLOTS => 0,
            _ if self.asks_too_much_to_report() => 0,
            _ => count,
        }
    }

    /// What only a faulty report asks for.
    fn asks_too_much_to_report(&self) -> bool {
        match self.fault {
            Fault::LatenessNeedsSetUp => self.setup.refusal(Fault::None).is_some(),
            Fault::LatenessNeedsSoundState => self.feed_refusal().is_some(),
            Fault::LatenessNeedsMatch => self.replay_does_not_match(),
            Fault::LatenessNeedsBegun => self.replay.earlier.is_none(),
            Fault::LatenessNotAfterEnd => self.replay.ended != 0,
            Fault::LatenessNotOnBroken => self.state.port.broken,
            _ => false,
        }
    }

    /// The seen time and the bench time of a slot, if both are there.
    pub(super) fn both_times(&self, slot: usize, seen: Option<Nanos>) -> Option<(Nanos, Nanos)> {
        let made = self.replay.moments[slot];
        let status = self.state.statuses.get(slot);
        match (self.fault, status) {
            (Fault::LatenessNotSeenIs0, _) => Some((seen.unwrap_or(Nanos(0)), made?)),
            (Fault::LatenessNotMadeIs0, _) => Some((seen?, made.unwrap_or(Nanos(0)))),
            (Fault::LatenessNeedsReady, status) if status != Some(&Status::Ready) => None,
            (Fault::LatenessByReadyTime, Some(Status::Pending { ready, .. })) => {
                Some((seen?, *ready))
            }
            (Fault::LatenessSeenAfterClockIsNone, _) => {
                Some((seen.filter(|seen| *seen <= self.state.port.clock)?, made?))
            }
            _ => Some((seen?, made?)),
        }
    }

    /// How a report leaves what it gives, and the replay state: as they are.
    pub(super) fn leave_report(&mut self, differences: &mut Differences) {
        let first = differences.iter().position(|one| *one == Difference::Outside);
        match (self.fault, first) {
            (Fault::LatenessOneRefusesAll, Some(_)) => differences.fill(Difference::Outside),
            (Fault::LatenessOneEndsReport, Some(slot)) => {
                differences[slot + 1..].fill(Difference::None);
            }
            _ => {}
        }
        self.clear_moments(Fault::MomentsClearedByReport);
    }
}
