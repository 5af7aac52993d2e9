//! Refusal 5: a port or statuses that are unsound, clause by clause.

use crate::bench::Bench;
use crate::faults::Fault;
use crate::records::record_length;
use crate::state::{Cause, State, Status, MOST_CARRIED};
use crate::times::{GREATEST_TIME, LAST_MOMENT};

/// The clauses of refusal 5, in the order in which it lists them.
#[derive(Clone, Copy, PartialEq, Eq, Debug)]
pub enum Clause {
    Clock,
    Start,
    Depth,
    LiveCell,
    Signalling,
    ReadyPast,
    ReadyFar,
    FlrEnd,
    DownWithLinkUp,
    OtherWithLinkDown,
    OwedWithLinkDown,
    OwedWithAllReady,
    CarriedKind,
    CarriedComplete,
}

pub const CLAUSES: [(Clause, &str); 14] = [
    (Clause::Clock, "clock above 10^15"),
    (Clause::Start, "queue start not below its length"),
    (Clause::Depth, "depth above the length"),
    (Clause::LiveCell, "a live cell of 2^20 or more"),
    (Clause::Signalling, "signalling 3"),
    (Clause::ReadyPast, "ready time at or before the clock"),
    (Clause::ReadyFar, "ready time too far after the clock"),
    (Clause::FlrEnd, "FLR end after its ready time"),
    (Clause::DownWithLinkUp, "Down slot with the link up"),
    (Clause::OtherWithLinkDown, "other slot with the link down"),
    (Clause::OwedWithLinkDown, "DRS owed with the link down"),
    (Clause::OwedWithAllReady, "DRS owed with every slot Ready"),
    (Clause::CarriedKind, "carried bytes of no kind"),
    (Clause::CarriedComplete, "carried bytes of a whole record or more"),
];

fn live_cell_wrong(state: &State) -> bool {
    let port = &state.port;
    (0..usize::from(port.depth)).any(|step| {
        let index = (usize::from(port.start) + step) % state.cells.len();
        state.cells[index] >= 1 << 20
    })
}

fn any_ready_time(state: &State, wrong: impl Fn(u64) -> bool) -> bool {
    state
        .statuses
        .iter()
        .any(|status| matches!(status, Status::Pending { ready, .. } if wrong(ready.0)))
}

fn flr_end_wrong(state: &State) -> bool {
    state.statuses.iter().any(|status| {
        matches!(status, Status::Pending { cause: Cause::Flr { end }, ready } if end > ready)
    })
}

fn carried_kind_wrong(state: &State) -> bool {
    state.port.carried_count > 0 && record_length(state.port.carried[0]).is_none()
}

fn carried_complete(state: &State) -> bool {
    let count = usize::from(state.port.carried_count);
    let length = record_length(state.port.carried[0]).unwrap_or(MOST_CARRIED + 1);
    count > 0 && count >= length
}

/// Whether the state breaks this clause.
pub fn breaks(clause: Clause, state: &State) -> bool {
    let port = &state.port;
    let clock = port.clock.0;
    match clause {
        Clause::Clock => port.clock > LAST_MOMENT,
        Clause::Start => usize::from(port.start) >= state.cells.len(),
        Clause::Depth => usize::from(port.depth) > state.cells.len(),
        Clause::LiveCell => live_cell_wrong(state),
        Clause::Signalling => port.signalling >= 3,
        Clause::ReadyPast => any_ready_time(state, |ready| ready <= clock),
        Clause::ReadyFar => {
            any_ready_time(state, |ready| ready > clock.saturating_add(GREATEST_TIME.0))
        }
        Clause::FlrEnd => flr_end_wrong(state),
        Clause::DownWithLinkUp => port.link && state.statuses.contains(&Status::Down),
        Clause::OtherWithLinkDown => {
            !port.link && state.statuses.iter().any(|status| *status != Status::Down)
        }
        Clause::OwedWithLinkDown => port.owed && !port.link,
        Clause::OwedWithAllReady => port.owed && state.all_ready(),
        Clause::CarriedKind => carried_kind_wrong(state),
        Clause::CarriedComplete => carried_complete(state),
    }
}

/// The clauses that the state breaks, in order.
pub fn broken_clauses(state: &State) -> Vec<Clause> {
    let all = CLAUSES.iter().map(|(clause, _)| *clause);
    all.filter(|clause| breaks(*clause, state)).collect()
}

/// A check that only a faulty bench makes.
fn needlessly_unsound(state: &State, fault: Fault) -> bool {
    let count = usize::from(state.port.carried_count).min(MOST_CARRIED);
    fault == Fault::CarriedPastCountRefused
        && state.port.carried[count..].iter().any(|byte| *byte != 0)
}

impl Bench<'_> {
    /// Whether refusal 5 applies.
    pub fn is_unsound(&self) -> bool {
        if needlessly_unsound(&self.state, self.fault) {
            return true;
        }
        CLAUSES.iter().any(|(clause, _)| !self.fault.skips(*clause) && breaks(*clause, &self.state))
    }
}
