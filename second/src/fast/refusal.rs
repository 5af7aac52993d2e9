//! Refusals 1 to 5 of the fast model, and the earliest ready time found on the way.

use crate::fast::tables::LENGTHS;
use crate::setup::{Setup, DEVICE_CONTROL, MOST_CELLS, MOST_SLOTS, PMCSR, WORDS_PER_SLOT};
use crate::state::{Cause, Port, State, Status};
use crate::times::{GREATEST_CODE, GREATEST_TIME, LAST_MOMENT};

/// Default bits that must be 0: 15 and 21 of 78h, 1:0 of 44h.
const CONTROL_ZERO: u32 = 1 << 15 | 1 << 21;
const POWER_ZERO: u32 = 3;

/// What is not yet due at all.
pub const NEVER: u64 = u64::MAX;

/// Refusals 1 to 4 of a set-up, with the lengths lent.
pub fn of_set_up(setup: &Setup, state: &State) -> Result<(), u8> {
    let slots = usize::from(setup.slots);
    let words = slots * WORDS_PER_SLOT;
    let lengths_fit = (1..=MOST_SLOTS).contains(&slots)
        && state.statuses.len() == slots
        && state.live.len() == words
        && setup.defaults.len() == words;
    if !lengths_fit {
        return Err(1);
    }
    if state.cells.is_empty() || state.cells.len() > MOST_CELLS {
        return Err(2);
    }
    if greatest_code(setup, slots) > GREATEST_CODE.0 {
        return Err(3);
    }
    if defaults_wrong(setup) {
        return Err(4);
    }
    Ok(())
}

fn greatest_code(setup: &Setup, slots: usize) -> u16 {
    setup.entries[..slots].iter().fold(0, |greatest, entry| {
        let first = entry.reset.0.max(entry.dl_up.0);
        let second = entry.flr.0.max(entry.d3hot.0);
        greatest.max(first.max(second))
    })
}

fn defaults_wrong(setup: &Setup) -> bool {
    let words = setup.defaults.chunks_exact(WORDS_PER_SLOT);
    let wrong = words.fold(0, |wrong, slot| {
        wrong | slot[DEVICE_CONTROL] & CONTROL_ZERO | slot[PMCSR] & POWER_ZERO
    });
    wrong != 0
}

/// Refusals 1 to 5 of a feed; gives the earliest ready time, or `NEVER`.
pub fn of_feed(setup: &Setup, state: &State) -> Result<u64, u8> {
    of_set_up(setup, state)?;
    let port = &state.port;
    if !port_sound(port, state.cells.len()) || !live_cells_sound(port, &state.cells) {
        return Err(5);
    }
    statuses_sound(port, &state.statuses).ok_or(5)
}

fn port_sound(port: &Port, cells: usize) -> bool {
    port.clock <= LAST_MOMENT
        && usize::from(port.start) < cells
        && usize::from(port.depth) <= cells
        && port.signalling < 3
        && (port.carried_count == 0 || carried_sound(port))
}

/// Fewer than the whole record, so 16 at most.
fn carried_sound(port: &Port) -> bool {
    port.carried_count < LENGTHS[usize::from(port.carried[0])]
}

/// No live cell of 2^20 or more; the live cells are one run, or two where they wrap.
fn live_cells_sound(port: &Port, cells: &[u32]) -> bool {
    let (start, depth) = (usize::from(port.start), usize::from(port.depth));
    let end = start + depth;
    let joined = |run: &[u32]| run.iter().fold(0, |bits, cell| bits | cell);
    let bits = if end <= cells.len() {
        joined(&cells[start..end])
    } else {
        joined(&cells[start..]) | joined(&cells[..end - cells.len()])
    };
    bits < 1 << 20
}

/// The earliest ready time, if the statuses are sound with this port.
fn statuses_sound(port: &Port, statuses: &[Status]) -> Option<u64> {
    let now = port.clock.0;
    let mut earliest = NEVER;
    let mut sound = true;
    let mut all_ready = true;
    for status in statuses {
        match *status {
            Status::Ready => sound &= port.link,
            Status::Down => {
                sound &= !port.link;
                all_ready = false;
            }
            Status::Pending { cause, ready } => {
                sound &= port.link && ready.0 > now && ready.0 - now <= GREATEST_TIME.0;
                if let Cause::Flr { end } = cause {
                    sound &= end <= ready;
                }
                earliest = earliest.min(ready.0);
                all_ready = false;
            }
        }
    }
    let owes_wrongly = port.owed && (!port.link || all_ready);
    (sound && !owes_wrongly).then_some(earliest)
}
