//! States made up: sound ones, and unsound ones with one clause of refusal 5 broken.

use crate::generate::records;
use crate::random::Random;
use crate::records::record_length;
use crate::setup::{Setup, PMCSR, WORDS_PER_SLOT};
use crate::sound::{Clause, CLAUSES};
use crate::state::{Cause, Port, State, Status, MOST_CARRIED};
use crate::times::{Nanos, GREATEST_TIME, LAST_MOMENT};

const CELL_LIMIT: u32 = 1 << 20;

fn clock(random: &mut Random) -> Nanos {
    let last = LAST_MOMENT.0;
    Nanos(match random.below(7) {
        0 => 0,
        1 => random.below(1000) as u64,
        2 => last,
        3 => last - 1 - random.below(20) as u64,
        4 => last - random.below(9_000_000_000) as u64,
        5 => random.u64() % 1_000_000_000_000,
        _ => random.u64() % (last + 1),
    })
}

fn wait(random: &mut Random) -> u64 {
    match random.below(5) {
        0 => 1,
        1 => 1 + random.below(4) as u64,
        2 => 10 * (1 + random.below(3) as u64),
        3 => GREATEST_TIME.0 - random.below(2) as u64,
        _ => 1 + random.u64() % GREATEST_TIME.0,
    }
}

fn flr_end(random: &mut Random, clock: u64, ready: u64) -> u64 {
    let end = match random.below(6) {
        0 => 0,
        1 => clock,
        2 => clock + 1,
        3 => ready,
        4 => clock.saturating_sub(random.below(100) as u64),
        _ => clock + random.u64() % (ready - clock + 1),
    };
    end.min(ready)
}

/// A Pending status that is sound at this clock.
fn pending(random: &mut Random, clock: Nanos) -> Status {
    let ready = clock.0 + wait(random);
    let cause = match random.below(4) {
        0 => Cause::LinkUp,
        1 => Cause::D3hot,
        _ => Cause::Flr { end: Nanos(flr_end(random, clock.0, ready)) },
    };
    Status::Pending { cause, ready: Nanos(ready) }
}

fn port(random: &mut Random, cells: usize) -> Port {
    let depth = match random.below(4) {
        0 => 0,
        1 => cells,
        2 => cells - 1,
        _ => random.below(cells + 1),
    };
    let mut carried = [0; MOST_CARRIED];
    if random.chance(50) {
        carried = [0; MOST_CARRIED].map(|_| random.u8());
    }
    Port {
        clock: clock(random),
        reset_at: Nanos(0),
        link: random.chance(85),
        owed: false,
        received: random.chance(50),
        overflow: random.chance(50),
        drs_received: random.chance(50),
        visibility: random.chance(60),
        frs_interrupt: random.chance(60),
        signalling: random.below(3) as u8,
        start: random.below(cells) as u16,
        depth: depth as u16,
        carried_count: 0,
        carried,
        broken: random.chance(3),
    }
}

/// Cells: live ones below 2^20, the others anything.
fn cells(random: &mut Random, count: usize, port: &Port) -> Vec<u32> {
    let garbage = random.chance(50);
    let mut cells: Vec<u32> = (0..count).map(|_| random.u32()).collect();
    let (start, depth) = (usize::from(port.start), usize::from(port.depth));
    for (index, cell) in cells.iter_mut().enumerate() {
        let live = (index + count - start) % count < depth;
        if live || !garbage {
            *cell %= CELL_LIMIT;
        }
    }
    cells
}

fn live_words(random: &mut Random, setup: &Setup) -> Vec<u32> {
    let mut words = setup.defaults.clone();
    words.resize(setup.live_words, 0);
    let percent = random.pick(&[0, 10, 100]);
    for word in &mut words {
        if random.chance(percent) {
            *word = random.u32();
        }
    }
    for slot in words.chunks_exact_mut(WORDS_PER_SLOT) {
        if random.chance(40) {
            slot[PMCSR] |= 3;
        }
    }
    words
}

fn carry_start(random: &mut Random, state: &mut State) {
    let record = records::plain(random);
    let count = random.below(record.len());
    state.port.carried[..count].copy_from_slice(&record[..count]);
    state.port.carried_count = count as u8;
}

/// A sound state for a set-up that nothing refuses.
pub fn sound(random: &mut Random, setup: &Setup) -> State {
    let port = port(random, setup.cells);
    let ready_percent = random.pick(&[30, 60, 100]);
    let statuses = (0..setup.statuses)
        .map(|_| match port.link {
            false => Status::Down,
            true if random.chance(ready_percent) => Status::Ready,
            true => pending(random, port.clock),
        })
        .collect();
    let cells = cells(random, setup.cells, &port);
    let mut state = State { port, statuses, live: live_words(random, setup), cells };
    state.port.owed = state.port.link && !state.all_ready() && random.chance(60);
    if random.chance(20) {
        carry_start(random, &mut state);
    }
    state
}

fn force_down(state: &mut State) {
    state.port.link = false;
    state.port.owed = false;
    state.statuses.fill(Status::Down);
}

fn force_up(state: &mut State) {
    if !state.port.link {
        state.port.link = true;
        state.statuses.fill(Status::Ready);
    }
    state.port.owed = false;
}

fn break_clock(random: &mut Random, state: &mut State) {
    let clock = match random.below(3) {
        0 => LAST_MOMENT.0 + 1,
        1 => u64::MAX,
        _ => LAST_MOMENT.0 + 1 + random.u64() % LAST_MOMENT.0,
    };
    state.port.clock = Nanos(clock);
    if clock == u64::MAX {
        return force_down(state);
    }
    for status in &mut state.statuses {
        if matches!(status, Status::Pending { .. }) {
            *status = pending(random, Nanos(clock));
        }
    }
}

fn break_queue(random: &mut Random, state: &mut State, clause: Clause) {
    let count = state.cells.len();
    for cell in &mut state.cells {
        *cell %= CELL_LIMIT;
    }
    match clause {
        Clause::Start => {
            state.port.start = random.pick(&[count, count + 1, 65_535]) as u16;
        }
        Clause::Depth => {
            state.port.depth = random.pick(&[count + 1, count + 2, 65_535]) as u16;
        }
        _ => {
            state.port.depth = state.port.depth.max(1);
            let step = random.below(usize::from(state.port.depth));
            let index = (usize::from(state.port.start) + step) % count;
            let high = 1 << (20 + random.below(12));
            state.cells[index] = random.pick(&[CELL_LIMIT, u32::MAX, high]);
        }
    }
}

fn break_ready_time(random: &mut Random, state: &mut State, clause: Clause) {
    force_up(state);
    let clock = state.port.clock.0;
    let far = clock + GREATEST_TIME.0;
    let slot = random.below(state.statuses.len());
    let ready = match clause {
        Clause::ReadyPast => random.pick(&[clock, clock, clock.saturating_sub(1), 0]),
        Clause::ReadyFar => random.pick(&[far + 1, far + 1, far + 2, u64::MAX]),
        _ => clock + wait(random),
    };
    let cause = match clause {
        Clause::FlrEnd => {
            Cause::Flr { end: Nanos(random.pick(&[ready + 1, ready + 1, ready + 9, u64::MAX])) }
        }
        _ => random.pick(&[Cause::LinkUp, Cause::D3hot, Cause::Flr { end: Nanos(ready) }]),
    };
    state.statuses[slot] = Status::Pending { cause, ready: Nanos(ready) };
    state.port.owed = random.chance(40);
}

fn break_link(random: &mut Random, state: &mut State, clause: Clause) {
    let slot = random.below(state.statuses.len());
    match clause {
        Clause::DownWithLinkUp => {
            force_up(state);
            state.statuses[slot] = Status::Down;
        }
        Clause::OtherWithLinkDown => {
            force_down(state);
            let other = pending(random, state.port.clock);
            state.statuses[slot] = random.pick(&[Status::Ready, other]);
        }
        Clause::OwedWithLinkDown => {
            force_down(state);
            state.port.owed = true;
        }
        _ => {
            force_up(state);
            state.statuses.fill(Status::Ready);
            state.port.owed = true;
        }
    }
}

fn break_carried(random: &mut Random, state: &mut State, clause: Clause) {
    let kinds: Vec<u8> = (0..=255).filter(|kind| record_length(*kind).is_none()).collect();
    let port = &mut state.port;
    if clause == Clause::CarriedKind {
        let any = random.pick(&kinds);
        port.carried[0] = random.pick(&[0x00, 0x0E, 0xFF, any]);
        port.carried_count = 1 + random.below(MOST_CARRIED) as u8;
        return;
    }
    let kind = 1 + random.below(13) as u8;
    let length = record_length(kind).unwrap_or(1) as u8;
    port.carried[0] = kind;
    port.carried_count = random.pick(&[length, length, length + 1, 255]);
}

/// A state with just this clause broken.
pub fn unsound(random: &mut Random, setup: &Setup, clause: Clause) -> State {
    let mut state = sound(random, setup);
    match clause {
        Clause::Clock => break_clock(random, &mut state),
        Clause::Start | Clause::Depth | Clause::LiveCell => {
            break_queue(random, &mut state, clause);
        }
        Clause::Signalling => {
            let any = 3 + random.below(253) as u8;
            state.port.signalling = random.pick(&[3, 3, 4, 128, any]);
        }
        Clause::ReadyPast | Clause::ReadyFar | Clause::FlrEnd => {
            break_ready_time(random, &mut state, clause);
        }
        Clause::CarriedKind | Clause::CarriedComplete => {
            break_carried(random, &mut state, clause);
        }
        _ => break_link(random, &mut state, clause),
    }
    state
}

/// Any clause of refusal 5.
pub fn any_clause(random: &mut Random) -> Clause {
    CLAUSES[random.below(CLAUSES.len())].0
}
