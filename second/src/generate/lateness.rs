//! Lateness: moments that are lent, times that were seen, lists of differences, and captures that make slots Ready in every way.

use crate::bench::Bench;
use crate::generate::captures::{Capture, EDGE_TICKS};
use crate::generate::records;
use crate::generate::script::Script;
use crate::lateness::{Seen, FARTHEST, MOST_DIFFERENCES};
use crate::random::Random;
use crate::replay::{Moments, Replay, Ticks};
use crate::setup::{Setup, DEVICE_CONTROL, MOST_SLOTS, PMCSR};
use crate::state::{Cause, State, Status};
use crate::stream::{Operation, MOST_LISTED};
use crate::times::{Nanos, LAST_MOMENT};

const FAR: u64 = FARTHEST as u64;
/// Ticks that are longer than any wait.
const LONG_TICKS: u32 = 251_658_240;

/// Any time, often near the clock, 0, 10^15 or the end of 64 bits.
fn any_time(random: &mut Random, clock: Nanos) -> Nanos {
    let little = random.below(40) as u64;
    let any = random.u64();
    Nanos(match random.below(10) {
        0 => little,
        1 | 2 => clock.0.saturating_add(little),
        3 => clock.0.saturating_sub(little),
        4 => LAST_MOMENT.0 - little,
        5 => LAST_MOMENT.0 + 1 + little,
        6 => u64::MAX - random.pick(&[0, 0, little]),
        7 => (1 << 63) - random.pick(&[0, 1, little]),
        8 => any % (2 * FAR),
        _ => any,
    })
}

/// Moments that may be lent: those that are kept, none, or any, in slots past the count too.
pub fn moments(random: &mut Random, bench: &Bench) -> Moments {
    let percent = match random.below(6) {
        0..=2 => return bench.replay.moments,
        3 => 0,
        4 => 100,
        _ => random.pick(&[10, 50]),
    };
    let clock = bench.state.port.clock;
    [(); MOST_SLOTS].map(|()| random.chance(percent).then(|| any_time(random, clock)))
}

/// A time that was seen in a slot that was made Ready then: equal, next to it, far away, or at an edge.
fn seen_beside(random: &mut Random, made: Nanos) -> u64 {
    let (made, little) = (made.0, random.below(300) as u64);
    match random.below(16) {
        0..=2 => made,
        3 => made.saturating_sub(1),
        4 => made.saturating_add(1),
        5 => made.saturating_sub(little),
        6 => made.saturating_add(little),
        7 => made.wrapping_add(FAR),
        8 => made.wrapping_add(FAR + 1),
        9 => made.wrapping_sub(FAR),
        10 => made.wrapping_sub(FAR + 1),
        11 => made.wrapping_add(random.u64() % (2 * FAR)),
        12 => made.wrapping_add(1 << random.below(64)),
        13 => made.wrapping_sub(1 << random.below(64)),
        14 => u64::MAX - random.pick(&[0, 0, little]),
        _ => random.pick(&[0, 1, LAST_MOMENT.0, 1 << 63]),
    }
}

/// Times seen, by the moments that the replay keeps.
pub fn seen(random: &mut Random, bench: &Bench) -> Seen {
    let percent = random.pick(&[0, 30, 80, 100, 100, 100]);
    let clock = bench.state.port.clock;
    bench.replay.moments.map(|made| {
        let time = match made {
            Some(made) => Nanos(seen_beside(random, made)),
            None => any_time(random, clock),
        };
        random.chance(percent).then_some(time)
    })
}

/// A difference that isn't refused.
fn difference(random: &mut Random) -> i64 {
    let little = random.below(20) as i64;
    let any = (random.u64() % (2 * FAR + 1)) as i64 - FARTHEST;
    match random.below(10) {
        0 | 1 => 0,
        2 | 3 => little,
        4 | 5 => -little,
        6 => FARTHEST - random.pick(&[0, 0, little]),
        7 => random.pick(&[0, 0, little]) - FARTHEST,
        _ => any,
    }
}

/// A difference that is refused with 34.
fn outside(random: &mut Random) -> i64 {
    let little = 2 + random.below(20) as i64;
    let any = (random.u64() >> 1) as i64 | 1 << 51;
    let edge = FARTHEST + 1;
    random.pick(&[edge, edge, -edge, -edge, edge + little, -edge - little, any, -any])
}

/// A list of so many: any, of one sign, all equal, or at the edges.
fn list_of(random: &mut Random, count: usize) -> Vec<i64> {
    let edge = random.pick(&[FARTHEST, -FARTHEST]);
    let pool: Vec<i64> = (0..3).map(|_| difference(random)).collect();
    let shape = random.below(9);
    let one = |random: &mut Random| match shape {
        0 => edge,
        1 => random.pick(&[FARTHEST, -FARTHEST]),
        2 => pool[0],
        3 => random.pick(&pool),
        4 => random.below(9) as i64 - 4,
        5 => difference(random).abs() | 1,
        6 => -(difference(random).abs() | 1),
        _ => difference(random),
    };
    let mut list: Vec<i64> = (0..count).map(|_| one(random)).collect();
    list.iter_mut().for_each(|one| *one = (*one).clamp(-FARTHEST, FARTHEST));
    list
}

/// Puts one that is refused into a list: first, last, anywhere, or past the 9,000th.
fn with_outside(random: &mut Random, mut list: Vec<i64>) -> Vec<i64> {
    let last = list.len() - 1;
    let past = random.pick(&[last, last.min(MOST_DIFFERENCES)]);
    let any = random.below(last + 1);
    let place = random.pick(&[0, last, any, past]);
    let one = outside(random);
    list[place] = random.pick(&[one, one, one, one, i64::MIN, i64::MAX]);
    list
}

/// A list as long as a list may be, or nearly, or a little longer.
pub fn long_list(random: &mut Random) -> Vec<i64> {
    let most = MOST_DIFFERENCES;
    let any = 256 + random.below(MOST_LISTED - 255);
    let count = random.pick(&[most - 1, most, most, most, most + 1, most + 1, MOST_LISTED, any]);
    let list = match random.chance(30) {
        true => vec![random.pick(&[FARTHEST, -FARTHEST]); count],
        false => list_of(random, count),
    };
    match random.chance(if count > most { 50 } else { 20 }) {
        true => with_outside(random, list),
        false => list,
    }
}

/// Any list of differences; seldom a long one.
pub fn list(random: &mut Random) -> Vec<i64> {
    let count = 2 + random.below(12);
    match random.weighted(&[60, 100, 500, 150, 40, 9]) {
        0 => Vec::new(),
        1 => list_of(random, 1),
        2 => list_of(random, count),
        3 => {
            let list = list_of(random, count);
            with_outside(random, list)
        }
        4 => {
            let list = list_of(random, 1);
            with_outside(random, list)
        }
        _ => long_list(random),
    }
}

/// A write that starts an FLR, or the two that go to D3hot and back.
fn reset_records(random: &mut Random, slot: u8) -> Vec<Vec<u8>> {
    let any = random.u32();
    match random.chance(50) {
        true => vec![records::write(slot, DEVICE_CONTROL, 2, any | 0x8000)],
        false => {
            let [to, from] = [any | 3, any & !3];
            vec![records::write(slot, PMCSR, 1, to), records::write(slot, PMCSR, 1, from)]
        }
    }
}

/// Records that make slots Ready or take them down; with the link down, link up.
pub fn way_records(random: &mut Random, bench: &Bench) -> Vec<Vec<u8>> {
    if !bench.state.port.link && random.chance(85) {
        return vec![vec![0x05]];
    }
    let slot = random.below(bench.setup.slot_count().max(1)) as u8;
    match random.below(12) {
        0..=5 => reset_records(random, slot),
        6 => (0..bench.setup.slots).flat_map(|slot| reset_records(random, slot)).collect(),
        7 => vec![vec![random.pick(&[0x06, 0x07])]],
        8 => vec![vec![random.pick(&[0x06, 0x07])], vec![0x05]],
        9 => vec![records::any_but_advance(random, bench)],
        _ => vec![vec![0x0D]],
    }
}

/// Ticks before a record that makes slots Ready: mostly none, a few, or to a ready time.
fn way_ticks(random: &mut Random, capture: &Capture) -> Ticks {
    Ticks(match random.below(10) {
        0..=3 => 0,
        4 => 1 + random.below(5) as u32,
        5 => LONG_TICKS,
        6 => random.pick(&EDGE_TICKS),
        _ => capture.ticks_near(random),
    })
}

impl Capture<'_> {
    /// Adds records that make slots Ready in every way, and take them down.
    pub fn add_ways(&mut self, random: &mut Random, count: usize) {
        for _ in 0..count {
            for record in way_records(random, self.bench()) {
                let ticks = way_ticks(random, self);
                self.add_record(random, ticks, &record);
            }
        }
    }
}

/// The same state near the clock's end, or at it, with all times moved along.
fn near_the_end(random: &mut Random, state: &mut State) {
    let clock = LAST_MOMENT.0 - random.pick(&[0, 1, 4, 10, 20, 600]);
    let before = state.port.clock.0;
    let moved = |time: Nanos| Nanos(time.0.saturating_sub(before).saturating_add(clock));
    for status in &mut state.statuses {
        if let Status::Pending { cause, ready } = status {
            *ready = moved(*ready);
            if let Cause::Flr { end } = cause {
                *end = moved(*end).min(*ready);
            }
        }
    }
    state.port.clock = Nanos(clock);
}

impl Script<'_> {
    /// A report by slot; half the time with something in the bytes that are ignored in reading.
    pub fn lateness(&mut self, random: &mut Random) {
        let seen = Box::new(seen(random, &self.bench));
        let noise = if random.chance(50) { random.u64() } else { 0 };
        self.push(Operation::Lateness { seen, noise });
    }

    /// The totals of a list.
    pub fn totals(&mut self, random: &mut Random) {
        self.push(Operation::Totals(list(random)));
    }

    /// How many replay calls and lists there are so far.
    pub fn replays_and_lists(&self) -> usize {
        let is_list = |one: &&Operation| matches!(one, Operation::Totals(_));
        self.replays() + self.operations.iter().filter(is_list).count()
    }

    /// Replays records that make slots Ready, in pieces, with reports after them.
    pub fn replay_ways(&mut self, random: &mut Random) {
        if !self.can_replay() {
            return self.replay_on_any_state(random);
        }
        let mut capture = Capture::from(random, &self.bench);
        let count = 1 + random.below(5);
        capture.add_ways(random, count);
        if random.chance(8) {
            capture.add_records(random, 1);
        }
        let pieces = random.pick(&[1, 1, 2, 2, 3]);
        self.replay_in(random, capture.bytes, pieces);
    }

    /// What stands between replays that make slots Ready: feeds that do too, set-ups, lent states.
    pub fn between_ways(&mut self, random: &mut Random) {
        match random.below(16) {
            0 | 1 => self.scenario(random),
            2 => self.feed_ways(random),
            3 => self.set_up(),
            4 => {
                let mut state = self.bench.state.clone();
                near_the_end(random, &mut state);
                self.lend(random, state);
            }
            5 => self.sheet(random),
            6 => {
                self.set_up();
                self.lend_replay(random, Replay::FRESH);
            }
            _ => self.begin_anew(random),
        }
    }

    /// Feeds records that make slots Ready; these moments are not kept.
    fn feed_ways(&mut self, random: &mut Random) {
        if !self.can_run() {
            return self.feed_something(random);
        }
        let mut scout = self.bench.clone();
        let mut input = Vec::new();
        for _ in 0..1 + random.below(4) {
            for record in way_records(random, &scout) {
                scout.run_record(&record);
                input.extend(record);
            }
            input.extend(records::advance(random.pick(&[1, 10, 600, 1_006_632_960])));
        }
        let room = 8 * input.len();
        self.push(Operation::Feed { room: room as u16, input });
    }

    /// Replays, reports and lists on a set-up that is refused.
    pub fn reports_on_refused(&mut self, random: &mut Random) {
        for _ in 0..4 {
            self.lend_replay(random, Replay::FRESH);
            self.lateness(random);
            self.replay_on_any_state(random);
            self.lateness(random);
            self.totals(random);
        }
    }
}

/// The same set-up counting other slots than it lends memory for.
pub fn counting_others(random: &mut Random, setup: &mut Setup) {
    setup.slots = random.pick(&[0, 0, 33, 33, 34, 64, 255, 32, 5]);
}
