//! A case in the making: its operations, and the bench that has run them so far.

use crate::bench::Bench;
use crate::faults::Fault;
use crate::generate::{messages, records, sheets};
use crate::random::Random;
use crate::records::record_length;
use crate::run::{run_operation, Gave};
use crate::setup::Setup;
use crate::state::{Port, State, Status};
use crate::stream::Operation;
use crate::times::Nanos;

pub struct Script<'a> {
    pub(super) bench: Bench<'a>,
    pub(super) operations: Vec<Operation>,
}

/// Cases with large images get fewer operations.
pub(super) fn most_pieces(setup: &Setup) -> usize {
    match setup.live_words + setup.cells {
        0..=300 => 10,
        301..=1000 => 5,
        _ => 3,
    }
}

impl<'a> Script<'a> {
    pub fn new(setup: &'a Setup) -> Script<'a> {
        Script { bench: Bench::new(setup, Fault::None), operations: Vec::new() }
    }

    pub fn setup(&self) -> &Setup {
        &self.bench.setup
    }

    pub fn into_operations(self) -> Vec<Operation> {
        self.operations
    }

    pub(super) fn push(&mut self, operation: Operation) -> Gave {
        let gave = run_operation(&mut self.bench, &operation, &mut Vec::new());
        self.operations.push(operation);
        gave
    }

    pub fn set_up(&mut self) {
        self.push(Operation::SetUp);
    }

    /// Lends a state; half the time with something in the bytes that are ignored in reading.
    pub fn lend(&mut self, random: &mut Random, state: State) {
        let noise = if random.chance(50) { random.u64() } else { 0 };
        self.push(Operation::Lend { state: Box::new(state), noise });
    }

    /// Writes a message or reads one, which leaves the state alone.
    pub fn message(&mut self, random: &mut Random) {
        self.push(messages::any(random));
    }

    /// Any sheet; its codes stand from here on.
    pub fn sheet(&mut self, random: &mut Random) {
        let text = sheets::any(random, self.setup().slots);
        self.push(Operation::Sheet(text));
    }

    /// A sheet that names every slot and is accepted.
    pub fn sheet_of_all_slots(&mut self, random: &mut Random) {
        let text = sheets::of_all_slots(random, self.setup().slots);
        self.push(Operation::Sheet(text));
    }

    /// Lends a state that fits the lengths only.
    pub fn lend_anything(&mut self, random: &mut Random) {
        let setup = self.setup();
        let words = |random: &mut Random, count| (0..count).map(|_| random.u32()).collect();
        let state = State {
            port: Port {
                clock: Nanos(random.u64()),
                link: random.chance(50),
                start: random.below(3) as u16,
                depth: random.below(3) as u16,
                carried_count: random.pick(&[0, 0, 0, 1, 17]),
                ..Port::zero()
            },
            statuses: vec![random.pick(&[Status::Down, Status::Ready]); setup.statuses],
            live: words(random, setup.live_words),
            cells: words(random, setup.cells),
        };
        self.lend(random, state);
    }

    /// One feed of a few records, whatever the state.
    pub fn feed_something(&mut self, random: &mut Random) {
        let mut input = Vec::new();
        for _ in 0..random.below(4) {
            input.extend(records::plain(random));
        }
        let room = random.pick(&[0, 7, 8, 24, 40]);
        self.push(Operation::Feed { room, input });
    }

    pub(super) fn can_run(&self) -> bool {
        self.bench.feed_refusal().is_none() && !self.bench.state.port.broken
    }

    /// The rest of the record that is being carried, if any.
    fn rest_of_carried(&self, random: &mut Random) -> Vec<u8> {
        let port = &self.bench.state.port;
        let count = usize::from(port.carried_count);
        if count == 0 {
            return Vec::new();
        }
        let length = record_length(port.carried[0]).unwrap_or(count);
        let low = random.chance(60);
        (count..length).map(|_| if low { random.below(16) as u8 } else { random.u8() }).collect()
    }

    /// A bench on which the records to come are tried out.
    fn scout(&self, rest: &[u8]) -> Bench<'a> {
        let mut scout = self.bench.clone();
        scout.feed(rest, &mut [0; 8]);
        scout
    }

    /// Feeds this many records that fit the state, in pieces.
    pub fn feed_trace(&mut self, random: &mut Random, count: usize) {
        if !self.can_run() {
            return self.feed_something(random);
        }
        let mut trace = self.rest_of_carried(random);
        let mut scout = self.scout(&trace);
        for _ in 0..count {
            if random.below(200) == 0 {
                trace.push(records::unknown_kind(random));
            }
            let record = records::any(random, &scout);
            scout.run_record(&record);
            trace.extend(record);
        }
        self.feed_pieces(random, &trace);
    }

    /// Link up, resets of many slots at once, polls, and long advances.
    pub fn scenario(&mut self, random: &mut Random) {
        if !self.can_run() {
            return;
        }
        let mut trace = self.rest_of_carried(random);
        let mut scout = self.scout(&trace);
        let mut add = |record: Vec<u8>, scout: &mut Bench| {
            scout.run_record(&record);
            trace.extend(record);
        };
        add(vec![0x0B, random.below(12) as u8], &mut scout);
        add(vec![0x05], &mut scout);
        if random.chance(80) {
            add(records::advance(1_006_632_960), &mut scout);
        }
        for _ in 0..1 + random.below(2) {
            for slot in 0..self.setup().slots {
                for _ in 0..random.below(3) {
                    add(records::reset_write(random, &scout, slot), &mut scout);
                }
            }
            for _ in 0..random.below(3) {
                let slot = random.below(self.setup().slot_count()) as u8;
                add(records::read(slot, 0, random.pick(&[3, 7, 15, 1])), &mut scout);
            }
            let long = random.pick(&[100, 100_000_000, 1_006_632_960, 2_100_000_000]);
            add(records::advance(long), &mut scout);
        }
        self.feed_pieces(random, &trace);
    }

    /// Feeds a trace, cut anywhere, with rooms that may be short.
    fn feed_pieces(&mut self, random: &mut Random, trace: &[u8]) {
        let most = most_pieces(self.setup());
        let pieces = random.pick(&[1, 1, 2, 3, most]).min(most);
        let mut from = 0;
        for piece in 0..pieces {
            let left = trace.len() - from;
            let length = match piece + 1 == pieces {
                true => left,
                false => piece_length(random, left),
            };
            let input = &trace[from..from + length.min(4096)];
            let consumed = self.feed_piece(random, input);
            if random.chance(8) {
                self.message(random);
            }
            if random.chance(3) {
                self.sheet(random);
            }
            from += if random.chance(97) { consumed } else { input.len() };
        }
    }

    fn feed_piece(&mut self, random: &mut Random, input: &[u8]) -> usize {
        let enough = 8 * answers_at_most(&self.bench, input);
        let room = match random.below(10) {
            0 => random.pick(&[0, 7, 8, 9, 15, 16, 17]),
            1 => enough.saturating_sub(1 + random.below(9)),
            2 => enough + random.below(20),
            _ => enough,
        };
        let operation = Operation::Feed { room: room.min(4096) as u16, input: input.to_vec() };
        match self.push(operation) {
            Gave::Feed(fed) => fed.consumed,
            _ => 0,
        }
    }
}

fn piece_length(random: &mut Random, left: usize) -> usize {
    match random.below(3) {
        0 => 1.min(left),
        1 => 7.min(left),
        _ => random.below(left + 1),
    }
}

/// How many records the input completes.
fn answers_at_most(bench: &Bench, input: &[u8]) -> usize {
    let port = &bench.state.port;
    let carried = usize::from(port.carried_count).min(port.carried.len());
    let joined = [&port.carried[..carried], input].concat();
    let (mut from, mut count) = (0, 0);
    while from < joined.len() {
        let Some(length) = record_length(joined[from]) else {
            break;
        };
        from += length;
        count += usize::from(from <= joined.len());
    }
    count
}
