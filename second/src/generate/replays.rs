//! Replay calls of a case in the making, and what comes between them.

use crate::generate::captures::{self, Capture};
use crate::generate::script::{most_pieces, Script};
use crate::generate::{lateness, records, states};
use crate::random::Random;
use crate::replay::{Replay, STAMP_BYTES};
use crate::run::Gave;
use crate::stream::{Operation, MOST_BYTES};

const ROOMS: [usize; 7] = [0, 7, 8, 9, 15, 16, 17];

impl Script<'_> {
    /// How many replay calls there are so far.
    pub fn replays(&self) -> usize {
        let is_replay = |one: &&Operation| matches!(one, Operation::Replay { .. });
        self.operations.iter().filter(is_replay).count()
    }

    /// Lends a replay state with moments; half the time with something in the bytes that are ignored in reading.
    pub(super) fn lend_replay(&mut self, random: &mut Random, replay: Replay) {
        let noise = if random.chance(50) { random.u64() } else { 0 };
        let replay = Replay { moments: lateness::moments(random, &self.bench), ..replay };
        self.push(Operation::LendReplay { replay: Box::new(replay), noise });
    }

    /// Lends a replay state that matches the port, if any does.
    pub fn lend_matching(&mut self, random: &mut Random) {
        let replay = captures::matching(random, &self.bench.state.port);
        self.lend_replay(random, replay);
    }

    /// Lends a sound state and a replay state that matches it, or one with a clause broken.
    pub fn lend_replay_state(&mut self, random: &mut Random) {
        let mut state = states::sound(random, self.setup());
        if random.chance(50) {
            state.port.carried_count = 0;
        }
        if random.chance(55) {
            state.port.broken = random.chance(8);
            self.lend(random, state);
            return self.lend_matching(random);
        }
        let clause = captures::any_clause(random);
        let replay = captures::unmatching(random, &mut state, clause);
        state.port.broken = random.chance(20);
        self.lend(random, state);
        self.lend_replay(random, replay);
    }

    /// One replay call, whatever the state; half the time of a replay that has ended.
    pub fn replay_on_any_state(&mut self, random: &mut Random) {
        match random.below(6) {
            0 | 1 => {
                let ended = captures::ended(random);
                self.lend_replay(random, ended);
            }
            2 => {
                let clause = captures::any_clause(random);
                let mut state = self.bench.state.clone();
                let replay = captures::unmatching(random, &mut state, clause);
                self.lend_replay(random, replay);
            }
            _ => {}
        }
        self.replay_something(random);
    }

    /// One replay call of a few stamped records.
    fn replay_something(&mut self, random: &mut Random) -> usize {
        let input = captures::plain(random);
        let room = random.pick(&[0, 7, 8, 24, 40]);
        self.push_replay(room, &input)
    }

    /// Gives how many bytes were consumed.
    fn push_replay(&mut self, room: usize, input: &[u8]) -> usize {
        let room = room.min(MOST_BYTES) as u16;
        match self.push(Operation::Replay { room, input: input.to_vec() }) {
            Gave::Replay(call) => call.replayed.fed.consumed,
            _ => 0,
        }
    }

    pub(super) fn can_replay(&self) -> bool {
        let refused = self.bench.feed_refusal().is_some() || self.bench.replay_does_not_match();
        !refused && !self.bench.state.port.broken && self.bench.replay.ended == 0
    }

    /// Replays this many records that fit the state, in pieces.
    pub fn replay_capture(&mut self, random: &mut Random, count: usize) {
        if !self.can_replay() {
            self.replay_something(random);
            return;
        }
        let mut capture = Capture::from(random, &self.bench);
        capture.add_records(random, count);
        self.replay_pieces(random, capture.bytes);
    }

    /// Link up, resets of slots, long differences.
    pub fn replay_scenario(&mut self, random: &mut Random) {
        if self.can_replay() {
            let mut capture = Capture::from(random, &self.bench);
            capture.add_scenario(random);
            self.replay_pieces(random, capture.bytes);
        }
    }

    /// A capture of as many bytes as a call may have, with as much room as it may have.
    pub fn replay_at_length(&mut self, random: &mut Random) {
        if !self.can_replay() {
            return;
        }
        let mut capture = Capture::from(random, &self.bench);
        while capture.bytes.len() < MOST_BYTES {
            capture.add_scenario(random);
        }
        capture.bytes.truncate(MOST_BYTES - random.pick(&[0, 0, 1]));
        let room = random.pick(&[MOST_BYTES, MOST_BYTES, MOST_BYTES - 1, 8]);
        let consumed = self.push_replay(room, &capture.bytes);
        self.push_replay(MOST_BYTES, &capture.bytes[consumed..]);
    }

    /// Replays a capture, cut anywhere, with rooms that may be short; after a 30 now and then another kind byte follows.
    fn replay_pieces(&mut self, random: &mut Random, capture: Vec<u8>) {
        let most = most_pieces(self.setup());
        let pieces = random.pick(&[1, 2, 3, 4, most]).min(most);
        self.replay_in(random, capture, pieces);
    }

    /// The same in so many pieces.
    pub(super) fn replay_in(&mut self, random: &mut Random, mut capture: Vec<u8>, pieces: usize) {
        let mut from = 0;
        for piece in 0..pieces {
            let left = capture.len() - from;
            let length = match piece + 1 == pieces {
                true => left,
                false => self.piece_length(random, left),
            };
            let input = capture[from..from + length.min(MOST_BYTES)].to_vec();
            let consumed = self.replay_piece(random, &input);
            from += if random.chance(97) { consumed } else { input.len() };
            let at_kind = usize::from(self.bench.replay.taken) == STAMP_BYTES;
            if at_kind && from < capture.len() && random.chance(25) {
                capture[from] = captures::other_kind(random);
            }
        }
    }

    fn replay_piece(&mut self, random: &mut Random, input: &[u8]) -> usize {
        let enough = self.bench.clone().replay(input, &mut [0; MOST_BYTES]).fed.written;
        let room = match random.below(12) {
            0..=2 => random.pick(&ROOMS),
            3 | 4 => enough.saturating_sub(1 + random.below(17)),
            5 => enough.saturating_sub(8 * random.below(4)),
            6 => enough + random.below(20),
            _ => enough,
        };
        self.push_replay(room, input)
    }

    /// Often up to a kind byte or right after it; nothing at all now and then.
    fn piece_length(&self, random: &mut Random, left: usize) -> usize {
        let to_kind = STAMP_BYTES.saturating_sub(usize::from(self.bench.replay.taken));
        let any = random.below(left + 1);
        let near = random.pick(&[0, 1, 2, 3, to_kind, to_kind, to_kind + 1, to_kind + 1, 9, 13]);
        random.pick(&[near, near, any]).min(left)
    }

    /// The start of a record, fed; the rest may come by a replay.
    fn feed_start(&mut self, random: &mut Random) {
        let record = records::plain(random);
        let length = random.below(record.len() + 1);
        let input = record[..length].to_vec();
        self.push(Operation::Feed { room: random.pick(&[0, 8, 40]), input });
    }

    /// Now and then something that is no replay.
    pub fn between_replays(&mut self, random: &mut Random) {
        match random.below(16) {
            0 => self.feed_something(random),
            1 | 2 => self.feed_start(random),
            3 => self.set_up(),
            4 => self.sheet(random),
            5 => self.message(random),
            6 => self.lend_matching(random),
            7 => {
                let state = states::sound(random, self.setup());
                self.lend(random, state);
            }
            8 => self.feed_trace(random, 3),
            _ => {}
        }
    }

    /// Where a replay can't go on, or now and then where it can, another state is lent.
    pub fn begin_anew(&mut self, random: &mut Random) {
        let goes_on = self.can_replay();
        if goes_on && random.chance(70) || !goes_on && random.chance(20) {
            return;
        }
        match random.below(10) {
            0 => self.set_up(),
            1..=3 => {
                self.set_up();
                self.lend_matching(random);
            }
            4 => {
                self.set_up();
                self.lend_replay(random, Replay::FRESH);
                self.replay_scenario(random);
            }
            5 => {
                let clause = states::any_clause(random);
                let state = states::unsound(random, self.setup(), clause);
                self.lend(random, state);
            }
            6 => {
                let mut state = states::sound(random, self.setup());
                state.port.carried_count = 0;
                self.lend(random, state);
            }
            _ => self.lend_replay_state(random),
        }
    }

    /// A few calls after the replay has ended, or the port is broken, or whatever came last.
    pub fn after_the_end(&mut self, random: &mut Random) {
        for _ in 0..random.below(3) {
            match random.below(8) {
                0 | 1 => {
                    self.push_replay(8, &[]);
                }
                2 => self.set_up(),
                3 => {
                    let ended = captures::ended(random);
                    self.lend_replay(random, ended);
                    self.replay_something(random);
                }
                _ => {
                    self.replay_something(random);
                }
            }
        }
    }
}
