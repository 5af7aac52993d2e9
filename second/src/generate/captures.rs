//! Captures: stamped records chosen with an eye on the state of the bench; replay states made up, such as match and such as don't.

use crate::bench::Bench;
use crate::faults::Fault;
use crate::generate::records;
use crate::random::Random;
use crate::records::{record_length, ADVANCE};
use crate::replay::{Clause, Replay, Stamp, Step, Ticks, BACK, CLAUSES, NEVER_ALONE, STAMP_BYTES};
use crate::state::{Port, State};

/// Differences at the edges of one and two advances.
pub const EDGE_TICKS: [u32; 6] =
    [1_073_741_823, 1_073_741_824, 1_073_741_825, BACK.0 - 1, BACK.0 - 2, 1];
/// Differences by which the recorder went back, at their edges.
pub const BACK_TICKS: [u32; 4] = [BACK.0, BACK.0 + 1, u32::MAX, u32::MAX - 1];
/// Kinds of one byte.
const ONE_BYTE: [u8; 6] = [0x05, 0x06, 0x07, 0x08, 0x09, 0x0D];

/// Any stamp, often one that soon wraps.
pub fn any_stamp(random: &mut Random) -> Stamp {
    let any = random.u32();
    let soon = u32::MAX - random.below(200) as u32;
    Stamp(random.pick(&[0, 1, u32::MAX, soon, soon, BACK.0, BACK.0 - 1, any, any]))
}

/// Ticks to a moment that matters, or next to it.
fn ticks_near(random: &mut Random, bench: &Bench) -> u32 {
    let moment = random.pick(&records::moments(bench));
    let distance = moment.saturating_sub(bench.state.port.clock.0) / 4;
    let near = (distance + random.pick(&[0, 0, 1, 2])).saturating_sub(random.pick(&[0, 0, 1]));
    // Near the clock's end the first of two advances is answered 22, and the rest can still be done.
    let near = near + random.pick(&[0, 0, 0, 1_073_741_824]);
    u32::try_from(near).unwrap_or(u32::MAX).min(BACK.0 - 1)
}

/// A difference that is an advance, or 0.
pub fn forward(random: &mut Random, bench: &Bench) -> Ticks {
    Ticks(match random.below(12) {
        0 | 1 => 0,
        2 | 3 => random.below(600) as u32,
        4 | 5 => random.pick(&EDGE_TICKS),
        6 => random.u32() % BACK.0,
        7 => random.pick(&[25_000_000, 251_658_240]),
        _ => ticks_near(random, bench),
    })
}

/// A difference by which the recorder went back.
pub fn back(random: &mut Random) -> Ticks {
    let any = random.u32() | BACK.0;
    let edge = random.pick(&BACK_TICKS);
    Ticks(random.pick(&[edge, edge, any]))
}

/// Another kind byte at which a call goes on.
pub fn other_kind(random: &mut Random) -> u8 {
    let unknown = records::unknown_kind(random);
    let one_byte = random.pick(&ONE_BYTE);
    random.pick(&[ADVANCE, ADVANCE, unknown, one_byte, one_byte, 0x02, 0x0B])
}

/// A capture in the making, with a bench that has run what it stands for so far.
pub struct Capture<'a> {
    pub bytes: Vec<u8>,
    scout: Bench<'a>,
    earlier: Option<Stamp>,
    over: bool,
}

impl<'a> Capture<'a> {
    /// Goes on from a bench: the rest of what is carried comes first.
    pub fn from(random: &mut Random, bench: &Bench<'a>) -> Capture<'a> {
        let mut scout = bench.clone();
        let rest = rest_of_begun(random, bench);
        scout.replay(&rest, &mut [0; 64]);
        let earlier = scout.replay.earlier;
        let over = scout.replay.ended != 0 || scout.state.port.broken;
        Capture { bytes: rest, scout, earlier, over }
    }

    /// The stamp by this difference, or any where there is none before it; its advances are run.
    fn stamp_by(&mut self, random: &mut Random, ticks: Ticks) -> Step {
        let stamp = match self.earlier {
            Some(earlier) => earlier.plus(ticks),
            None => any_stamp(random),
        };
        let step = Step { earlier: self.earlier, stamp };
        for ns in step.advances(Fault::None) {
            self.scout.run_record(&records::advance(ns));
        }
        step
    }

    /// Adds a stamp and its record, which is run unless the replay is over.
    fn push(&mut self, stamp: Stamp, record: &[u8]) {
        if !self.over {
            self.scout.run_record(record);
            self.earlier = Some(stamp);
        }
        self.bytes.extend(stamp.to_bytes());
        self.bytes.extend(record);
    }

    /// Adds a stamp by this difference and a record, or what a replay ends or breaks at.
    fn add(&mut self, random: &mut Random, ticks: Ticks, ends: bool) {
        let step = self.stamp_by(random, ticks);
        let record = match ends {
            true if random.chance(50) => records::advance(random.below(100) as u32),
            true => vec![records::unknown_kind(random)],
            false => records::any_but_advance(random, &self.scout),
        };
        self.over |= ends || step.is_back(Fault::None);
        self.push(step.stamp, &record);
    }

    /// The bench that has run what the capture stands for so far.
    pub fn bench(&self) -> &Bench<'a> {
        &self.scout
    }

    /// Ticks to a moment that matters, or next to it.
    pub fn ticks_near(&self, random: &mut Random) -> u32 {
        ticks_near(random, &self.scout)
    }

    /// Adds a stamp by this difference and this record.
    pub fn add_record(&mut self, random: &mut Random, ticks: Ticks, record: &[u8]) {
        let step = self.stamp_by(random, ticks);
        self.push(step.stamp, record);
    }

    /// Adds so many records; now and then one at which the replay ends or breaks, and one or two after it.
    pub fn add_records(&mut self, random: &mut Random, count: usize) {
        for _ in 0..count {
            let back = random.below(100) < 4;
            let ends = random.below(100) < if back { 40 } else { 4 };
            let ticks = if back { self::back(random) } else { forward(random, &self.scout) };
            self.add(random, ticks, ends);
            if self.over && random.chance(60) {
                return;
            }
        }
    }

    /// Adds records with link up and resets, such as make slots Ready in long advances.
    pub fn add_scenario(&mut self, random: &mut Random) {
        let mut records = vec![vec![0x0B, random.below(12) as u8], vec![0x05]];
        for slot in 0..self.scout.setup.slots.min(8) {
            for _ in 0..random.below(3) {
                records.push(records::reset_write(random, &self.scout, slot));
            }
        }
        for record in records {
            let ticks = random.pick(&[0, 0, 1, 300, 251_658_240, 1_073_741_824]);
            self.add_record(random, Ticks(ticks), &record);
        }
    }
}

/// The rest of the record that is carried, or of the stamp with a record of one byte.
fn rest_of_begun(random: &mut Random, bench: &Bench) -> Vec<u8> {
    let (port, replay) = (&bench.state.port, &bench.replay);
    let count = usize::from(port.carried_count);
    if count > 0 {
        let length = record_length(port.carried[0]).unwrap_or(count);
        return (count..length).map(|_| random.below(16) as u8).collect();
    }
    if replay.taken == 0 {
        return Vec::new();
    }
    let mut stamp = replay.earlier.unwrap_or(Stamp(0)).plus(forward(random, bench)).to_bytes();
    if random.chance(30) {
        stamp = any_stamp(random).to_bytes();
    }
    let mut rest = stamp[usize::from(replay.taken).min(STAMP_BYTES)..].to_vec();
    rest.extend(records::any_but_advance(random, bench));
    rest
}

/// A few stamped records, whatever the state.
pub fn plain(random: &mut Random) -> Vec<u8> {
    let mut bytes = Vec::new();
    let mut stamp = any_stamp(random);
    for _ in 0..random.below(4) {
        bytes.extend(stamp.to_bytes());
        bytes.extend(records::plain(random));
        stamp = stamp.plus(Ticks(random.below(1000) as u32));
    }
    bytes.truncate(bytes.len() - random.below(bytes.len() + 1) / 3);
    bytes
}

/// A whole stamp after an earlier one, by this difference.
fn with_stamp(random: &mut Random, ticks: Ticks) -> Replay {
    let earlier = any_stamp(random);
    let bytes = earlier.plus(ticks).to_bytes();
    Replay { earlier: Some(earlier), taken: STAMP_BYTES as u8, bytes, ..Replay::FRESH }
}

/// A difference with so many advances due.
fn ticks_with(random: &mut Random, advances: usize) -> Ticks {
    let two = 1_073_741_824;
    Ticks(match advances {
        0 => 0,
        1 => {
            let any = 1 + random.u32() % (two - 1);
            random.pick(&[1, two - 1, 1 + any % 100, any])
        }
        _ => {
            let any = two + random.u32() % (BACK.0 - two);
            random.pick(&[two, two + 1, BACK.0 - 1, any])
        }
    })
}

/// A whole stamp with some advances due, and no more of them answered.
fn some_answered(random: &mut Random) -> Replay {
    let advances = random.below(3);
    let ticks = ticks_with(random, advances);
    let answered = random.below(advances + 1) as u8;
    Replay { answered, ..with_stamp(random, ticks) }
}

/// A stamp cut anywhere, also the first one.
fn cut_stamp(random: &mut Random, taken: usize) -> Replay {
    let mut bytes = any_stamp(random).to_bytes();
    bytes[taken..].fill(0);
    let earlier = random.chance(60).then(|| any_stamp(random));
    Replay { earlier, taken: taken as u8, bytes, ..Replay::FRESH }
}

/// A replay state that matches, where the port has nothing carried.
fn with_nothing_carried(random: &mut Random) -> Replay {
    let taken = random.below(STAMP_BYTES);
    let back = back(random);
    match random.below(8) {
        0 => Replay::FRESH,
        1 | 2 => cut_stamp(random, taken),
        3 | 4 => some_answered(random),
        5 => with_stamp(random, back),
        6 => Replay { ended: 32, ..with_stamp(random, back) },
        _ => {
            let first = Replay { earlier: None, ..with_stamp(random, back) };
            let other = some_answered(random);
            Replay { ended: random.pick(&[0, 33, 33]), ..random.pick(&[first, other, other]) }
        }
    }
}

/// A replay state that matches this port, if any does.
pub fn matching(random: &mut Random, port: &Port) -> Replay {
    match port.carried_count {
        0 => with_nothing_carried(random),
        _ => Replay { earlier: Some(any_stamp(random)), ..Replay::FRESH },
    }
}

/// A replay state that ended, by 32 or 33.
pub fn ended(random: &mut Random) -> Replay {
    let back = back(random);
    let by_back = Replay { ended: 32, ..with_stamp(random, back) };
    let by_advance = Replay { ended: 33, ..some_answered(random) };
    random.pick(&[by_back, by_advance])
}

/// Any clause that can be broken alone.
pub fn any_clause(random: &mut Random) -> Clause {
    let clauses = CLAUSES.iter().map(|(clause, _)| *clause);
    let alone: Vec<Clause> = clauses.filter(|clause| !NEVER_ALONE.contains(clause)).collect();
    random.pick(&alone)
}

/// Carried bytes that are the start of a record.
fn carry(random: &mut Random, port: &mut Port, kind: u8) {
    let length = record_length(kind).unwrap_or(2);
    port.carried[0] = kind;
    port.carried_count = 1 + random.below(length - 1) as u8;
}

/// Makes the state such that this clause can be broken alone, and gives a replay state with just that broken.
pub fn unmatching(random: &mut Random, state: &mut State, clause: Clause) -> Replay {
    let port = &mut state.port;
    port.carried_count = 0;
    let begun = Replay { earlier: Some(any_stamp(random)), ..Replay::FRESH };
    let whole = STAMP_BYTES as u8;
    let short = random.below(STAMP_BYTES);
    let due = random.below(3);
    let forward = ticks_with(random, due);
    let back = back(random);
    let long_kind = random.pick(&[0x02, 0x03, 0x04, 0x0A, 0x0B, 0x0C]);
    match clause {
        Clause::EndedOther => {
            let any = 34 + random.below(222) as u8;
            let ended = random.pick(&[1, 5, 16, 30, 31, 34, 255, any]);
            Replay { ended, ..with_nothing_carried(random) }
        }
        Clause::ManyBytes => {
            let any = whole + 1 + random.below(251) as u8;
            let taken = random.pick(&[whole + 1, whole + 1, whole + 2, 255, any]);
            Replay { taken, answered: 0, ..with_stamp(random, forward) }
        }
        Clause::CarriedNotBegun => {
            carry(random, port, long_kind);
            Replay::FRESH
        }
        Clause::CarriedWithStampBytes => {
            carry(random, port, long_kind);
            let cut = cut_stamp(random, short.max(1));
            let ticks = random.pick(&[forward, back]);
            let stamp = with_stamp(random, ticks);
            Replay { earlier: begun.earlier, ..random.pick(&[cut, stamp]) }
        }
        // These two are never alone, so that none asks for them.
        Clause::CarriedWithAnswered | Clause::CarriedEnded => begun,
        Clause::CarriedAdvance => {
            carry(random, port, ADVANCE);
            begun
        }
        Clause::AnsweredEarly => {
            let answered = random.pick(&[1, 1, 2, 255]);
            Replay { answered, ..cut_stamp(random, short) }
        }
        Clause::AnsweredMore => {
            let any = 3 + random.below(253);
            let answered = random.pick(&[due + 1, due + 1, any]) as u8;
            let first = Replay { earlier: None, answered: 1, ..with_stamp(random, forward) };
            let other = Replay { answered, ..with_stamp(random, forward) };
            let ended = random.pick(&[0, 33]);
            Replay { ended, ..random.pick(&[first, other, other]) }
        }
        Clause::AnsweredBack => {
            let (answered, ended) = (random.pick(&[1, 1, 2, 3, 4, 255]), random.pick(&[0, 32]));
            Replay { answered, ended, ..with_stamp(random, back) }
        }
        Clause::Ended32Early => Replay { ended: 32, ..cut_stamp(random, short) },
        Clause::Ended32Forward => {
            let first = Replay { earlier: None, ..with_stamp(random, back) };
            let other = some_answered(random);
            Replay { ended: 32, ..random.pick(&[first, other]) }
        }
        Clause::Ended33Early => Replay { ended: 33, ..cut_stamp(random, short) },
        Clause::Ended33Back => Replay { ended: 33, ..with_stamp(random, back) },
    }
}

#[cfg(test)]
mod tests {
    use super::*;
    use crate::generate::{setups, states};
    use crate::replay::broken_clauses;

    #[test]
    fn replay_states_match_or_break_one_clause() {
        for number in 0..20_000 {
            let mut random = Random::for_case(31, number);
            let setup = setups::good(&mut random);
            let mut state = states::sound(&mut random, &setup);
            if state.port.carried_count == 0 || state.port.carried[0] != ADVANCE {
                let replay = matching(&mut random, &state.port);
                assert_eq!(broken_clauses(&replay, &state.port), []);
            }
            let clause = any_clause(&mut random);
            let replay = unmatching(&mut random, &mut state, clause);
            assert_eq!(broken_clauses(&replay, &state.port), [clause], "{replay:?}");
            state.port.carried_count = 0;
            let ended = ended(&mut random);
            assert_eq!(broken_clauses(&ended, &state.port), []);
        }
    }
}
