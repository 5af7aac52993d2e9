//! Tests: stamps, numbers and their order by hand, and properties over generated captures.

use super::{broken_clauses, Clause, Replay, Stamp, Step, Ticks, BACK};
use crate::answers;
use crate::bench::Bench;
use crate::faults::Fault;
use crate::generate::captures::{self, Capture};
use crate::generate::{records, setups, states};
use crate::random::Random;
use crate::records::{record_length, ADVANCE};
use crate::setup::Setup;
use crate::state::{State, Status};
use crate::times::{Nanos, LAST_MOMENT};

const SEED: u64 = 79;
const FULL: u32 = 4_294_967_295;

fn step(earlier: u32, stamp: u32) -> Step {
    Step { earlier: Some(Stamp(earlier)), stamp: Stamp(stamp) }
}

fn advances(earlier: u32, stamp: u32) -> Vec<u32> {
    step(earlier, stamp).advances(Fault::None)
}

#[test]
fn differences_become_advances() {
    assert_eq!(advances(7, 7), []);
    assert_eq!(advances(7, 8), [4]);
    assert_eq!(advances(u32::MAX, 0), [4]);
    assert_eq!(advances(u32::MAX, 9), [40]);
    assert_eq!(advances(0, 1_073_741_823), [4_294_967_292]);
    assert_eq!(advances(0, 1_073_741_824), [FULL, 1]);
    assert_eq!(advances(0, 1_073_741_825), [FULL, 5]);
    assert_eq!(advances(0, BACK.0 - 1), [FULL, FULL - 2]);
    assert_eq!(advances(u32::MAX, BACK.0 - 2), [FULL, FULL - 2]);
    for first in [0, 1, BACK.0, u32::MAX] {
        let step = Step { earlier: None, stamp: Stamp(first) };
        assert_eq!((step.advances(Fault::None), step.is_back(Fault::None)), (vec![], false));
    }
}

#[test]
fn from_2_to_the_31_on_the_recorder_went_back() {
    for earlier in [0, 1, 5, BACK.0 - 1, BACK.0, u32::MAX] {
        for (ticks, back) in
            [(BACK.0 - 1, false), (BACK.0, true), (BACK.0 + 1, true), (u32::MAX, true), (0, false)]
        {
            let step = step(earlier, Stamp(earlier).plus(Ticks(ticks)).0);
            assert_eq!(step.is_back(Fault::None), back);
            assert!(!back || step.advances(Fault::None).is_empty());
        }
    }
}

#[test]
fn advances_add_up_to_four_nanoseconds_a_tick() {
    let mut random = Random::for_case(SEED, 0);
    for _ in 0..10_000 {
        let (earlier, ticks) = (random.u32(), random.u32() % BACK.0);
        let advances = advances(earlier, earlier.wrapping_add(ticks));
        let sum: u64 = advances.iter().map(|ns| u64::from(*ns)).sum();
        assert_eq!(sum, 4 * u64::from(ticks));
        assert!(advances.iter().rev().skip(1).all(|ns| *ns == FULL));
        assert!(advances.iter().all(|ns| *ns > 0));
    }
}

/// A small set-up that isn't refused, with codes of 10 ns.
fn setup() -> Setup {
    let mut setup = setups::small(&mut Random::for_case(SEED, 1));
    setup.entries = setup
        .entries
        .map(|entry| crate::setup::SlotEntry { dl_up: crate::times::Code(10), ..entry });
    setup
}

fn set_up(setup: &Setup) -> Bench<'_> {
    let mut bench = Bench::new(setup, Fault::None);
    assert_eq!(bench.set_up(), 0);
    bench
}

/// Stamps and what follows them, joined.
fn capture(stamped: &[(u32, &[u8])]) -> Vec<u8> {
    let bytes = stamped.iter().map(|(stamp, rest)| [&stamp.to_le_bytes(), *rest].concat());
    bytes.collect::<Vec<_>>().concat()
}

/// Number, bytes consumed and bytes written.
fn gives(bench: &mut Bench, room: usize, input: &[u8]) -> (u8, usize, usize) {
    let mut room = vec![0xEE; room];
    let fed = bench.replay(input, &mut room).fed;
    assert!(room[fed.written..].iter().all(|byte| *byte == 0xEE));
    (fed.number, fed.consumed, fed.written)
}

#[test]
fn a_capture_is_replayed() {
    let setup = setup();
    let mut bench = set_up(&setup);
    let bytes = capture(&[(u32::MAX, &[0x0D]), (u32::MAX, &[0x05]), (2, &[0x0D]), (2, &[0x0D])]);
    assert_eq!(gives(&mut bench, 40, &bytes), (0, 20, 40));
    assert_eq!(bench.state.port.clock, Nanos(12));
    assert!(bench.state.all_ready());
    let mut moments = Replay::FRESH.moments;
    moments[..setup.slot_count()].fill(Some(Nanos(10)));
    assert_eq!(bench.replay, Replay { earlier: Some(Stamp(2)), moments, ..Replay::FRESH });
    assert_eq!(answers::replayed(&setup, &bytes, Fault::None).len(), 40);
}

#[test]
fn advances_wait_for_the_kind_byte_and_for_room() {
    let setup = setup();
    let mut bench = set_up(&setup);
    assert_eq!(gives(&mut bench, 8, &capture(&[(0, &[0x0D])])), (0, 5, 8));
    let stamp = 1_073_741_825u32.to_le_bytes();
    assert_eq!(gives(&mut bench, 80, &stamp), (0, 4, 0));
    assert_eq!(bench.state.port.clock, Nanos(0));
    assert_eq!(gives(&mut bench, 7, &[0x0D]), (30, 0, 0));
    assert_eq!(gives(&mut bench, 15, &[0x0D]), (30, 0, 8));
    assert_eq!((bench.state.port.clock.0, bench.replay.answered), (u64::from(FULL), 1));
    assert_eq!(gives(&mut bench, 8, &[0x0D]), (30, 0, 8));
    assert_eq!((bench.state.port.clock.0, bench.replay.answered), (4_294_967_300, 2));
    assert_eq!(gives(&mut bench, 0, &[0x0D]), (30, 0, 0));
    assert_eq!(gives(&mut bench, 8, &[0x0D]), (0, 1, 8));
    assert_eq!(bench.state.port.clock, Nanos(4_294_967_300));
    assert_eq!(bench.replay.earlier, Some(Stamp(1_073_741_825)));
}

#[test]
fn either_end_keeps_what_came_before_and_the_kind_byte() {
    let setup = setup();
    for (stamp, kind, number) in [
        (BACK.0 + 5, 0x0D, 32),
        (4, 0x0D, 32),
        (4, ADVANCE, 32),
        (4, 0xFF, 32),
        (5, ADVANCE, 33),
        (9, ADVANCE, 33),
    ] {
        let mut bench = set_up(&setup);
        let bytes = capture(&[(5, &[0x0B, 1]), (stamp, &[kind, 0x0D])]);
        assert_eq!(gives(&mut bench, 8, &bytes), (number, 10, 8));
        assert!(bench.state.port.visibility && bench.state.port.clock == Nanos(0));
        assert_eq!((bench.replay.ended, bench.replay.answered), (number, 0));
        for input in [&[][..], &[0x0D], &bytes] {
            assert_eq!(gives(&mut bench, 40, input), (number, 0, 0));
        }
        bench.state.port.broken = true;
        assert_eq!(gives(&mut bench, 40, &bytes), (number, 0, 0));
        bench.state.port.signalling = 3;
        assert_eq!(gives(&mut bench, 40, &bytes), (5, 0, 0));
    }
    let mut bench = set_up(&setup);
    assert_eq!(gives(&mut bench, 0, &capture(&[(7, &[ADVANCE])])), (33, 4, 0));
    assert_eq!(bench.replay.earlier, None);
}

#[test]
fn a_33_after_a_30_leaves_the_advances_answered() {
    let setup = setup();
    let mut bench = set_up(&setup);
    let bytes = capture(&[(0, &[0x0D]), (BACK.0 - 1, &[0x0D])]);
    assert_eq!(gives(&mut bench, 16, &bytes), (30, 9, 16));
    assert_eq!(gives(&mut bench, 16, &[ADVANCE]), (33, 0, 0));
    assert_eq!((bench.replay.answered, bench.replay.ended), (1, 33));
    assert!(!bench.replay_does_not_match());
}

#[test]
fn an_unknown_kind_comes_after_the_advances_and_does_not_end() {
    let setup = setup();
    let mut bench = set_up(&setup);
    let bytes = capture(&[(0, &[0x0D]), (2, &[0x0E, 0x0D])]);
    assert_eq!(gives(&mut bench, 8, &bytes), (30, 9, 8));
    assert!(!bench.state.port.broken);
    assert_eq!(gives(&mut bench, 8, &bytes[9..]), (31, 0, 8));
    assert_eq!(bench.state.port.clock, Nanos(8));
    assert!(bench.state.port.broken && bench.replay.ended == 0 && bench.replay.taken == 4);
    assert_eq!(gives(&mut bench, 8, &[0x0D]), (31, 0, 0));
    assert_eq!(gives(&mut bench, 8, &[]), (31, 0, 0));
}

#[test]
fn an_advance_answered_22_counts() {
    let setup = setup();
    let mut bench = set_up(&setup);
    bench.state.port.clock = Nanos(LAST_MOMENT.0 - 1);
    let bytes = capture(&[(0, &[0x0D]), (1_073_741_824, &[0x0D])]);
    let mut room = [0; 32];
    let fed = bench.replay(&bytes, &mut room).fed;
    assert_eq!((fed.number, fed.written), (0, 32));
    assert_eq!([room[8], room[16], room[24]], [22, 0, 0]);
    assert_eq!(bench.state.port.clock, LAST_MOMENT);
}

#[test]
fn a_record_that_a_feed_began_goes_on_unless_it_is_an_advance() {
    let setup = setup();
    let mut bench = set_up(&setup);
    assert_eq!(gives(&mut bench, 8, &capture(&[(0, &[0x0D])])), (0, 5, 8));
    assert_eq!(bench.feed(&[0x0B], &mut []).number, 0);
    assert_eq!(gives(&mut bench, 8, &[1]), (0, 1, 8));
    assert!(bench.state.port.visibility);
    assert_eq!(bench.feed(&[ADVANCE], &mut []).number, 0);
    assert_eq!(gives(&mut bench, 8, &[1]), (5, 0, 0));
    let mut bench = set_up(&setup);
    assert_eq!(bench.feed(&[0x0B], &mut []).number, 0);
    assert_eq!(gives(&mut bench, 8, &[1]), (5, 0, 0));
}

#[test]
fn what_a_replay_leaves_is_looked_at_with_its_clauses() {
    let port = State::zero(&setup()).port;
    let whole = Replay { earlier: Some(Stamp(0)), taken: 4, ..Replay::FRESH };
    let clauses = |replay: Replay| broken_clauses(&replay, &port);
    assert_eq!(clauses(whole), []);
    assert_eq!(clauses(Replay { answered: 1, ..whole }), [Clause::AnsweredMore]);
    assert_eq!(clauses(Replay { ended: 32, ..whole }), [Clause::Ended32Forward]);
    assert_eq!(clauses(Replay { ended: 33, ..whole }), []);
    let back = Replay { bytes: BACK.0.to_le_bytes(), ..whole };
    assert_eq!(clauses(Replay { ended: 32, ..back }), []);
    assert_eq!(clauses(Replay { ended: 33, ..back }), [Clause::Ended33Back]);
    assert_eq!(clauses(Replay { ended: 31, ..back }), [Clause::EndedOther]);
    assert_eq!(clauses(Replay { earlier: None, ended: 33, ..back }), []);
    assert_eq!(clauses(Replay { earlier: None, ended: 32, ..back }), [Clause::Ended32Forward]);
    let two = Replay { bytes: (BACK.0 - 1).to_le_bytes(), answered: 2, ..whole };
    assert_eq!(clauses(two), []);
    assert_eq!(clauses(Replay { answered: 3, ..two }), [Clause::AnsweredMore]);
    assert_eq!(clauses(Replay { taken: 3, ..two }), [Clause::AnsweredEarly]);
}

/// A bench in a sound state that isn't broken, with a replay state that matches it.
fn sound_bench<'a>(random: &mut Random, setup: &'a Setup) -> Bench<'a> {
    let mut bench = Bench::new(setup, Fault::None);
    bench.state = states::sound(random, setup);
    let port = &mut bench.state.port;
    port.broken = false;
    if port.carried_count > 0 && port.carried[0] == ADVANCE || random.chance(60) {
        port.carried_count = 0;
    }
    let count = usize::from(port.carried_count);
    port.carried[count..].fill(0);
    bench.replay = captures::matching(random, port);
    assert!(!bench.replay_does_not_match());
    bench
}

/// Captured bytes that fit the bench, cut anywhere at their end.
fn captured(random: &mut Random, bench: &Bench) -> Vec<u8> {
    let mut capture = Capture::from(random, bench);
    let count = random.below(10);
    capture.add_records(random, count);
    let mut bytes = capture.bytes;
    bytes.truncate(bytes.len() - random.below(bytes.len() + 1) / 4);
    bytes
}

/// Replays a capture in random pieces with random rooms, and gives the joined answers.
fn in_pieces(random: &mut Random, bench: &mut Bench, capture: &[u8]) -> (u8, Vec<u8>) {
    let mut joined = Vec::new();
    let mut from = 0;
    loop {
        let to = from + random.below(capture.len() - from + 1);
        let mut room = vec![0xEE; random.below(30)];
        let fed = bench.replay(&capture[from..to], &mut room).fed;
        assert!(room[fed.written..].iter().all(|byte| *byte == 0xEE));
        assert!(!bench.replay_does_not_match() && !bench.is_unsound());
        joined.extend(&room[..fed.written]);
        from += fed.consumed;
        if fed.number > 30 || from == capture.len() && fed.number == 0 {
            return (fed.number, joined);
        }
    }
}

#[test]
fn any_cuts_and_any_rooms_give_what_the_whole_capture_gives() {
    for number in 0..4000 {
        let mut random = Random::for_case(SEED + 1, number);
        let setup = setups::good(&mut random);
        let mut whole = sound_bench(&mut random, &setup);
        let mut cut = whole.clone();
        let capture = captured(&mut random, &whole);
        let mut room = vec![0xEE; 8 * capture.len() + 24];
        let fed = whole.replay(&capture, &mut room).fed;
        let (number, joined) = in_pieces(&mut random, &mut cut, &capture);
        assert_eq!(number, fed.number);
        assert_eq!(joined, room[..fed.written]);
        assert_eq!((cut.state, cut.replay), (whole.state, whole.replay));
    }
}

/// The trace that captured bytes stand for, and the number by which they end, from a replay state on.
fn stands_for(replay: &Replay, carried: &[u8], bytes: &[u8]) -> (Vec<u8>, u8) {
    let mut left = bytes;
    let mut trace = Vec::new();
    let mut earlier = replay.earlier;
    let mut answered = usize::from(replay.answered);
    let mut stamp = replay.bytes[..usize::from(replay.taken)].to_vec();
    if let Some(kind) = carried.first() {
        let rest = record_length(*kind).expect("a kind is carried") - carried.len();
        trace.extend(&left[..rest.min(left.len())]);
        left = &left[rest.min(left.len())..];
    }
    loop {
        while stamp.len() < 4 {
            let Some((byte, rest)) = left.split_first() else {
                return (trace, 0);
            };
            stamp.push(*byte);
            left = rest;
        }
        let Some(kind) = left.first() else {
            return (trace, 0);
        };
        let now = Stamp(u32::from_le_bytes([stamp[0], stamp[1], stamp[2], stamp[3]]));
        let ticks =
            earlier.map_or(0, |earlier| (now.0 as u64 + (1 << 32) - earlier.0 as u64) % (1 << 32));
        if ticks >= 1 << 31 {
            return (trace, 32);
        }
        if *kind == ADVANCE {
            return (trace, 33);
        }
        let time = 4 * ticks;
        let full = u64::from(FULL);
        let all =
            if time > full { vec![full, time - full] } else { vec![time; usize::from(time > 0)] };
        for ns in &all[answered..] {
            trace.extend(records::advance(*ns as u32));
        }
        let length = record_length(*kind).unwrap_or(left.len()).min(left.len());
        trace.extend(&left[..length]);
        left = &left[length..];
        (earlier, answered) = (Some(now), 0);
        stamp.clear();
    }
}

#[test]
fn a_replay_is_the_feeding_of_the_trace_that_it_stands_for() {
    let mut ends = [0; 34];
    for number in 0..6000 {
        let mut random = Random::for_case(SEED + 2, number);
        let setup = setups::good(&mut random);
        let mut replayed = sound_bench(&mut random, &setup);
        let mut fed = replayed.clone();
        let capture = captured(&mut random, &replayed);
        let carried = &fed.state.port.carried[..usize::from(fed.state.port.carried_count)];
        let (trace, end) = match replayed.replay.ended {
            0 => stands_for(&replayed.replay, carried, &capture),
            ended => (Vec::new(), ended),
        };
        let mut answers = vec![0xEE; 8 * capture.len() + 24];
        let mut expected = answers.clone();
        let gave = replayed.replay(&capture, &mut answers).fed;
        let wanted = fed.feed(&trace, &mut expected);
        assert_eq!(gave.number, if end == 0 { wanted.number } else { end });
        assert_eq!(gave.written, wanted.written);
        assert_eq!(answers, expected);
        assert_eq!(replayed.state, fed.state);
        ends[usize::from(gave.number)] += 1;
    }
    assert!([0, 31, 32, 33].iter().all(|number| ends[*number] > 100), "{ends:?}");
}

#[test]
fn an_ended_replay_stays_ended_and_changes_nothing() {
    let mut seen = 0;
    for number in 0..3000 {
        let mut random = Random::for_case(SEED + 3, number);
        let setup = setups::good(&mut random);
        let mut bench = sound_bench(&mut random, &setup);
        let capture = captured(&mut random, &bench);
        bench.replay(&capture, &mut vec![0; 8 * capture.len() + 24]);
        let ended = bench.replay.ended;
        if ended == 0 {
            continue;
        }
        let before = bench.clone();
        for _ in 0..3 {
            let input = captures::plain(&mut random);
            let mut room = [0xEE; 80];
            let fed = bench.replay(&input, &mut room).fed;
            assert_eq!((fed.number, fed.consumed, fed.written), (ended, 0, 0));
            assert_eq!((&bench.state, bench.replay), (&before.state, before.replay));
            assert_eq!(room, [0xEE; 80]);
        }
        seen += 1;
    }
    assert!(seen > 300, "{seen}");
}

#[test]
fn refused_replays_change_nothing() {
    let mut seen = [0; 6];
    for number in 0..6000 {
        let mut random = Random::for_case(SEED + 4, number);
        let bad = random.chance(50);
        let setup = if bad { setups::bad(&mut random) } else { setups::good(&mut random) };
        let mut bench = Bench::new(&setup, Fault::None);
        if setup.refusal(Fault::None).is_none() {
            let clause = states::any_clause(&mut random);
            bench.state = match random.chance(50) {
                true => states::unsound(&mut random, &setup, clause),
                false => states::sound(&mut random, &setup),
            };
        }
        let clause = captures::any_clause(&mut random);
        bench.replay = captures::unmatching(&mut random, &mut bench.state, clause);
        let before = bench.clone();
        let mut room = [0xEE; 80];
        let fed = bench.replay(&captures::plain(&mut random), &mut room).fed;
        let wanted = setup.refusal(Fault::None).unwrap_or(5);
        assert_eq!((fed.number, fed.consumed, fed.written), (wanted, 0, 0));
        assert_eq!((bench.state, bench.replay), (before.state, before.replay));
        assert_eq!(room, [0xEE; 80]);
        seen[usize::from(wanted)] += 1;
    }
    assert!(seen[1..].iter().all(|count| *count > 50), "{seen:?}");
}

#[test]
fn set_up_and_feed_leave_the_replay_state() {
    let setup = setup();
    let mut bench = set_up(&setup);
    bench.replay(&capture(&[(3, &[0x05]), (0x0201, &[])])[..7], &mut [0; 8]);
    let kept = bench.replay;
    assert_eq!((kept.taken, kept.bytes), (2, [1, 2, 0, 0]));
    bench.feed(&[0x0D, 0x06, 0x0B], &mut [0; 16]);
    assert_eq!(bench.replay, kept);
    bench.set_up();
    assert_eq!(bench.replay, kept);
    assert!(!bench.replay_does_not_match());
    assert!(bench.state.statuses.iter().all(|status| *status == Status::Down));
}
