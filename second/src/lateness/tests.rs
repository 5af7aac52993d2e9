//! Tests: differences and totals by hand, their properties, and the kept moments beside a walk of its own.

use super::{difference, totals, Difference, Seen, Totals, FARTHEST, MOST_DIFFERENCES};
use crate::answers;
use crate::bench::Bench;
use crate::faults::Fault;
use crate::generate::captures::Capture;
use crate::generate::{lateness as generated, setups, states};
use crate::random::Random;
use crate::records::{record_length, ADVANCE, LINK_UP, WRITE};
use crate::replay::{Moments, Replay, Stamp};
use crate::setup::{Setup, SlotEntry, DEVICE_CAPABILITIES, DEVICE_CONTROL, MOST_SLOTS, PMCSR};
use crate::state::{State, Status};
use crate::times::{Code, Nanos, LAST_MOMENT};

const SEED: u64 = 83;
const FAR: u64 = FARTHEST as u64;

fn of(seen: u64, made: u64) -> Difference {
    difference(Nanos(seen), Nanos(made))
}

#[test]
fn a_difference_is_the_seen_time_minus_the_bench_time() {
    assert_eq!(of(7, 7), Difference::Of(0));
    assert_eq!(of(6, 7), Difference::Of(-1));
    assert_eq!(of(8, 7), Difference::Of(1));
    assert_eq!(of(u64::MAX, u64::MAX - 9), Difference::Of(9));
    assert_eq!(of(0, FAR), Difference::Of(-FARTHEST));
    assert_eq!(of(FAR, 0), Difference::Of(FARTHEST));
    assert_eq!(of(FAR + 3, 3), Difference::Of(FARTHEST));
}

#[test]
fn outside_10_to_the_15_a_difference_is_refused() {
    for (seen, made) in [
        (FAR + 1, 0),
        (0, FAR + 1),
        (u64::MAX, 0),
        (0, u64::MAX),
        (u64::MAX, u64::MAX - FAR - 1),
        (1 << 63, 0),
        (0, 1 << 63),
        ((1 << 63) + 1, 0),
    ] {
        assert_eq!(of(seen, made), Difference::Outside);
    }
}

#[test]
fn two_moments_up_to_10_to_the_15_are_never_refused() {
    let mut random = Random::for_case(SEED, 0);
    for _ in 0..20_000 {
        let any = [0, 1, FAR - 1, FAR, random.u64() % (FAR + 1), random.u64() % (FAR + 1)];
        let (seen, made) = (random.pick(&any), random.pick(&any));
        let Difference::Of(difference) = of(seen, made) else {
            panic!("{seen} - {made}");
        };
        assert_eq!(made.checked_add_signed(difference), Some(seen));
    }
}

/// A report of 2 slots, with moments and seen times in all.
#[test]
fn slots_without_both_times_and_past_the_count_have_none() {
    let mut setup = setups::quick(&mut Random::for_case(SEED, 1));
    setup.slots = 2;
    let mut bench = Bench::new(&setup, Fault::None);
    let mut seen: Seen = [Some(Nanos(5)); MOST_SLOTS];
    bench.replay.moments = [Some(Nanos(3)); MOST_SLOTS];
    let expected = |first: [Difference; 2]| {
        let mut all = [Difference::None; MOST_SLOTS];
        all[..2].copy_from_slice(&first);
        all
    };
    let kept = bench.replay;
    assert_eq!(bench.lateness(&seen), expected([Difference::Of(2); 2]));
    assert_eq!(bench.replay, kept);
    seen[0] = None;
    assert_eq!(bench.lateness(&seen), expected([Difference::None, Difference::Of(2)]));
    bench.replay.moments[1] = None;
    assert_eq!(bench.lateness(&seen), expected([Difference::None; 2]));
    seen[0] = Some(Nanos(u64::MAX));
    assert_eq!(bench.lateness(&seen), expected([Difference::Outside, Difference::None]));
}

#[test]
fn totals_by_hand() {
    let sound = |list: &[i64]| totals(list, Fault::None);
    assert_eq!(sound(&[]), Totals::NONE);
    let given = Totals { late: 1, least: 4, greatest: 4, sum: 4, ..Totals::NONE };
    assert_eq!(sound(&[4]), given);
    let given =
        Totals { number: 0, early: 2, on_time: 1, late: 1, least: -9, greatest: 5, sum: -6 };
    assert_eq!(sound(&[-2, 5, 0, -9]), given);
    for edge in [FARTHEST, -FARTHEST] {
        assert_eq!(sound(&[edge, 0]).sum, edge);
        assert_eq!(sound(&[0, edge + edge.signum()]), Totals { number: 34, ..Totals::NONE });
    }
    for lowest in [i64::MIN, i64::MAX, i64::MIN + 1] {
        assert_eq!(sound(&[1, lowest, 1]), Totals { number: 34, ..Totals::NONE });
    }
}

#[test]
fn as_many_as_may_be_and_one_more() {
    for edge in [FARTHEST, -FARTHEST] {
        let mut list = vec![edge; MOST_DIFFERENCES];
        let given = totals(&list, Fault::None);
        assert_eq!((given.number, given.sum), (0, 9_000 * edge));
        assert_eq!((given.early + given.late, given.least, given.greatest), (9_000, edge, edge));
        list.push(0);
        assert_eq!(totals(&list, Fault::None), Totals { number: 35, ..Totals::NONE });
        list.push(i64::MAX);
        assert_eq!(totals(&list, Fault::None), Totals { number: 34, ..Totals::NONE });
    }
}

/// Any list that isn't long.
fn list(random: &mut Random) -> Vec<i64> {
    loop {
        let list = generated::list(random);
        if list.len() < 100 {
            return list;
        }
    }
}

#[test]
fn another_order_gives_the_same() {
    let mut random = Random::for_case(SEED, 2);
    let mut refused = 0;
    for _ in 0..5000 {
        let mut list = list(&mut random);
        let given = totals(&list, Fault::None);
        for place in (1..list.len()).rev() {
            list.swap(place, random.below(place + 1));
        }
        assert_eq!(totals(&list, Fault::None), given);
        refused += usize::from(given.number != 0);
    }
    assert!((100..4000).contains(&refused), "{refused}");
}

#[test]
fn joining_two_lists_adds_counts_and_sums() {
    let mut random = Random::for_case(SEED, 3);
    let mut joined = 0;
    for _ in 0..5000 {
        let lists = [list(&mut random), list(&mut random)];
        let [one, other] = [0, 1].map(|index: usize| totals(&lists[index], Fault::None));
        let both = totals(&lists.concat(), Fault::None);
        assert_eq!(both.number == 0, one.number == 0 && other.number == 0);
        if both.number != 0 || lists.iter().any(Vec::is_empty) {
            continue;
        }
        assert_eq!(both.early, one.early + other.early);
        assert_eq!(both.on_time, one.on_time + other.on_time);
        assert_eq!(both.late, one.late + other.late);
        assert_eq!(both.sum, one.sum + other.sum);
        assert_eq!(both.least, one.least.min(other.least));
        assert_eq!(both.greatest, one.greatest.max(other.greatest));
        joined += 1;
    }
    assert!(joined > 1000, "{joined}");
}

/// Totals as one goes through a list, with an accumulator and no sorting.
fn one_by_one(list: &[i64]) -> Totals {
    let mut totals = Totals::NONE;
    for (index, one) in list.iter().enumerate() {
        totals.early += u32::from(*one < 0);
        totals.on_time += u32::from(*one == 0);
        totals.late += u32::from(*one > 0);
        totals.least = if index == 0 { *one } else { totals.least.min(*one) };
        totals.greatest = if index == 0 { *one } else { totals.greatest.max(*one) };
        totals.sum += one;
    }
    totals
}

#[test]
fn totals_are_those_of_going_through_the_list() {
    let mut random = Random::for_case(SEED, 4);
    for _ in 0..3000 {
        let list = generated::list(&mut random);
        let given = totals(&list, Fault::None);
        let outside = list.iter().any(|one| one.unsigned_abs() > FAR);
        let wanted = match (outside, list.len() > 9_000) {
            (true, _) => Totals { number: 34, ..Totals::NONE },
            (false, true) => Totals { number: 35, ..Totals::NONE },
            (false, false) => one_by_one(&list),
        };
        assert_eq!(given, wanted);
    }
}

/// Two slots of these DL Up, FLR and D3hot times, both able to have an FLR.
fn setup(codes: [[u16; 3]; 2]) -> Setup {
    let mut setup = setups::quick(&mut Random::for_case(SEED, 5));
    setup.slots = 2;
    (setup.statuses, setup.live_words, setup.cells) = (2, 128, 4);
    setup.defaults = vec![0; 128];
    for (slot, [dl_up, flr, d3hot]) in codes.into_iter().enumerate() {
        setup.defaults[64 * slot + DEVICE_CAPABILITIES] = 1 << 28;
        let [dl_up, flr, d3hot] = [dl_up, flr, d3hot].map(Code);
        setup.entries[slot] = SlotEntry { dl_up, flr, d3hot, ..SlotEntry::BLANK };
    }
    setup
}

fn capture(stamped: &[(u32, &[u8])]) -> Vec<u8> {
    let bytes = stamped.iter().map(|(stamp, rest)| [&stamp.to_le_bytes(), *rest].concat());
    bytes.collect::<Vec<_>>().concat()
}

fn kept(bench: &Bench) -> [Option<u64>; 2] {
    assert!(bench.replay.moments[2..].iter().all(Option::is_none));
    [0, 1].map(|slot: usize| bench.replay.moments[slot].map(|moment| moment.0))
}

fn replay(bench: &mut Bench, stamped: &[(u32, &[u8])]) -> u8 {
    bench.replay(&capture(stamped), &mut [0; 400]).fed.number
}

const FLR_OF_0: [u8; 8] = [3, 0, DEVICE_CONTROL as u8, 2, 0, 0x80, 0, 0];
const TO_D3HOT: [u8; 8] = [3, 1, PMCSR as u8, 1, 3, 0, 0, 0];
const FROM_D3HOT: [u8; 8] = [3, 1, PMCSR as u8, 1, 0, 0, 0, 0];

#[test]
fn a_moment_is_the_ready_time_also_within_an_advance() {
    let setup = setup([[10, 5, 0], [3, 0, 7]]);
    let mut bench = Bench::new(&setup, Fault::None);
    assert_eq!(bench.set_up(), 0);
    assert_eq!(replay(&mut bench, &[(0, &[LINK_UP]), (1, &[0x0D])]), 0);
    assert_eq!(kept(&bench), [None, Some(3)]);
    assert_eq!(replay(&mut bench, &[(100, &FLR_OF_0)]), 0);
    assert_eq!(kept(&bench), [Some(10), Some(3)]);
    assert_eq!(replay(&mut bench, &[(101, &TO_D3HOT), (101, &FROM_D3HOT), (300, &[7])]), 0);
    assert_eq!(kept(&bench), [Some(405), Some(411)]);
    assert!(bench.state.statuses.iter().all(|status| *status == Status::Down));
}

#[test]
fn a_wait_of_0_counts_at_the_clock_of_its_record() {
    let setup = setup([[0, 0x200, 9], [0, 9, 0]]);
    let mut bench = Bench::new(&setup, Fault::None);
    assert_eq!(bench.set_up(), 0);
    assert_eq!(replay(&mut bench, &[(0, &[0x0D]), (5, &[LINK_UP])]), 0);
    assert_eq!(kept(&bench), [Some(20), Some(20)]);
    assert_eq!(replay(&mut bench, &[(6, &FLR_OF_0), (7, &TO_D3HOT), (8, &FROM_D3HOT)]), 0);
    assert_eq!(kept(&bench), [Some(24), Some(32)]);
    let card_moments = answers::moments(&setup, &capture(&[(9, &[LINK_UP])]), Fault::None);
    assert_eq!(card_moments, b"0 0\n1 0\n");
}

#[test]
fn feeds_set_ups_and_refused_calls_leave_the_moments() {
    let setup = setup([[0, 0, 0], [4, 0, 0]]);
    let mut bench = Bench::new(&setup, Fault::None);
    assert_eq!(bench.set_up(), 0);
    bench.feed(&[LINK_UP, ADVANCE, 4, 0, 0, 0], &mut [0; 16]);
    assert!(bench.state.all_ready());
    assert_eq!(kept(&bench), [None, None]);
    assert_eq!(replay(&mut bench, &[(0, &FLR_OF_0), (0, &[6])]), 0);
    assert_eq!(kept(&bench), [Some(4), None]);
    bench.feed(&[LINK_UP, ADVANCE, 40, 0, 0, 0], &mut [0; 16]);
    assert_eq!((kept(&bench), bench.set_up()), ([Some(4), None], 0));
    bench.state.port.signalling = 3;
    assert_eq!(replay(&mut bench, &[(1, &[LINK_UP])]), 5);
    assert_eq!(kept(&bench), [Some(4), None]);
    bench.state.port.signalling = 0;
    assert_eq!(replay(&mut bench, &[(0, &[LINK_UP]), (0, &[7]), (0, &[ADVANCE])]), 33);
    assert_eq!(kept(&bench), [Some(0), None]);
    assert_eq!(replay(&mut bench, &[(0, &[LINK_UP])]), 33);
    assert_eq!(kept(&bench), [Some(0), None]);
}

#[test]
fn an_advance_answered_22_makes_nothing_ready() {
    let setup = setup([[10, 0, 0], [0, 0, 0]]);
    let mut bench = Bench::new(&setup, Fault::None);
    assert_eq!(bench.set_up(), 0);
    bench.state.port.clock = Nanos(LAST_MOMENT.0 - 10);
    assert_eq!(replay(&mut bench, &[(0, &[LINK_UP]), (3, &[0x0D])]), 0);
    assert_eq!(kept(&bench), [None, Some(LAST_MOMENT.0 - 10)]);
    let wanted = (bench.state.port.clock, bench.state.statuses[0]);
    assert_eq!(wanted.0, Nanos(LAST_MOMENT.0 - 10));
    assert!(matches!(wanted.1, Status::Pending { ready: LAST_MOMENT, .. }));
    assert_eq!(replay(&mut bench, &[(5, &[0x0D]), (6, &[0x0D])]), 0);
    assert_eq!(kept(&bench), [None, Some(LAST_MOMENT.0 - 10)]);
}

/// Whether a write begins a wait of 0 in a slot that is Ready before it: an FLR, or leaving D3hot.
fn begins_wait_of_0(setup: &Setup, before: &State, after: &State, record: &[u8]) -> bool {
    let [slot, word, enables] = [record[1], record[2], record[3]].map(usize::from);
    let entry = &setup.entries[slot];
    let power = |state: &State| state.live[64 * slot + PMCSR] & 3;
    let flr = word == DEVICE_CONTROL
        && enables & 2 != 0
        && record[5] & 0x80 != 0
        && setup.defaults[64 * slot + DEVICE_CAPABILITIES] >> 28 & 1 == 1;
    let from_d3hot = word == PMCSR && power(before) == 3 && power(after) == 0;
    flr && entry.flr.time() == Nanos(0) || from_d3hot && entry.d3hot.time() == Nanos(0)
}

/// Notes by the statuses around a record which slots it made Ready, and when.
fn note(moments: &mut Moments, setup: &Setup, before: &State, after: &State, record: &[u8]) {
    let clock = before.port.clock;
    for slot in 0..before.statuses.len() {
        let ready_after = after.statuses[slot] == Status::Ready;
        let moment = match (record[0], before.statuses[slot]) {
            (ADVANCE, Status::Pending { ready, .. }) if ready_after => Some(ready),
            (LINK_UP, Status::Down) if ready_after => Some(clock),
            (WRITE, Status::Ready) if ready_after && usize::from(record[1]) == slot => {
                begins_wait_of_0(setup, before, after, record).then_some(clock)
            }
            _ => None,
        };
        moments[slot] = moment.or(moments[slot]);
    }
}

/// The records that a capture of whole records stands for, advances too.
fn stands_for(capture: &[u8], earlier: Option<Stamp>) -> Vec<Vec<u8>> {
    let mut records = Vec::new();
    let (mut left, mut earlier) = (capture, earlier);
    while left.len() > 4 {
        let stamp = u32::from_le_bytes([left[0], left[1], left[2], left[3]]);
        let mut time = 4 * u64::from(earlier.map_or(0, |earlier| stamp.wrapping_sub(earlier.0)));
        while time > 0 {
            let ns = u32::try_from(time).unwrap_or(u32::MAX);
            records.push([&[ADVANCE], &ns.to_le_bytes()[..]].concat());
            time -= u64::from(ns);
        }
        let length = record_length(left[4]).expect("whole records are captured");
        records.push(left[4..4 + length].to_vec());
        left = &left[4 + length..];
        earlier = Some(Stamp(stamp));
    }
    records
}

/// A bench in a sound state with nothing carried, and a replay that stands between records.
fn bench_between_records<'a>(random: &mut Random, setup: &'a Setup) -> Bench<'a> {
    let mut bench = Bench::new(setup, Fault::None);
    bench.state = states::sound(random, setup);
    bench.state.port.broken = false;
    bench.state.port.carried_count = 0;
    let earlier = random.chance(70).then(|| Stamp(random.u32()));
    let moments = generated::moments(random, &bench);
    bench.replay = Replay { earlier, moments, ..Replay::FRESH };
    bench
}

#[test]
fn kept_moments_are_those_of_the_trace_that_the_capture_stands_for() {
    let (mut changed, mut at_once) = (0, 0);
    for number in 0..6000 {
        let mut random = Random::for_case(SEED + 1, number);
        let setup = setups::quick(&mut random);
        let mut replayed = bench_between_records(&mut random, &setup);
        let mut fed = replayed.clone();
        let mut made = Capture::from(&mut random, &replayed);
        let count = 1 + random.below(6);
        made.add_ways(&mut random, count);
        let mut wanted = fed.replay.moments;
        for record in stands_for(&made.bytes, fed.replay.earlier) {
            let before = fed.state.clone();
            let mut answer = [0; 8];
            assert_eq!(fed.feed(&record, &mut answer).number, 0);
            if answer[0] == 0 {
                let kept = wanted;
                note(&mut wanted, &setup, &before, &fed.state, &record);
                at_once += usize::from(record[0] != ADVANCE && wanted != kept);
            }
        }
        changed += usize::from(wanted != replayed.replay.moments);
        let room = &mut vec![0; 24 * made.bytes.len()];
        assert_eq!(replayed.replay(&made.bytes, room).fed.number, 0);
        assert_eq!(replayed.state, fed.state);
        assert_eq!(replayed.replay.moments, wanted, "case {number}");
    }
    assert!(changed > 3000 && at_once > 1000, "{changed} {at_once}");
}
