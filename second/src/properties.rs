//! Tests: properties of the model over generated states, traces and cases.

use crate::bench::{Answer, Bench};
use crate::coverage::Coverage;
use crate::faults::Fault;
use crate::generate::{self, records, setups, states, Of};
use crate::names;
use crate::random::Random;
use crate::run::{run_case, run_stream, Ended};
use crate::selfcheck::check_case;
use crate::setup::Setup;
use crate::stream::{image_length, put_case, Bad, Case, Operation, Source, PORT_BYTES, VERSION};

const SEED: u64 = 77;

/// A bench in a sound state with nothing carried, not broken.
fn sound_bench<'a>(random: &mut Random, setup: &'a Setup) -> Bench<'a> {
    let mut bench = Bench::new(setup, Fault::None);
    bench.state = states::sound(random, setup);
    bench.state.port.carried_count = 0;
    bench.state.port.carried.fill(0);
    bench.state.port.broken = false;
    bench
}

fn advanced(bench: &mut Bench, ns: u32) -> Answer {
    bench.run_record(&records::advance(ns))
}

#[test]
fn two_advances_are_one_with_counts_adding_up() {
    let mut done = 0;
    for number in 0..4000 {
        let mut random = Random::for_case(SEED, number);
        let setup = setups::good(&mut random);
        let mut twice = sound_bench(&mut random, &setup);
        let mut once = twice.clone();
        let limit = random.pick(&[40, 1000, 1_500_000_000]);
        let (first, second) = (random.below(limit) as u32, random.below(limit) as u32);
        let answers = [advanced(&mut twice, first), advanced(&mut twice, second)];
        if answers.iter().any(|answer| answer.status != 0) {
            continue;
        }
        let whole = advanced(&mut once, first + second);
        assert_eq!(whole.status, 0);
        assert_eq!(whole.queued, answers[0].queued + answers[1].queued);
        assert_eq!(whole.dropped, answers[0].dropped + answers[1].dropped);
        assert_eq!(whole.interrupts, answers[0].interrupts | answers[1].interrupts);
        assert_eq!(answers[0].interrupts & answers[1].interrupts, 0);
        assert_eq!(once.state, twice.state);
        done += 1;
    }
    assert!(done > 2000);
}

/// A trace of records that fit the state, sometimes with an unknown kind in it.
fn trace(random: &mut Random, bench: &Bench) -> Vec<u8> {
    let mut scout = bench.clone();
    let mut trace = Vec::new();
    for _ in 0..random.below(14) {
        let record = records::any(random, &scout);
        scout.run_record(&record);
        trace.extend(record);
    }
    if random.chance(10) {
        trace.push(records::unknown_kind(random));
        trace.push(0x0D);
    }
    trace.truncate(trace.len() - random.below(trace.len() + 1) / 4);
    trace
}

/// Feeds a trace in random pieces with random rooms, and gives the joined answers.
fn in_pieces(random: &mut Random, bench: &mut Bench, trace: &[u8]) -> (u8, Vec<u8>) {
    let mut joined = Vec::new();
    let mut from = 0;
    loop {
        let to = from + random.below(trace.len() - from + 1);
        let mut room = vec![0xEE; random.below(30)];
        let fed = bench.feed(&trace[from..to], &mut room);
        assert!(room[fed.written..].iter().all(|byte| *byte == 0xEE));
        joined.extend(&room[..fed.written]);
        from += fed.consumed;
        if fed.number == 31 || from == trace.len() {
            return (fed.number, joined);
        }
    }
}

#[test]
fn any_cuts_give_what_one_trace_gives() {
    for number in 0..3000 {
        let mut random = Random::for_case(SEED + 1, number);
        let setup = setups::good(&mut random);
        let mut whole = sound_bench(&mut random, &setup);
        let mut cut = whole.clone();
        let trace = trace(&mut random, &whole);
        let mut room = vec![0xEE; 8 * trace.len()];
        let fed = whole.feed(&trace, &mut room);
        let (number, joined) = in_pieces(&mut random, &mut cut, &trace);
        assert_eq!(number, fed.number);
        assert_eq!(joined, room[..fed.written]);
        assert_eq!(cut.state, whole.state);
    }
}

#[test]
fn soundness_is_kept_and_refusals_change_nothing() {
    let mut coverage = Coverage::new();
    let mut out = Vec::new();
    for number in 0..10_000 {
        let case = generate::case(SEED, number);
        check_case(&case, &mut coverage, &mut out).unwrap();
    }
    assert_eq!(coverage.missing(Of::Everything), Vec::<String>::new());
}

#[test]
fn statuses_but_0_change_nothing() {
    let mut seen = 0;
    for number in 0..3000 {
        let mut random = Random::for_case(SEED + 2, number);
        let setup = setups::good(&mut random);
        let mut bench = sound_bench(&mut random, &setup);
        for _ in 0..6 {
            let before = bench.state.clone();
            let record = records::any(&mut random, &bench);
            if bench.run_record(&record).status != 0 {
                assert_eq!(bench.state, before);
                seen += 1;
            }
        }
    }
    assert!(seen > 1000);
}

/// Reads the one case of a stream back.
fn read_back(stream: &[u8]) -> Case {
    let mut source = Source::new(stream, Fault::None);
    source.version().unwrap();
    let setup = source.setup().unwrap().unwrap();
    let mut operations = Vec::new();
    while let Some(operation) = source.operation(&setup).unwrap() {
        operations.push(operation);
    }
    Case { setup, operations }
}

/// The case with zeros where a lent image has bytes that are ignored.
fn without_noise(case: &Case) -> Case {
    let mut case = case.clone();
    for operation in &mut case.operations {
        if let Operation::Lend { noise, .. }
        | Operation::LendReplay { noise, .. }
        | Operation::Lateness { noise, .. } = operation
        {
            *noise = 0;
        }
    }
    case
}

#[test]
fn cases_come_back_from_the_stream_and_run_alike() {
    for number in 0..1500 {
        let case = generate::case(SEED + 3, number);
        let mut stream = vec![VERSION];
        put_case(&case, &mut stream);
        assert_eq!(read_back(&stream), without_noise(&case));
        let mut output = Vec::new();
        let ended = run_stream(&stream[..], &mut output, Fault::None).unwrap();
        assert_eq!(ended, Ended::AtItsEnd);
        assert_eq!(output, run_case(&case, Fault::None));
        let lengths = case.operations.iter().map(|one| names::output_length(&case, one));
        assert_eq!(output.len(), lengths.sum::<usize>());
    }
}

#[test]
fn a_cut_stream_is_a_bad_case_and_its_output_stands() {
    let case = generate::case(SEED, 3);
    let mut stream = vec![VERSION];
    put_case(&case, &mut stream);
    let whole = run_case(&case, Fault::None);
    for length in (0..stream.len()).step_by(7).filter(|length| *length != 1) {
        let mut output = Vec::new();
        let ended = run_stream(&stream[..length], &mut output, Fault::None).unwrap();
        let bad = if length == 0 { Bad::NoVersion } else { Bad::Cut };
        assert_eq!(ended, Ended::BadCase(bad));
        assert!(whole.starts_with(&output));
    }
}

#[test]
fn names_tell_the_fields_apart() {
    let case = (0..)
        .map(|number| generate::case(SEED, number))
        .find(|case| matches!(case.operations[..], [Operation::SetUp, ..]))
        .unwrap();
    assert_eq!(names::name(&case, 0), "operation 0 (set-up), number");
    assert_eq!(names::name(&case, 1), "operation 0 (set-up), clock");
    assert_eq!(names::name(&case, 1 + 8), "operation 0 (set-up), moment of the last reset");
    assert_eq!(names::name(&case, 1 + 24), "operation 0 (set-up), queue start");
    let status = 1 + PORT_BYTES;
    for (at, field) in [(2, "ready time"), (18, "set"), (19, "end of change")] {
        let name = format!("operation 0 (set-up), status of slot 0: {field}");
        assert_eq!(names::name(&case, status + at), name);
    }
}

#[test]
fn names_tell_the_fields_of_a_sheet() {
    let case = Of::Sheets.case(SEED, 0);
    let fields = [
        (0, "number"),
        (1, "line"),
        (2, "line"),
        (3, "Reset code of entry 0"),
        (6, "DL Up code of entry 0"),
        (3 + 8 * 31 + 7, "D3hot code of entry 31"),
    ];
    for (at, field) in fields {
        assert_eq!(names::name(&case, at), format!("operation 0 (sheet), {field}"));
    }
    assert_eq!(names::name(&case, 259), "operation 1 (sheet), number");
}

#[test]
fn names_tell_the_fields_of_a_replay() {
    let (mut case, room) = (Of::Captures.case(SEED, 0), 16u16);
    case.operations = vec![Operation::Replay { room, input: Vec::new() }];
    let image = 9 + usize::from(room) + image_length(&case.setup);
    let fields = [
        (0, "number"),
        (1, "bytes consumed"),
        (8, "bytes written"),
        (9, "answer byte 0 of record 0 (status)"),
        (9 + usize::from(room), "clock"),
        (image, "replay: begun"),
        (image + 4, "replay: earlier stamp"),
        (image + 5, "replay: stamp bytes taken"),
        (image + 9, "replay: stamp bytes"),
        (image + 10, "replay: advances answered"),
        (image + 11, "replay: ended"),
        (image + 12, "replay: made Ready of slot 0"),
        (image + 13, "replay: moment of slot 0"),
        (image + 12 + 9 * 31, "replay: made Ready of slot 31"),
        (image + 12 + 9 * 31 + 8, "replay: moment of slot 31"),
    ];
    for (at, field) in fields {
        assert_eq!(names::name(&case, at), format!("operation 0 (replay), {field}"));
    }
}

#[test]
fn names_tell_the_fields_of_a_report_and_of_a_list() {
    let mut case = Of::Lateness.case(SEED, 0);
    let seen = Box::new([None; 32]);
    case.operations = vec![Operation::Lateness { seen, noise: 0 }, Operation::Totals(Vec::new())];
    let fields = [
        (0, "0 (lateness), whether there is a difference of slot 0"),
        (8, "0 (lateness), difference of slot 0"),
        (9 * 31, "0 (lateness), whether there is a difference of slot 31"),
        (9 * 31 + 8, "0 (lateness), difference of slot 31"),
        (288, "1 (totals), number"),
        (289, "1 (totals), early"),
        (293, "1 (totals), on time"),
        (297, "1 (totals), late"),
        (301, "1 (totals), least"),
        (309, "1 (totals), greatest"),
        (324, "1 (totals), sum"),
    ];
    for (at, field) in fields {
        assert_eq!(names::name(&case, at), format!("operation {field}"));
    }
}

#[test]
fn cases_of_lateness_reach_all_that_they_can() {
    let mut coverage = Coverage::new();
    let (mut replays, mut lists) = (0, 0);
    for number in 0..8000 {
        let case = Of::Lateness.case(SEED, number);
        let operations = case.operations.iter();
        replays += operations.clone().filter(|one| matches!(one, Operation::Replay { .. })).count();
        lists += operations.filter(|one| matches!(one, Operation::Totals(_))).count();
        check_case(&case, &mut coverage, &mut Vec::new()).unwrap();
    }
    assert_eq!(coverage.missing(Of::Lateness), Vec::<String>::new());
    assert!((76_000..92_000).contains(&(replays + lists)), "{replays} {lists}");
}

#[test]
fn cases_of_captures_reach_all_that_they_can() {
    let mut coverage = Coverage::new();
    let mut calls = 0;
    for number in 0..4000 {
        let case = Of::Captures.case(SEED, number);
        let is_replay = |one: &&Operation| matches!(one, Operation::Replay { .. });
        calls += case.operations.iter().filter(is_replay).count();
        check_case(&case, &mut coverage, &mut Vec::new()).unwrap();
    }
    assert_eq!(coverage.missing(Of::Captures), Vec::<String>::new());
    assert!((36_000..48_000).contains(&calls), "{calls}");
}

#[test]
fn cases_of_sheets_reach_all_that_they_can() {
    let mut coverage = Coverage::new();
    for number in 0..1500 {
        check_case(&Of::Sheets.case(SEED, number), &mut coverage, &mut Vec::new()).unwrap();
    }
    assert_eq!(coverage.missing(Of::Sheets), Vec::<String>::new());
}
