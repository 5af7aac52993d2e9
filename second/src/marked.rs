//! Tests: the ten marked cases, and each sentence of "Easy to get wrong".

use crate::bench::Bench;
use crate::faults::Fault;
use crate::messages;
use crate::setup::{Setup, SlotEntry, DEVICE_CAPABILITIES, MOST_SLOTS};
use crate::state::{State, Status};
use crate::times::{Code, Nanos, GREATEST_TIME};

const FLR_CAPABLE: u32 = 1 << 28;

/// A set-up of some slots, all FLR capable and sending FRS, codes as in marked case 10.
fn setup(slots: u8, cells: usize) -> Setup {
    let words = usize::from(slots) * 64;
    let mut defaults = vec![0; words];
    for slot in 0..usize::from(slots) {
        defaults[slot * 64] = 0x5678_1234;
        defaults[slot * 64 + DEVICE_CAPABILITIES] = FLR_CAPABLE;
    }
    let entry =
        SlotEntry { dl_up: Code(0x00A), flr: Code(0x005), sends_frs: true, ..SlotEntry::BLANK };
    Setup {
        slots,
        statuses: usize::from(slots),
        live_words: words,
        cells,
        bus: 1,
        port_id: 8,
        conventional: false,
        entries: [entry; MOST_SLOTS],
        defaults,
    }
}

fn set_up(setup: &Setup) -> Bench<'_> {
    let mut bench = Bench::new(setup, Fault::None);
    assert_eq!(bench.set_up(), 0);
    bench
}

/// Feeds a whole trace and gives its answers.
fn answers(bench: &mut Bench, trace: &[u8]) -> Vec<[u8; 8]> {
    let mut room = vec![0xEE; 4096];
    let fed = bench.feed(trace, &mut room);
    assert_eq!((fed.number, fed.consumed), (0, trace.len()));
    room[..fed.written].chunks(8).map(|chunk| chunk.try_into().unwrap()).collect()
}

fn advance(ns: u32) -> Vec<u8> {
    [&[1], &ns.to_le_bytes()[..]].concat()
}

fn write(slot: u8, offset: u8, enables: u8, data: u32) -> Vec<u8> {
    [&[3, slot, offset / 4, enables], &data.to_le_bytes()[..]].concat()
}

fn read(bench: &mut Bench, slot: u8, offset: u8) -> u32 {
    let answer = answers(bench, &[2, slot, offset / 4, 15])[0];
    assert_eq!(answer[0], 0);
    u32::from_le_bytes(answer[4..].try_into().unwrap())
}

fn frs(id: u16, reason: u8) -> Vec<u8> {
    let mut record = vec![4; 17];
    messages::write(messages::FRS, id, reason, &mut record[1..], Fault::None).unwrap();
    record
}

/// Link up, and all slots Ready.
fn make_ready(bench: &mut Bench) {
    answers(bench, &[5]);
    answers(bench, &advance(GREATEST_TIME.0 as u32));
    assert!(bench.state.all_ready());
}

#[test]
fn case_1_a1e_is_allowed_a1f_refused() {
    let mut setup = setup(1, 1);
    setup.entries[0].flr = Code(0xA1E);
    assert_eq!(setup.refusal(Fault::None), None);
    setup.entries[0].flr = Code(0xA1F);
    assert_eq!(setup.refusal(Fault::None), Some(3));
}

#[test]
fn case_2_220_is_1024_ns() {
    assert_eq!(Code(0x220).time(), Nanos(1024));
    assert_eq!(Code(0x401).time(), Nanos(1024));
    assert_eq!(Code(0x1FF).time(), Nanos(511));
    assert_eq!(Code(0x200).time(), Nanos(0));
    assert_eq!(Code(0xA1E).time(), GREATEST_TIME);
}

#[test]
fn case_3_flr_keeps_max_payload_size_of_the_same_write() {
    let setup = setup(1, 1);
    let mut bench = set_up(&setup);
    make_ready(&mut bench);
    answers(&mut bench, &write(0, 0x78, 15, 0x8000 | 0xA0 | 0x0F));
    answers(&mut bench, &advance(5));
    assert_eq!(read(&mut bench, 0, 0x78), 0xA0);
}

#[test]
fn case_4_flr_resets_the_cache_line() {
    let setup = setup(1, 1);
    let mut bench = set_up(&setup);
    make_ready(&mut bench);
    answers(&mut bench, &write(0, 0x0C, 15, 0x40));
    assert_eq!(read(&mut bench, 0, 0x0C), 0x40);
    answers(&mut bench, &write(0, 0x78, 2, 0x8000));
    answers(&mut bench, &advance(5));
    assert_eq!(read(&mut bench, 0, 0x0C), 0);
}

#[test]
fn case_5_pme_status_survives_link_down_not_cold_reset() {
    let setup = setup(1, 1);
    let mut bench = set_up(&setup);
    make_ready(&mut bench);
    answers(&mut bench, &[0x0C, 0, 17, 0, 0x80, 0, 0]);
    answers(&mut bench, &[6]);
    assert_eq!(bench.live_word(0, 17), 0x8000);
    answers(&mut bench, &[7]);
    assert_eq!(bench.live_word(0, 17), 0);
}

#[test]
fn case_6_queue_of_1_keeps_the_first_of_two() {
    let setup = setup(1, 1);
    let mut bench = set_up(&setup);
    make_ready(&mut bench);
    answers(&mut bench, &frs(0x0203, 8));
    let second = answers(&mut bench, &frs(0x0405, 9))[0];
    assert_eq!(second, [0, 0, 0, 1, 0, 0, 0, 0]);
    assert_eq!(bench.queue_register(), 1 << 20 | 8 << 16 | 0x0203);
}

#[test]
fn case_7_received_stays_after_removal() {
    let setup = setup(1, 1);
    let mut bench = set_up(&setup);
    make_ready(&mut bench);
    answers(&mut bench, &frs(1, 3));
    answers(&mut bench, &[9]);
    assert!(bench.state.port.received);
    assert_eq!(bench.queue_register(), 0);
}

#[test]
fn case_8_enables_3_under_crs() {
    let setup = setup(1, 1);
    let mut bench = set_up(&setup);
    let given = answers(&mut bench, &[0x0B, 1, 5, 2, 0, 0, 3]);
    assert_eq!(given[2], [16, 0, 0, 0, 1, 0, 0, 0]);
}

#[test]
fn case_9_clock_near_its_end() {
    let setup = setup(1, 1);
    for (ns, status, clock) in [(1, 0, 1_000_000_000_000_000), (2, 22, 999_999_999_999_999)] {
        let mut bench = set_up(&setup);
        bench.state.port.clock = Nanos(999_999_999_999_999);
        assert_eq!(answers(&mut bench, &advance(ns))[0], [status, 0, 0, 0, 0, 0, 0, 0]);
        assert_eq!(bench.state.port.clock, Nanos(clock));
    }
}

const TRACE: &[u8] = &[
    0x0B, 0x03, 0x05, 0x02, 0x00, 0x00, 0x0F, 0x01, 0x0A, 0, 0, 0, 0x02, 0x00, 0x00, 0x0F, 0x03,
    0x00, 0x1E, 0x02, 0x00, 0x80, 0x00, 0x00, 0x02, 0x00, 0x00, 0x0F, 0x01, 0x05, 0, 0, 0, 0x08,
];

const TRACE_ANSWERS: [[u8; 8]; 9] = [
    [0; 8],
    [0; 8],
    [0x10, 0, 0, 0, 0x01, 0x00, 0xFF, 0xFF],
    [0; 8],
    [0, 0, 0, 0, 0x34, 0x12, 0x78, 0x56],
    [0; 8],
    [0x12, 0, 0, 0, 0xFF, 0xFF, 0xFF, 0xFF],
    [0, 1, 1, 0, 0, 0, 0, 0],
    [0, 0, 0, 0, 0, 1, 0x13, 0],
];

#[test]
fn case_10_the_trace() {
    let setup = setup(1, 1);
    let mut bench = set_up(&setup);
    assert_eq!(answers(&mut bench, TRACE), TRACE_ANSWERS);
}

#[test]
fn easy_1_frs_by_ready_time_within_one_long_advance() {
    let mut setup = setup(3, 8);
    for (slot, code) in [(0, 0x030), (1, 0x010), (2, 0x020)] {
        setup.entries[slot].flr = Code(code);
    }
    let mut bench = set_up(&setup);
    make_ready(&mut bench);
    for slot in 0..3 {
        answers(&mut bench, &write(slot, 0x78, 2, 0x8000));
    }
    assert_eq!(answers(&mut bench, &advance(1000))[0], [0, 0, 3, 0, 0, 0, 0, 0]);
    assert_eq!(bench.state.cells[..3], [0x3_0101, 0x3_0102, 0x3_0100]);
}

#[test]
fn easy_2_a_drop_does_not_set_received() {
    let setup = setup(1, 1);
    let mut bench = set_up(&setup);
    make_ready(&mut bench);
    answers(&mut bench, &frs(1, 3));
    answers(&mut bench, &[0x0A, 7, 0x0B, 2]);
    assert_eq!(answers(&mut bench, &frs(2, 3))[0], [0, 2, 0, 1, 0, 0, 0, 0]);
    assert!(bench.state.port.overflow && !bench.state.port.received);
}

#[test]
fn easy_3_flr_keeps_max_payload_size_and_resets_the_interrupt_line() {
    let setup = setup(1, 1);
    let mut bench = set_up(&setup);
    make_ready(&mut bench);
    answers(&mut bench, &write(0, 0x78, 1, 0x40));
    answers(&mut bench, &write(0, 0x3C, 1, 0x0B));
    answers(&mut bench, &write(0, 0x78, 2, 0x8000));
    answers(&mut bench, &advance(5));
    assert_eq!(read(&mut bench, 0, 0x78), 0x40);
    assert_eq!(read(&mut bench, 0, 0x3C), 0);
}

#[test]
fn easy_4_tag_and_attr_are_not_checked() {
    let setup = setup(1, 1);
    let mut bench = set_up(&setup);
    make_ready(&mut bench);
    let mut record = frs(0x0102, 8);
    record[1 + 6] = 0x5A;
    record[1 + 2] = 0x30;
    assert_eq!(answers(&mut bench, &record)[0], [0, 0, 1, 0, 0, 0, 0, 0]);
}

#[test]
fn easy_5_codes_are_not_compared_as_times() {
    let mut setup = setup(1, 1);
    setup.entries[0].flr = Code(0xC00);
    assert_eq!(Code(0xC00).time(), Nanos(0));
    assert_eq!(setup.refusal(Fault::None), Some(3));
}

#[test]
fn a_broken_trace_stays_broken_until_set_up_anew() {
    let setup = setup(1, 1);
    let mut bench = set_up(&setup);
    let mut room = [0xEE; 32];
    let fed = bench.feed(&[0x0D, 0x0E, 0x0D], &mut room);
    assert_eq!((fed.number, fed.consumed, fed.written), (31, 1, 8));
    let fed = bench.feed(&[], &mut room);
    assert_eq!((fed.number, fed.consumed, fed.written), (31, 0, 0));
    assert_eq!(bench.set_up(), 0);
    assert_eq!(bench.feed(&[0x0D], &mut room).number, 0);
}

#[test]
fn times_of_0_make_slots_ready_in_the_same_record() {
    let mut setup = setup(2, 4);
    for entry in &mut setup.entries {
        entry.dl_up = Code(0x200);
        entry.flr = Code(0);
    }
    let mut bench = set_up(&setup);
    let given = answers(&mut bench, &[0x0B, 0x0A, 5]);
    assert_eq!(given[1], [0, 1, 1, 0, 0, 0, 0, 0]);
    assert_eq!(bench.state.cells[0], 0x1_0008);
    assert_eq!(bench.state.statuses, [Status::Ready; 2]);
    let given = answers(&mut bench, &write(1, 0x78, 2, 0x8000));
    assert_eq!(given[0], [0, 0, 1, 0, 0, 0, 0, 0]);
    assert_eq!(bench.state.cells[1], 0x3_0101);
}

#[test]
fn flr_is_in_progress_for_at_most_a_hundred_milliseconds() {
    let mut setup = setup(1, 1);
    setup.entries[0].flr = Code(0xA1E);
    let mut bench = set_up(&setup);
    make_ready(&mut bench);
    answers(&mut bench, &write(0, 0x78, 2, 0x8000));
    answers(&mut bench, &advance(99_999_999));
    assert_eq!(answers(&mut bench, &[2, 0, 0, 15])[0][0], 18);
    answers(&mut bench, &advance(1));
    assert_eq!(answers(&mut bench, &[2, 0, 0, 15])[0][0], 17);
    answers(&mut bench, &advance(906_632_960));
    assert_eq!(answers(&mut bench, &[2, 0, 0, 15])[0][0], 0);
}

#[test]
fn a_case_starts_at_0_and_that_is_sound() {
    let setup = setup(1, 1);
    let mut bench = Bench::new(&setup, Fault::None);
    assert_eq!(bench.state, State::zero(&setup));
    assert_eq!(answers(&mut bench, &[5])[0], [0; 8]);
}
