//! Tests: lines, numbers and codes by hand, and properties over generated sheets.

use super::encode::{encode, nanoseconds, Unit, UNITS};
use super::{line, Line, Sheet, Taken};
use crate::bench::Bench;
use crate::faults::Fault;
use crate::generate::sheets as generated;
use crate::generate::{setups, Of};
use crate::random::Random;
use crate::setup::{Setup, SlotEntry, MOST_SLOTS};
use crate::stream::{Operation, MOST_BYTES};
use crate::times::{Code, Nanos, GREATEST_CODE, GREATEST_TIME};

const SEED: u64 = 78;

/// Entries of different codes, some of them not allowed.
fn entries() -> [SlotEntry; MOST_SLOTS] {
    let mut entries = [SlotEntry::BLANK; MOST_SLOTS];
    for (slot, entry) in (0..).zip(&mut entries) {
        *entry = SlotEntry { flr: Code(0xF00 + slot), d3hot: Code(slot), ..*entry };
        entry.sends_frs = slot % 2 == 0;
    }
    entries
}

fn taken(text: &[u8], slots: u8) -> Taken {
    Sheet::new(text, slots).take(&entries())
}

/// Number and line, for two slots.
fn gives(text: &str) -> (u8, u16) {
    let taken = taken(text.as_bytes(), 2);
    assert!(taken.number == 0 || taken.entries == entries(), "{text}");
    (taken.number, taken.line)
}

/// Claims and their codes, by hand.
const EDGES: [(u64, u16); 42] = [
    (0, 0x000),
    (1, 0x001),
    (15, 0x00F),
    (16, 0x010),
    (17, 0x011),
    (510, 0x1FE),
    (511, 0x1FF),
    (512, 0x210),
    (513, 0x211),
    (544, 0x211),
    (545, 0x212),
    (1_023, 0x220),
    (1_024, 0x220),
    (1_025, 0x221),
    (16_320, 0x3FE),
    (16_321, 0x3FF),
    (16_352, 0x3FF),
    (16_353, 0x410),
    (16_384, 0x410),
    (16_385, 0x411),
    (522_240, 0x5FE),
    (522_241, 0x5FF),
    (523_264, 0x5FF),
    (523_265, 0x610),
    (524_288, 0x610),
    (524_289, 0x611),
    (16_711_680, 0x7FE),
    (16_744_448, 0x7FF),
    (16_744_449, 0x810),
    (16_777_216, 0x810),
    (16_777_217, 0x811),
    (534_773_760, 0x9FE),
    (535_822_336, 0x9FF),
    (535_822_337, 0xA10),
    (536_870_912, 0xA10),
    (536_870_913, 0xA11),
    (570_425_344, 0xA11),
    (570_425_345, 0xA12),
    (973_078_528, 0xA1D),
    (973_078_529, 0xA1E),
    (1_006_632_959, 0xA1E),
    (1_006_632_960, 0xA1E),
];

#[test]
fn codes_at_the_edges_of_every_scale() {
    for (claim, code) in EDGES {
        assert_eq!(encode(Nanos(claim)), Some(Code(code)), "{claim}");
    }
    assert_eq!(encode(Nanos(1_006_632_961)), None);
    assert_eq!(encode(Nanos(u64::MAX)), None);
}

/// No allowed code has a smaller time that covers, nor a lower one the same time.
fn is_the_least(claim: u64, code: Code) -> bool {
    let others = (0..=GREATEST_CODE.0).map(Code).filter(|other| *other != code);
    let better = |other: Code| {
        let time = other.time();
        time.0 >= claim && (time < code.time() || time == code.time() && other.0 < code.0)
    };
    code.is_allowed() && code.time().0 >= claim && !others.into_iter().any(better)
}

#[test]
fn a_code_is_the_least_that_covers() {
    let mut claims: Vec<u64> = (0..=1_100).chain(16_300..16_500).collect();
    for code in (0..=GREATEST_CODE.0).map(Code) {
        let time = code.time().0;
        claims.extend([time.saturating_sub(1), time, time + 1]);
    }
    let mut random = Random::for_case(SEED, 0);
    claims.extend((0..2_000).map(|_| random.u64() % (GREATEST_TIME.0 + 1)));
    for claim in claims.into_iter().filter(|claim| *claim <= GREATEST_TIME.0) {
        let code = encode(Nanos(claim)).expect("it can be covered");
        assert!(is_the_least(claim, code), "{claim}: {code:?}");
    }
}

#[test]
fn a_code_of_no_waste_is_its_own() {
    for code in (0..=GREATEST_CODE.0).map(Code) {
        let given = encode(code.time()).expect("it covers itself");
        assert_eq!(given.time(), code.time());
        assert!(given.0 <= code.0);
    }
}

#[test]
fn units_are_checked_numbers_of_nanoseconds() {
    assert_eq!(nanoseconds(7, Unit::Ns), Some(Nanos(7)));
    assert_eq!(nanoseconds(7, Unit::Us), Some(Nanos(7_000)));
    assert_eq!(nanoseconds(7, Unit::Ms), Some(Nanos(7_000_000)));
    assert_eq!(nanoseconds(9_999_999_999, Unit::Ms), Some(Nanos(9_999_999_999_000_000)));
    assert_eq!(nanoseconds(u64::MAX, Unit::Ns), Some(Nanos(u64::MAX)));
    assert_eq!(nanoseconds(u64::MAX, Unit::Us), None);
    assert_eq!(nanoseconds(u64::MAX / 1_000_000, Unit::Ms), Some(Nanos(u64::MAX - 551_615)));
    assert_eq!(nanoseconds(u64::MAX / 1_000_000 + 1, Unit::Ms), None);
    assert_eq!(UNITS.map(|unit| Unit::named(unit.name().as_bytes())), UNITS.map(Some));
}

/// Numbers of 1 to 10 digits as text: at the limit, such as wrap in 32 bits, and any.
fn numbers() -> Vec<String> {
    let mut numbers = ["0000000000", "0000001006", "0000001007", "0001006632", "0001006633"]
        .into_iter()
        .chain(["1006632960", "1006632961", "4294967295", "4294967296", "9223372036"])
        .map(String::from)
        .collect::<Vec<_>>();
    let mut random = Random::for_case(SEED, 1);
    for width in 1..=10 {
        let mut add = |number: u64| numbers.push(format!("{number:0width$}"));
        let limit = 10u64.pow(width as u32);
        [0, 1, limit / 10, limit - 1].into_iter().for_each(&mut add);
        (0..100).map(|_| random.u64() % limit).for_each(&mut add);
    }
    numbers
}

#[test]
fn numbers_of_up_to_ten_digits_are_turned_into_nanoseconds_exactly() {
    for (unit, zeros) in [("ns", ""), ("us", "000"), ("ms", "000000")] {
        for number in numbers() {
            let wanted = format!("{number}{zeros}").parse().map(Nanos).expect("16 digits at most");
            let text = format!("0 0 0 {number} 0 {unit}\n");
            let line = line::read(text.as_bytes()).expect("it is a line");
            assert_eq!(nanoseconds(line.times[2], line.unit), Some(wanted), "{text}");
            let after = taken(text.as_bytes(), 1);
            match encode(wanted) {
                Some(code) => assert_eq!((after.number, after.entries[0].flr), (0, code), "{text}"),
                None => assert_eq!((after.number, after.line), (43, 1), "{text}"),
            }
        }
    }
}

#[test]
fn a_line_is_read() {
    let times = [2, 3, 9_999_999_999, 0];
    let read = line::read(b"0000000001 2 03 9999999999 0000000000 us\n");
    assert_eq!(read, Some(Line { slot: 1, times, unit: Unit::Us }));
}

#[test]
fn a_sheet_gives_codes() {
    let after = taken(b"1 0 1 1024 1006632960 ns\n0 1 1 16 1006 ms\n", 2);
    assert_eq!((after.number, after.line), (0, 0));
    let codes = |slot: usize| after.entries[slot].codes().map(|code| code.0);
    assert_eq!(codes(1), [0x000, 0x001, 0x220, 0xA1E]);
    assert_eq!(codes(0), [0x61F, 0x61F, 0x7E9, 0xA1E]);
    assert_eq!(after.entries[2..], entries()[2..]);
    assert!(after.entries[0].sends_frs && !after.entries[1].sends_frs);
}

#[test]
fn an_empty_sheet_changes_nothing() {
    for slots in [0, 1, 32, 33, 255] {
        let after = taken(b"", slots);
        assert_eq!((after.number, after.line, after.entries), (0, 0, entries()));
    }
}

const OTHER_LAYOUTS: [&str; 36] = [
    "\n",
    " \n",
    "0",
    "0 1 1 1 1 ns",
    "0 1 1 1 1 ns\r\n",
    "0 1 1 1 1 ns \n",
    " 0 1 1 1 1 ns\n",
    "0  1 1 1 1 ns\n",
    "0 1 1 1 1  ns\n",
    "0\t1 1 1 1 ns\n",
    "0 1 1 1 1\n",
    "0 1 1 1 1 \n",
    "0 1 1 1 ns\n",
    "0 1 1 1 1 1 ns\n",
    "0 1 1 1 1 ns ns\n",
    "0 1 1 1 1 NS\n",
    "0 1 1 1 1 Ms\n",
    "0 1 1 1 1 s\n",
    "0 1 1 1 1 n\n",
    "0 1 1 1 1 nss\n",
    "0 1 1 1 1ns\n",
    "+0 1 1 1 1 ns\n",
    "0 -1 1 1 1 ns\n",
    "0 00000000001 1 1 1 ns\n",
    "00000000000 1 1 1 1 ns\n",
    "0 1 1 1 1 ns\0\n",
    "0 1.5 1 1 1 ns\n",
    "0 0x1 1 1 1 ns\n",
    "0 1: 1 1 1 ns\n",
    "0 /1 1 1 1 ns\n",
    "#\n",
    "0 1 1 1 1 ns # slow\n",
    "0,1,1,1,1,ns\n",
    "\u{FEFF}0 1 1 1 1 ns\n",
    "0 1 1 1 1 µs\n",
    "\0\n",
];

#[test]
fn other_layouts_and_units_are_40() {
    for text in OTHER_LAYOUTS {
        assert_eq!(gives(text), (40, 1), "{text:?}");
        assert_eq!(gives(&format!("1 1 1 1 1 ns\n{text}")), (40, 2), "{text:?}");
    }
    assert_eq!(gives("0 1 1 1 1 ns\n\n"), (40, 2));
    assert_eq!(taken(b"0 1 1 1 \xFF1 ns\n", 2).number, 40);
}

#[test]
fn slots_that_are_not_there_are_41() {
    for slot in ["2", "002", "31", "32", "256", "4294967296", "9999999999"] {
        assert_eq!(gives(&format!("{slot} 1 1 1 1 ns\n")), (41, 1));
    }
    assert_eq!(taken(b"0 1 1 1 1 ns\n", 0).number, 41);
    for slots in [33, 255] {
        assert_eq!(taken(b"31 1 1 1 1 ns\n", slots).number, 0);
        assert_eq!(taken(b"32 1 1 1 1 ns\n", slots).number, 41);
    }
}

#[test]
fn slots_named_before_are_42() {
    assert_eq!(gives("0 1 1 1 1 ns\n00 1 1 1 1 ns\n"), (42, 2));
    assert_eq!(gives("0 1 1 1 1 ns\n1 1 1 1 1 us\n0 1 1 1 1 ns\n"), (42, 3));
}

#[test]
fn times_too_long_are_43() {
    for (number, unit) in [("1006632961", "ns"), ("1006633", "us"), ("1007", "ms")] {
        for place in 0..4 {
            let mut times = ["0"; 4];
            times[place] = number;
            assert_eq!(gives(&format!("1 {} {unit}\n", times.join(" "))), (43, 1));
        }
    }
    assert_eq!(gives("0 1006632960 1006632960 1006632960 1006632960 ns\n"), (0, 0));
    assert_eq!(gives("0 1006632 1006632 1006632 1006632 us\n1 1006 1006 1006 1006 ms\n"), (0, 0));
    assert_eq!(gives("0 9999999999 4294967296 0 0 ms\n"), (43, 1));
}

#[test]
fn the_first_number_of_the_earliest_bad_line_is_given() {
    assert_eq!(gives("9 1007 0 0 0 MS\n"), (40, 1));
    assert_eq!(gives("9 1007 0 0 0 ms\n"), (41, 1));
    assert_eq!(gives("0 0 0 0 0 ns\n0 1007 0 0 0 ms\n"), (42, 2));
    assert_eq!(gives("0 0 0 0 0 ns\n0 1007 0 0 0 ms"), (40, 2));
    assert_eq!(gives("0 1007 0 0 0 ms\n\n"), (43, 1));
    assert_eq!(gives("0 1007 0 0 0 ms\n9 0 0 0 0 ns\n0 0 0 0 0 ns\nx"), (43, 1));
    assert_eq!(gives("1 0 0 0 0 ns\n9 1007 0 0 0 ms\n\n"), (41, 2));
}

#[test]
fn names_do_not_last_beyond_a_sheet() {
    let setup = Setup { slots: 2, ..setups::with_nothing_lent(&mut Random::for_case(SEED, 0)) };
    let mut bench = Bench::new(&setup, Fault::None);
    for text in ["0 1 1 1 1 ns\n", "0 2 2 2 2 ns\n1 1 1 1 1 ns\n", "1 1 1 1 1 ns\n"] {
        assert_eq!(bench.take_sheet(text.as_bytes()).number, 0);
        let refused = bench.take_sheet(format!("{text}9 1 1 1 1 ns\n").as_bytes());
        assert_eq!(refused.number, 41);
    }
}

#[test]
fn every_bad_line_is_told() {
    let text = b"0 1 1 1 1 ns\nx\n9 1 1 1 1 ns\n0 1 1 1 1 ns\n1 1007 0 0 0 ms\n1 0 0 0 0 ns\n1";
    let bad = Sheet::new(text, 2).bad_lines();
    assert_eq!(bad, [(2, 40), (3, 41), (4, 42), (5, 43), (7, 40)]);
}

/// Generated sheets with the count of slots for which they were made.
fn sheets() -> impl Iterator<Item = (u8, Vec<u8>)> {
    let cases = (0..1_500).map(|number| Of::Sheets.case(SEED, number));
    cases.flat_map(|case| {
        let texts = case.operations.into_iter().filter_map(|operation| match operation {
            Operation::Sheet(text) => Some((case.setup.slots, text)),
            _ => None,
        });
        texts.collect::<Vec<_>>()
    })
}

#[test]
fn a_refused_sheet_changes_nothing_and_another_only_what_it_names() {
    for (slots, text) in sheets() {
        let after = taken(&text, slots);
        let named = |slot: usize| after.good.iter().any(|line| line.slot == slot as u64);
        for (slot, (entry, before)) in after.entries.iter().zip(entries()).enumerate() {
            let changes = after.number == 0 && named(slot);
            assert!(changes || *entry == before);
            assert!(!changes || entry.codes().iter().all(|code| code.is_allowed()));
            assert_eq!(SlotEntry { sends_frs: before.sends_frs, ..*entry }, *entry);
        }
    }
}

#[test]
fn lines_of_an_accepted_sheet_may_come_in_any_order() {
    let mut seen = 0;
    for (slots, text) in sheets() {
        let once = taken(&text, slots);
        let mut lines = Sheet::new(&text, slots).lines();
        if once.number != 0 || lines.len() < 2 {
            continue;
        }
        lines.reverse();
        let again = taken(&lines.concat(), slots);
        assert_eq!((again.number, again.entries), (0, once.entries));
        lines.rotate_left(1);
        assert_eq!(taken(&lines.concat(), slots).entries, once.entries);
        seen += 1;
    }
    assert!(seen > 1_000);
}

#[test]
fn lines_up_to_the_bad_one_decide() {
    let mut seen = 0;
    for (slots, text) in sheets() {
        let whole = taken(&text, slots);
        if whole.number == 0 {
            continue;
        }
        let lines = Sheet::new(&text, slots).lines();
        let (good, bad) = lines.split_at(usize::from(whole.line) - 1);
        assert_eq!(taken(&good.concat(), slots).number, 0);
        assert_eq!(taken(&[&good.concat(), bad[0]].concat(), slots), whole);
        seen += 1;
    }
    assert!(seen > 1_000);
}

#[test]
fn codes_of_a_generated_sheet_are_the_least() {
    for (slots, text) in sheets().step_by(40) {
        let after = taken(&text, slots);
        if after.number != 0 {
            continue;
        }
        for line in &after.good {
            let codes = after.entries[line.slot as usize].codes();
            for (time, code) in line.times.into_iter().zip(codes) {
                let claim = nanoseconds(time, line.unit).expect("it was accepted");
                assert!(is_the_least(claim.0, code), "{claim:?} {code:?}");
            }
        }
    }
}

#[test]
fn generated_sheets_are_what_they_should_be() {
    for number in 0..500 {
        let mut random = Random::for_case(SEED, number);
        let setup = setups::with_nothing_lent(&mut random);
        let count = usize::from(setup.slots).min(MOST_SLOTS);
        let sound = generated::sound(&mut random, setup.slots);
        assert_eq!(taken(&sound, setup.slots).number, 0);
        let all = taken(&generated::of_all_slots(&mut random, setup.slots), setup.slots);
        assert_eq!((all.number, all.good.len()), (0, count));
        let longer = generated::longer(&mut random, setup.slots);
        assert!(longer.len() > MOST_BYTES && taken(&longer, setup.slots).number != 0);
    }
}
