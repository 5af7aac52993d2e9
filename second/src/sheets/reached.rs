//! Counters of what sheets have reached.

use super::order::{Order, NOT_ALONE};
use super::{codes_of, line, nanoseconds, tell, Line, Sheet, Taken, Told, Unit, UNITS};
use super::{LAYOUT, MOST_DIGITS, NAMED_BEFORE, NO_SUCH_SLOT, TOO_LONG};
use crate::generate::sheets::edges;
use crate::run::{self, Gave};
use crate::setup::MOST_SLOTS;
use crate::stream::MOST_BYTES;
use crate::times::{Code, GREATEST_TIME};

/// Pairs that one line can have: a slot that isn't there can't have been named.
const PAIRS: [(u8, u8); 5] = [
    (LAYOUT, NO_SUCH_SLOT),
    (LAYOUT, NAMED_BEFORE),
    (LAYOUT, TOO_LONG),
    (NO_SUCH_SLOT, TOO_LONG),
    (NAMED_BEFORE, TOO_LONG),
];

type Test = fn(&[u8]) -> bool;

/// Ways in which a line gives 40; of several the first counts.
const WAYS: [(&str, Test); 18] = [
    ("no 0Ah at the end", |line| !line.ends_with(b"\n")),
    ("an empty line", |line| line == b"\n"),
    ("a comment", |line| line.contains(&b'#')),
    ("0Dh before 0Ah", |line| line.ends_with(b"\r\n")),
    ("a tab", |line| line.contains(&b'\t')),
    ("a byte 00h", |line| line.contains(&0)),
    ("a byte FFh", |line| line.contains(&0xFF)),
    ("another byte above 7Fh", |line| !line.is_ascii()),
    ("a space before the slot number", |line| line.starts_with(b" ")),
    ("a space after the unit", |line| line.ends_with(b" \n")),
    ("two spaces", |line| line.windows(2).any(|two| two == b"  ")),
    ("too few fields", |line| spaces(line) < 5),
    ("too many fields", |line| spaces(line) > 5),
    ("a sign", |line| line.iter().any(|byte| b"+-".contains(byte))),
    ("11 digits", |line| most_digits(line) == 11),
    ("12 digits or more", |line| most_digits(line) > 11),
    ("capital letters in the unit", |line| line::read(&line.to_ascii_lowercase()).is_some()),
    ("another unit or number", |_| true),
];

fn spaces(line: &[u8]) -> usize {
    line.iter().filter(|byte| **byte == b' ').count()
}

/// The length of the longest run of digits.
fn most_digits(line: &[u8]) -> usize {
    line.split(|byte| !byte.is_ascii_digit()).map(<[u8]>::len).max().unwrap_or(0)
}

type SlotTest = fn(u64, u8) -> bool;

/// Numbers that give 41, each with its name and whether a number is it for a set-up of so many slots.
const NO_SLOTS: [(&str, SlotTest); 6] = [
    ("the slot after the last", |slot, slots| slot == u64::from(slots)),
    ("slot 31", |slot, _| slot == 31),
    ("slot 32", |slot, _| slot == 32),
    ("slot 4,294,967,296", |slot, _| slot == 1 << 32),
    ("slot 9,999,999,999", |slot, _| slot == 9_999_999_999),
    ("a slot above 31 that a set-up of more than 32 counts", |slot, slots| slot < u64::from(slots)),
];

const OTHERS: [&str; 18] = [
    "a time rounded up",
    "a time given exactly",
    "a time that several codes have",
    "the greatest time in us, 1,006,632",
    "the greatest time in ms, 1,006",
    "a number of 10 digits",
    "a slot not named",
    "no line",
    "32 lines",
    "a refusal 3 mended",
    "a set-up that is refused",
    "a set-up without slots",
    "a set-up without slots refused",
    "a set-up of more than 32 slots",
    "a set-up of more than 32 slots, slot 31 named",
    "42 by the line before",
    "42 by an earlier line",
    "4,096 bytes",
];

/// Counters, each of something that must come up.
pub struct Reached {
    numbers: [u64; 4],
    accepted: u64,
    units: [u64; 3],
    scales: [u64; 6],
    /// For each scale its edges, with how often each was claimed in ns.
    edges: [Vec<(u64, u64)>; 6],
    too_long: [u64; 4],
    too_long_by_1: [u64; 3],
    pairs: [u64; PAIRS.len()],
    ways: [u64; WAYS.len()],
    no_slots: [u64; NO_SLOTS.len()],
    /// By the number of the refusal and by the number of a later bad line.
    later: [[u64; 4]; 4],
    others: [u64; OTHERS.len()],
    order: Order,
}

impl Reached {
    pub fn new() -> Reached {
        let counted = |scale| edges(scale).into_iter().map(|time| (time, 0)).collect();
        Reached {
            numbers: [0; 4],
            accepted: 0,
            units: [0; 3],
            scales: [0; 6],
            edges: [0, 1, 2, 3, 4, 5].map(counted),
            too_long: [0; 4],
            too_long_by_1: [0; 3],
            pairs: [0; PAIRS.len()],
            ways: [0; WAYS.len()],
            no_slots: [0; NO_SLOTS.len()],
            later: [[0; 4]; 4],
            others: [0; OTHERS.len()],
            order: Order::new(),
        }
    }

    fn other(&mut self, name: &str, reached: bool) {
        let index = OTHERS.iter().position(|other| *other == name).expect("every name is listed");
        self.others[index] += u64::from(reached);
    }

    /// A case begins.
    pub fn begin_case(&mut self) {
        self.order.begin();
    }

    /// Counts a sheet, or what stands between sheets.
    pub fn note(&mut self, gave: &Gave) {
        self.order.note(gave);
        if let Gave::Sheet(sheet) = gave {
            self.note_sheet(sheet);
        }
    }

    fn note_sheet(&mut self, sheet: &run::Sheet) {
        let run::Sheet { text, taken, slots, refusal_before, refusal_after, .. } = sheet;
        self.other("4,096 bytes", text.len() == MOST_BYTES);
        self.other("a set-up without slots", *slots == 0);
        self.other("a set-up of more than 32 slots", usize::from(*slots) > MOST_SLOTS);
        self.other("a set-up that is refused", taken.number == 0 && refusal_before.is_some());
        self.other("a refusal 3 mended", *refusal_before == Some(3) && refusal_after.is_none());
        if taken.number == 0 {
            self.note_accepted(taken, *slots);
            return;
        }
        self.numbers[usize::from(taken.number - LAYOUT)] += 1;
        let sheet = Sheet::new(text, *slots);
        self.note_later(&sheet.bad_lines());
        let bad = sheet.lines()[usize::from(taken.line) - 1];
        self.note_bad(taken.number, bad, &taken.good, *slots);
    }

    /// The first of the bad lines is the one that refuses.
    fn note_later(&mut self, bad: &[(u16, u8)]) {
        let Some(((_, first), later)) = bad.split_first() else {
            return;
        };
        let counts = &mut self.later[usize::from(first - LAYOUT)];
        for (number, count) in (LAYOUT..).zip(counts) {
            *count += u64::from(later.iter().any(|(_, one)| *one == number));
        }
    }

    fn note_accepted(&mut self, taken: &Taken, slots: u8) {
        let lines = &taken.good;
        self.accepted += 1;
        self.other("no line", lines.is_empty());
        self.other("32 lines", lines.len() == MOST_SLOTS);
        self.other("a slot not named", lines.len() < usize::from(slots));
        let more = usize::from(slots) > MOST_SLOTS && lines.iter().any(|line| line.slot == 31);
        self.other("a set-up of more than 32 slots, slot 31 named", more);
        for line in lines {
            let unit = UNITS.iter().position(|unit| *unit == line.unit).expect("a unit is listed");
            self.units[unit] += 1;
            self.other(
                "a number of 10 digits",
                line.times.iter().any(|time| *time >= 1_000_000_000),
            );
            let codes = taken.entries[line.slot as usize].codes();
            for (time, code) in line.times.into_iter().zip(codes) {
                self.other("the greatest time in us, 1,006,632", unit == 1 && time == 1_006_632);
                self.other("the greatest time in ms, 1,006", unit == 2 && time == 1_006);
                self.note_time(time, line.unit, code);
            }
        }
    }

    fn note_time(&mut self, time: u64, unit: Unit, code: Code) {
        let claim = nanoseconds(time, unit).expect("it was accepted");
        self.scales[usize::from(code.0 >> 9)] += 1;
        self.other("a time rounded up", code.time() > claim);
        self.other("a time given exactly", code.time() == claim);
        self.other("a time that several codes have", codes_of(claim) > 1);
        if unit == Unit::Ns {
            let edges = self.edges.iter_mut().flatten();
            edges.filter(|(edge, _)| *edge == time).for_each(|(_, count)| *count += 1);
        }
    }

    fn note_bad(&mut self, number: u8, text: &[u8], before: &[Line], slots: u8) {
        let told = tell(text);
        let applies = |number: u8| match number {
            LAYOUT => line::read(text).is_none(),
            NO_SUCH_SLOT => told.slot.is_some_and(|slot| slot >= u64::from(slots.min(32))),
            NAMED_BEFORE => before.iter().any(|line| Some(line.slot) == told.slot),
            _ => too_long(&told).contains(&true),
        };
        for ((one, other), count) in PAIRS.iter().zip(&mut self.pairs) {
            *count += u64::from(applies(*one) && applies(*other));
        }
        match number {
            LAYOUT => {
                let way = WAYS.iter().position(|(_, test)| test(text)).expect("the last always is");
                self.ways[way] += 1;
            }
            NO_SUCH_SLOT => {
                self.other("a set-up without slots refused", slots == 0);
                for ((_, test), count) in NO_SLOTS.iter().zip(&mut self.no_slots) {
                    *count += u64::from(told.slot.is_some_and(|slot| test(slot, slots)));
                }
            }
            NAMED_BEFORE => {
                let last = before.last().is_some_and(|line| Some(line.slot) == told.slot);
                self.other("42 by the line before", last);
                self.other("42 by an earlier line", !last);
            }
            _ => self.note_too_long(&told),
        }
    }

    /// Only a time that is too long alone counts.
    fn note_too_long(&mut self, told: &Told) {
        let too_long = too_long(told);
        if too_long.iter().filter(|too_long| **too_long).count() != 1 {
            return;
        }
        for (place, count) in self.too_long.iter_mut().enumerate() {
            *count += u64::from(too_long[place]);
        }
        for (unit, count) in UNITS.into_iter().zip(&mut self.too_long_by_1) {
            let next = GREATEST_TIME.0 / unit.nanoseconds() + 1;
            *count += u64::from(told.unit == Some(unit) && told.times.contains(&Some(next)));
        }
    }

    /// The rows that cases of sheets alone can reach.
    pub fn rows_alone(&self) -> Vec<(String, u64)> {
        let mut rows = Vec::new();
        self.rows(&mut rows);
        let not_alone = |name: &str| NOT_ALONE.iter().any(|place| name.ends_with(place));
        rows.retain(|(name, _)| !name.ends_with("mended") && !not_alone(name));
        rows
    }

    pub fn rows(&self, rows: &mut Vec<(String, u64)>) {
        rows.push(("sheet gives 0".to_string(), self.accepted));
        self.rows_of_refusals(rows);
        let mut add = |name: String, count: u64| rows.push((format!("sheet {name}"), count));
        for (unit, count) in UNITS.iter().zip(self.units) {
            add(format!("accepted with {}", unit.name()), count);
        }
        for (scale, count) in self.scales.iter().enumerate() {
            add(format!("accepted, a code of scale {scale}"), *count);
        }
        for (scale, edges) in self.edges.iter().enumerate() {
            let least = edges.iter().map(|(_, count)| *count).min().unwrap_or(0);
            let count = edges.len();
            add(format!("accepted, each of {count} edges of scale {scale} in ns, at least"), least);
        }
        for (name, count) in OTHERS.iter().zip(self.others) {
            add(format!("with this: {name}"), count);
        }
        for (place, count) in self.order.rows() {
            add(place.to_string(), count);
        }
    }

    fn rows_of_refusals(&self, rows: &mut Vec<(String, u64)>) {
        let mut add = |name: String, count: u64| rows.push((format!("sheet {name}"), count));
        for (number, count) in (LAYOUT..).zip(self.numbers) {
            add(format!("gives {number}"), count);
        }
        for ((way, _), count) in WAYS.iter().zip(self.ways) {
            add(format!("gives 40: {way}"), count);
        }
        for ((slot, _), count) in NO_SLOTS.iter().zip(self.no_slots) {
            add(format!("gives 41: {slot}"), count);
        }
        for (place, count) in (1..).zip(self.too_long) {
            add(format!("gives 43 for time {place} alone"), count);
        }
        for (unit, count) in UNITS.iter().zip(self.too_long_by_1) {
            add(format!("gives 43 by 1 {}", unit.name()), count);
        }
        for ((one, other), count) in PAIRS.iter().zip(self.pairs) {
            add(format!("with {one} and {other} in one line"), count);
        }
        for (first, counts) in (LAYOUT..).zip(self.later) {
            for (later, count) in (LAYOUT..).zip(counts) {
                add(format!("gives {first}, and a later line is {later}"), count);
            }
        }
    }
}

/// Which times are too long.
fn too_long(told: &Told) -> [bool; 4] {
    told.times.map(|time| {
        let (Some(time), Some(unit)) = (time, told.unit) else {
            return false;
        };
        nanoseconds(time, unit).is_none_or(|claim| claim > GREATEST_TIME)
    })
}

/// Ten digits are the most that a number may have, and the ways go by that.
const _: () = assert!(MOST_DIGITS == 10);
