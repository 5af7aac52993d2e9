//! Sheets: sound ones, and ones with mistakes in a line or two.

use crate::generate::damage;
use crate::random::Random;
use crate::setup::MOST_SLOTS;
use crate::sheets::{Unit, LAYOUT, MOST_DIGITS, NAMED_BEFORE, NO_SUCH_SLOT, TOO_LONG, UNITS};
use crate::stream::MOST_BYTES;
use crate::times::{Code, GREATEST_TIME};

/// Values at the edges of a scale, and the last ones of scale 5.
const EDGE_VALUES: [u16; 9] = [0, 1, 15, 16, 17, 29, 30, 510, 511];
const MOST_NUMBER: u64 = 9_999_999_999;

/// Times at the edges of a scale, and those next to them, in nanoseconds.
pub fn edges(scale: u16) -> Vec<u64> {
    let mut edges = Vec::new();
    for code in EDGE_VALUES.map(|value| Code(scale << 9 | value)) {
        if code.is_allowed() {
            let time = code.time().0;
            edges.extend([time.saturating_sub(1), time, time + 1]);
        }
    }
    edges.retain(|time| *time <= GREATEST_TIME.0);
    edges.sort_unstable();
    edges.dedup();
    edges
}

/// A line in the making.
#[derive(Clone)]
pub struct Row {
    slot: u64,
    times: [u64; 4],
    unit: Unit,
}

fn greatest(unit: Unit) -> u64 {
    GREATEST_TIME.0 / unit.nanoseconds()
}

/// A number of units that isn't too long, often at an edge or on either side of it.
fn time(random: &mut Random, unit: Unit) -> u64 {
    let number = match random.below(10) {
        0..=5 => {
            let scale = random.below(6) as u16;
            let edge = random.pick(&edges(scale));
            edge / unit.nanoseconds() + random.pick(&[0, 0, u64::from(unit != Unit::Ns)])
        }
        6 => random.pick(&[0, 1, greatest(unit), greatest(unit) - 1]),
        7 => random.u64() % (greatest(unit) + 1),
        _ => random.u64() >> (34 + random.below(30)),
    };
    number.min(greatest(unit))
}

/// A number of units that is too long, often by 1.
fn too_long(random: &mut Random, unit: Unit) -> u64 {
    let (next, wraps) = (greatest(unit) + 1, (1 << 32) / unit.nanoseconds());
    let any = next + random.u64() % (MOST_NUMBER - next + 1);
    let others = [wraps, wraps + 1, 1_006_632_960, MOST_NUMBER, 17_146_314_752, any];
    let other = random.pick(&others).clamp(next, MOST_NUMBER);
    random.pick(&[next, next, other])
}

fn sound_row(random: &mut Random, slot: u64) -> Row {
    let unit = random.pick(&UNITS);
    let times = [0; 4].map(|_| time(random, unit));
    Row { slot, times, unit }
}

/// Digits, now and then with leading zeros, up to ten in all.
fn digits(random: &mut Random, number: u64) -> Vec<u8> {
    let least = number.to_string().len();
    let width = match random.below(6) {
        0 => least + random.below(MOST_DIGITS - least + 1),
        1 if random.chance(30) => MOST_DIGITS,
        _ => least,
    };
    format!("{number:0width$}").into_bytes()
}

/// The six fields of a line.
fn fields(random: &mut Random, row: &Row) -> Vec<Vec<u8>> {
    let mut fields = vec![digits(random, row.slot)];
    fields.extend(row.times.map(|time| digits(random, time)));
    fields.push(row.unit.name().into());
    fields
}

fn line(random: &mut Random, row: &Row) -> Vec<u8> {
    damage::joined(&fields(random, row))
}

/// The slots that a set-up of so many has, in any order.
fn shuffled(random: &mut Random, slots: u8) -> Vec<u64> {
    let mut all: Vec<u64> = (0..u64::from(slots).min(MOST_SLOTS as u64)).collect();
    for place in (1..all.len()).rev() {
        all.swap(place, random.below(place + 1));
    }
    all
}

/// Rows that name some slots, each once; all of them now and then.
fn sound_rows(random: &mut Random, slots: u8) -> Vec<Row> {
    let mut named = shuffled(random, slots);
    let few = 1 + random.below(6);
    let most = match random.below(20) {
        0 => named.len(),
        1 | 2 => random.below(named.len() + 1),
        _ => few,
    };
    named.truncate(most);
    named.into_iter().map(|slot| sound_row(random, slot)).collect()
}

fn no_slot(random: &mut Random, slots: u8) -> u64 {
    let count = u64::from(slots).min(MOST_SLOTS as u64);
    if u64::from(slots) > count && random.chance(50) {
        return count + random.u64() % (u64::from(slots) - count);
    }
    let any = count + random.u64() % (MOST_NUMBER - count);
    let low = random.u64() % 32;
    let far = random.pick(&[4_294_967_295, 4_294_967_296, 4_294_967_296 + low, MOST_NUMBER]);
    let near = random.pick(&[31, 32, 32 + low, 33, 64, 254, 255, 256, 256 + low]);
    let pick = random.pick(&[count, count, near, near, far, any]);
    pick.max(count)
}

/// Makes a mistake in the row that comes after others; 40 is made later, in its text.
fn mistake(random: &mut Random, number: u8, slots: u8, before: &[Row], row: &mut Row) {
    match number {
        NO_SUCH_SLOT => row.slot = no_slot(random, slots),
        NAMED_BEFORE if !before.is_empty() => {
            let last = before.len() - 1;
            let any = random.below(before.len());
            row.slot = before[random.pick(&[last, any, any])].slot;
        }
        TOO_LONG => row.times[random.below(4)] = too_long(random, row.unit),
        _ => {}
    }
}

/// The text of rows, one of them with these mistakes.
fn with_mistakes(random: &mut Random, slots: u8, rows: &[Row], bad: &[(usize, u8)]) -> Vec<u8> {
    let mut rows = rows.to_vec();
    let mut text = Vec::new();
    for index in 0..rows.len() {
        let here = || bad.iter().filter(|(place, _)| *place == index).map(|(_, number)| *number);
        for number in here() {
            let (before, rest) = rows.split_at_mut(index);
            mistake(random, number, slots, before, &mut rest[0]);
        }
        let last = index + 1 == rows.len();
        let fields = fields(random, &rows[index]);
        match here().any(|number| number == LAYOUT) {
            true => text.extend(damage::damaged(random, fields, last)),
            false => text.extend(damage::joined(&fields)),
        }
    }
    text
}

fn any_number(random: &mut Random) -> u8 {
    random.pick(&[LAYOUT, LAYOUT, LAYOUT, NO_SUCH_SLOT, NAMED_BEFORE, TOO_LONG])
}

/// A sheet with one mistake, with two in one line, or with mistakes in two lines.
pub fn bad(random: &mut Random, slots: u8) -> Vec<u8> {
    let mut rows = sound_rows(random, slots);
    if rows.is_empty() || random.chance(20) {
        let slot = no_slot(random, slots);
        rows.push(sound_row(random, slot));
    }
    let (first, second) = (any_number(random), any_number(random));
    if first == NAMED_BEFORE && rows.len() == 1 {
        rows.push(rows[0].clone());
    }
    let earliest = usize::from(first == NAMED_BEFORE);
    let place = earliest + random.below(rows.len() - earliest);
    let (any, after) = (random.below(rows.len()), random.below(rows.len() - place));
    let other = random.pick(&[any, place + after, place + after, rows.len() - 1]);
    let mistakes = match random.below(6) {
        0 | 1 => vec![(place, first)],
        2 | 3 => vec![(place, first), (place, second)],
        _ => vec![(place, first), (other, second)],
    };
    with_mistakes(random, slots, &rows, &mistakes)
}

/// A sheet that is accepted where the set-up has a slot.
pub fn sound(random: &mut Random, slots: u8) -> Vec<u8> {
    let rows = sound_rows(random, slots);
    rows.iter().flat_map(|row| line(random, row)).collect()
}

/// A sheet that names every slot.
pub fn of_all_slots(random: &mut Random, slots: u8) -> Vec<u8> {
    let named = shuffled(random, slots);
    named
        .into_iter()
        .flat_map(|slot| {
            let row = sound_row(random, slot);
            line(random, &row)
        })
        .collect()
}

/// A sheet made long, up to the limit of a case.
fn long(random: &mut Random, slots: u8) -> Vec<u8> {
    let less = random.below(MOST_BYTES);
    let length = random.pick(&[MOST_BYTES, MOST_BYTES, MOST_BYTES - 1, less]);
    of_length(random, slots, length)
}

/// A sheet longer than any of a case. So many bytes can't be lines of different slots, so it is refused.
pub fn longer(random: &mut Random, slots: u8) -> Vec<u8> {
    let more = 1 + random.below(3 * MOST_BYTES);
    let length = MOST_BYTES + random.pick(&[1, 1, 2, more, more, 17 * MOST_BYTES]);
    of_length(random, slots, length)
}

/// A sheet of so many bytes.
fn of_length(random: &mut Random, slots: u8, length: usize) -> Vec<u8> {
    let mut text = if random.chance(70) { of_all_slots(random, slots) } else { Vec::new() };
    match random.below(4) {
        0 => text.resize(length, random.pick(b"\n 09sX\0\xFF")),
        1 => {
            while text.len() < length {
                text.extend(sound(random, slots.max(1)));
            }
        }
        2 => {
            while text.len() < length {
                text.extend(bad(random, slots));
            }
        }
        _ => {
            let place = random.below(text.len() + 1);
            let filler = vec![random.pick(b"0019\n "); length.saturating_sub(text.len())];
            text.splice(place..place, filler);
        }
    }
    text.truncate(length);
    text
}

/// A few bytes that sheets are made of.
fn noise(random: &mut Random) -> Vec<u8> {
    let length = random.below(40);
    (0..length).map(|_| random.pick(b"0123456789  \n\nnsum\r#+")).collect()
}

/// Any sheet for a set-up of so many slots.
pub fn any(random: &mut Random, slots: u8) -> Vec<u8> {
    match random.weighted(&[2, 40, 55, 2, 1]) {
        0 => Vec::new(),
        1 => sound(random, slots),
        2 => bad(random, slots),
        3 => noise(random),
        _ => long(random, slots),
    }
}
