//! Lines of a sheet whose layout or unit is another.

use crate::random::Random;
use crate::sheets::LINE_END;

const OTHER_UNITS: [&[u8]; 22] = [
    b"s",
    b"ps",
    b"m",
    b"n",
    b"u",
    b"ks",
    b"sec",
    b"usec",
    b"msec",
    b"nsec",
    b"nss",
    b"uss",
    b"mss",
    b"sn",
    b"0",
    b"1",
    b"",
    b"\xC2\xB5s",
    b"us.",
    b"ms,",
    b"n s",
    b"ls",
];
/// What stands next to the digits among the bytes, and what numbers have elsewhere.
const IN_NUMBERS: [u8; 14] = *b"/:.,_exXabFo-+";

const COMMENTS: [&[u8]; 6] = [b"#", b"# ", b"#\n", b"# slot\n", b"//", b";"];

pub fn joined(fields: &[Vec<u8>]) -> Vec<u8> {
    let mut line = fields.join(&b' ');
    line.push(LINE_END);
    line
}

/// The line of these fields, with one thing about it that isn't the layout or the unit.
pub fn damaged(random: &mut Random, fields: Vec<Vec<u8>>, last: bool) -> Vec<u8> {
    match random.below(10) {
        0..=4 => joined(&fields_damaged(random, fields)),
        5 if last => without_end(&joined(&fields)).to_vec(),
        _ => line_damaged(random, joined(&fields)),
    }
}

fn without_end(line: &[u8]) -> &[u8] {
    &line[..line.len() - 1]
}

fn fields_damaged(random: &mut Random, mut fields: Vec<Vec<u8>>) -> Vec<Vec<u8>> {
    let unit = fields.len() - 1;
    let number = random.below(unit);
    match random.below(12) {
        0 => fields[number].insert(0, random.pick(b"+-")),
        1 => fields[number].clear(),
        2 => {
            let width = random.pick(&[11, 11, 11, 12, 19, 20, 21, 40]);
            let missing = width - fields[number].len();
            let digit = random.pick(b"0001");
            fields[number].splice(0..0, vec![digit; missing]);
        }
        3 => {
            fields.remove(random.below(unit + 1));
        }
        4 => {
            let more = random.pick(&[&b"0"[..], b"1", b"ns", b"#", b"", b"x"]);
            fields.insert(random.below(unit + 2), more.to_vec());
        }
        5 | 6 => fields[unit] = capitals(random, &fields[unit]),
        7 | 8 => fields[unit] = random.pick(&OTHER_UNITS).to_vec(),
        9 => {
            let place = random.below(fields[number].len() + 1);
            fields[number].insert(place, random.pick(&IN_NUMBERS));
        }
        10 => {
            let unit = fields.pop().unwrap_or_default();
            match random.chance(50) {
                true => fields.insert(0, unit),
                false => fields[4].extend(unit),
            }
        }
        _ => {
            let place = random.below(fields[number].len());
            fields[number][place] = random.pick(&IN_NUMBERS);
        }
    }
    fields
}

fn capitals(random: &mut Random, unit: &[u8]) -> Vec<u8> {
    let mut unit = unit.to_vec();
    match random.below(3) {
        0 => unit.make_ascii_uppercase(),
        place => unit[place - 1].make_ascii_uppercase(),
    }
    unit
}

/// Where a space stands.
fn space(random: &mut Random, line: &[u8]) -> usize {
    let spaces: Vec<usize> = (0..line.len()).filter(|place| line[*place] == b' ').collect();
    random.pick(&spaces)
}

/// Puts bytes in at a place.
fn put_in(line: &mut Vec<u8>, place: usize, bytes: &[u8]) {
    line.splice(place..place, bytes.iter().copied());
}

fn line_damaged(random: &mut Random, mut line: Vec<u8>) -> Vec<u8> {
    let (end, place) = (line.len() - 1, random.below(line.len()));
    match random.below(17) {
        0 => {
            let space = space(random, &line);
            line.insert(space, b' ');
        }
        1 => {
            let space = space(random, &line);
            line[space] = random.pick(b"\t\t\x0B\x0C,;\r\0\xA0");
        }
        2 => line.insert(end, b'\r'),
        3 => line.insert(end, b' '),
        4 => line.insert(0, b' '),
        5 => line = random.pick(&[&b"\n"[..], b"\n", b" \n", b"\r\n", b"\t\n"]).to_vec(),
        6 => line.insert(0, LINE_END),
        7 => put_in(&mut line, 0, random.pick(&COMMENTS)),
        8 => put_in(&mut line, end, random.pick(&[&b" #"[..], b"#", b" # slow", b"\t"])),
        9 => line.insert(random.pick(&[0, place, end]), 0x00),
        10 => line.insert(random.pick(&[0, place, end]), 0xFF),
        11 => line[place] |= 0x80,
        12 => line[place] = random.u8(),
        13 => drop(line.remove(place)),
        14 => line.truncate(place),
        15 => put_in(&mut line, 0, random.pick(&[&b"\xEF\xBB\xBF"[..], b"\t", b"  ", b"slot "])),
        _ => line.iter_mut().filter(|byte| **byte == b' ').for_each(|byte| *byte = b','),
    }
    line
}
