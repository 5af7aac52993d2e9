//! A claimed time: its number and unit in nanoseconds, and the code that covers it.

use crate::faults::Fault;
use crate::times::{Code, Nanos, GREATEST_CODE, GREATEST_TIME};

/// A unit that a sheet may name.
#[derive(Clone, Copy, PartialEq, Eq, Debug)]
pub enum Unit {
    Ns,
    Us,
    Ms,
}

pub const UNITS: [Unit; 3] = [Unit::Ns, Unit::Us, Unit::Ms];

impl Unit {
    pub fn name(self) -> &'static str {
        match self {
            Unit::Ns => "ns",
            Unit::Us => "us",
            Unit::Ms => "ms",
        }
    }

    /// The unit with this name, in small letters.
    pub fn named(name: &[u8]) -> Option<Unit> {
        UNITS.into_iter().find(|unit| unit.name().as_bytes() == name)
    }

    /// Its nanoseconds.
    pub fn nanoseconds(self) -> u64 {
        match self {
            Unit::Ns => 1,
            Unit::Us => 1_000,
            Unit::Ms => 1_000_000,
        }
    }
}

/// A number of units in nanoseconds; none if that is no number of 64 bits.
pub fn nanoseconds(number: u64, unit: Unit) -> Option<Nanos> {
    number.checked_mul(unit.nanoseconds()).map(Nanos)
}

/// The same with a fault planted.
pub fn claim(number: u64, unit: Unit, fault: Fault) -> Option<Nanos> {
    let unit = match (unit, fault) {
        (Unit::Us, Fault::SheetUsAsNs) => Unit::Ns,
        (Unit::Ms, Fault::SheetMsAsUs) => Unit::Us,
        _ => unit,
    };
    match (unit, fault) {
        (Unit::Us, Fault::SheetUsOf1024) => Some(Nanos(number * 1_024)),
        (_, Fault::SheetTimesOf32Bits) => {
            Some(Nanos(u64::from((number as u32).wrapping_mul(unit.nanoseconds() as u32))))
        }
        _ => nanoseconds(number, unit),
    }
}

/// Whether 43 is given for a claim.
pub fn is_too_long(claim: Option<Nanos>, fault: Fault) -> bool {
    let Some(claim) = claim else {
        return true;
    };
    match fault {
        Fault::SheetGreatestRefused => claim >= GREATEST_TIME,
        Fault::SheetOneMoreAllowed => claim > Nanos(GREATEST_TIME.0 + 1),
        Fault::SheetScale5To511 => claim > Code(0xBFF).time(),
        Fault::SheetLimitOf30Bits => claim >= Nanos(1 << 30),
        Fault::SheetLimitOfASecond => claim > Nanos(1_000_000_000),
        Fault::SheetTooLongNeverGiven => false,
        _ => claim > GREATEST_TIME,
    }
}

const CODES: usize = GREATEST_CODE.0 as usize + 1;

/// The time of each code that a set-up may hold, by the code.
static TIMES: [Nanos; CODES] = times();

const fn times() -> [Nanos; CODES] {
    let mut times = [Nanos(0); CODES];
    let mut code = 0;
    while code < CODES {
        times[code] = Code(code as u16).time();
        code += 1;
    }
    times
}

/// The code of the least time that isn't below the claim, of several the lowest; none if no time covers it.
pub fn encode(claim: Nanos) -> Option<Code> {
    let mut best: Option<(Code, Nanos)> = None;
    for (code, time) in (0..).map(Code).zip(TIMES.iter().copied()) {
        if time >= claim && best.is_none_or(|(_, least)| time < least) {
            best = Some((code, time));
        }
    }
    best.map(|(code, _)| code)
}

/// All codes that a set-up may hold, lowest first.
fn codes() -> impl Iterator<Item = Code> {
    (0..=GREATEST_CODE.0).map(Code)
}

/// How many codes have this time.
pub fn codes_of(time: Nanos) -> usize {
    TIMES.iter().filter(|one| **one == time).count()
}

/// The first code of the least time.
fn least(codes: impl Iterator<Item = Code>) -> Option<Code> {
    codes.min_by_key(|code| code.time())
}

/// The same with a fault planted; the greatest code where no code covers the claim.
pub fn encode_with(claim: Nanos, fault: Fault) -> Code {
    let covering = codes().filter(|code| code.time() >= claim);
    let value = |code: &Code| code.0 & 0x1FF;
    let code = match fault {
        Fault::SheetRoundedDown => codes().filter(|code| code.time() <= claim).last(),
        Fault::SheetRoundedToNearest => nearest(claim),
        Fault::SheetAlwaysAbove => least(codes().filter(|code| code.time() > claim)),
        Fault::SheetHighestCode => {
            let time = encode(claim).map(Code::time);
            codes().filter(|code| Some(code.time()) == time).last()
        }
        Fault::SheetWithout511 => least(covering.filter(|code| value(code) != 511)),
        Fault::SheetWithoutValue0 => least(covering.filter(|code| value(code) != 0)),
        Fault::SheetValuesOf8Bits => least(covering.filter(|code| value(code) < 256)),
        Fault::SheetWithoutScale5 => least(covering.filter(|code| code.0 >> 9 < 5)),
        Fault::SheetWithoutScale1 => least(covering.filter(|code| code.0 >> 9 != 1)),
        Fault::SheetValueSpills => {
            let scale = (0..6).find(|scale| claim.0 >> (5 * scale) <= 511);
            scale.map(|scale| Code((scale << 9) as u16 + claim.0.div_ceil(1 << (5 * scale)) as u16))
        }
        Fault::SheetScale5To511 => least((0..=0xBFF).map(Code).filter(|code| code.time() >= claim)),
        _ => encode(claim),
    };
    code.unwrap_or(GREATEST_CODE)
}

/// What only a faulty encoder gives: the lowest code of the time that is nearest.
fn nearest(claim: Nanos) -> Option<Code> {
    codes().min_by_key(|code| code.time().0.abs_diff(claim.0))
}
