//! Stamps of the recorder's short clock, ticks between two of them, and the advances that these stand for.

use super::STAMP_BYTES;
use crate::faults::Fault;
use crate::times::Nanos;

/// A stamp: a 32-bit tick count that wraps to 0.
#[derive(Clone, Copy, PartialEq, Eq, Debug)]
pub struct Stamp(pub u32);

/// Ticks from one stamp to another, by the wrapped difference.
#[derive(Clone, Copy, PartialEq, Eq, PartialOrd, Ord, Debug)]
pub struct Ticks(pub u32);

pub const NANOSECONDS_PER_TICK: u64 = 4;
/// A difference of so many ticks or more means that the recorder went back.
pub const BACK: Ticks = Ticks(1 << 31);
/// No advance is longer.
pub const LONGEST_ADVANCE: Nanos = Nanos(4_294_967_295);

impl Stamp {
    /// Low byte first.
    pub fn from_bytes(bytes: [u8; STAMP_BYTES]) -> Stamp {
        Stamp(u32::from_le_bytes(bytes))
    }

    pub fn to_bytes(self) -> [u8; STAMP_BYTES] {
        self.0.to_le_bytes()
    }

    pub fn since(self, earlier: Stamp) -> Ticks {
        Ticks(self.0.wrapping_sub(earlier.0))
    }

    pub fn plus(self, ticks: Ticks) -> Stamp {
        Stamp(self.0.wrapping_add(ticks.0))
    }
}

impl Ticks {
    pub fn are_back(self) -> bool {
        self >= BACK
    }

    /// 4 ns a tick.
    pub fn time(self) -> Nanos {
        Nanos(u64::from(self.0) * NANOSECONDS_PER_TICK)
    }
}

/// A stamp and the one before it; before the first there is none.
#[derive(Clone, Copy, PartialEq, Eq, Debug)]
pub struct Step {
    pub earlier: Option<Stamp>,
    pub stamp: Stamp,
}

impl Step {
    /// The wrapped difference; none at the first stamp.
    pub fn ticks(self) -> Option<Ticks> {
        self.earlier.map(|earlier| self.stamp.since(earlier))
    }

    /// Whether the recorder went back.
    pub fn is_back(self, fault: Fault) -> bool {
        let (Some(earlier), Some(ticks)) = (self.earlier, self.ticks()) else {
            return false;
        };
        let wraps = self.stamp.0 < earlier.0;
        match fault {
            Fault::ReplayHalfIsForward => ticks > BACK,
            Fault::ReplayBelowHalfIsBack => ticks.0 >= BACK.0 - 1,
            Fault::ReplayWrapIsBack => ticks.are_back() || wraps,
            Fault::ReplayNeverBack => false,
            Fault::ReplayBackIfLowerOnly => ticks.are_back() && wraps,
            _ => ticks.are_back(),
        }
    }

    /// The advances of this stamp, in nanoseconds: none at the first stamp, for a difference of 0, or where the recorder went back.
    pub fn advances(self, fault: Fault) -> Vec<u32> {
        let ticks = match self.ticks() {
            None if fault == Fault::ReplayFirstStampAdvances => Ticks(self.stamp.0),
            None => return Vec::new(),
            Some(_) if self.is_back(fault) => return Vec::new(),
            Some(ticks) => ticks,
        };
        if ticks == Ticks(0) && fault == Fault::ReplayNoTimeAdvances {
            return vec![0];
        }
        advances_of(time_of(ticks, fault), fault)
    }
}

fn time_of(ticks: Ticks, fault: Fault) -> Nanos {
    match fault {
        Fault::ReplayTickOf3 => Nanos(u64::from(ticks.0) * 3),
        Fault::ReplayTickOf1 => Nanos(u64::from(ticks.0)),
        Fault::ReplayTimeOf32Bits => Nanos(ticks.time().0 % (1 << 32)),
        _ => ticks.time(),
    }
}

/// Advances of the greatest size first, then the rest.
fn advances_of(time: Nanos, fault: Fault) -> Vec<u32> {
    let longest = match fault {
        Fault::ReplayFullOfWholeTicks => LONGEST_ADVANCE.0 - 3,
        _ => LONGEST_ADVANCE.0,
    };
    let mut advances = Vec::new();
    let mut left = time.0;
    while left > longest {
        advances.push(longest as u32);
        left -= longest;
    }
    if left > 0 {
        advances.push(left as u32);
    }
    match fault {
        Fault::ReplayRestFirst => advances.reverse(),
        Fault::ReplayRestDropped => advances.truncate(advances.len().div_ceil(2)),
        Fault::ReplayHalves if advances.len() == 2 => {
            let half = time.0 / 2;
            advances = vec![half as u32, (time.0 - half) as u32];
        }
        _ => {}
    }
    advances
}
