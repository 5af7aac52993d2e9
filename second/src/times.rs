//! Coded times and times in nanoseconds, each with a type of its own.

/// A 12-bit coded time: bits 8:0 value, bits 11:9 scale.
#[derive(Clone, Copy, PartialEq, Eq, Debug)]
pub struct Code(pub u16);

/// A time in nanoseconds.
#[derive(Clone, Copy, PartialEq, Eq, PartialOrd, Ord, Debug)]
pub struct Nanos(pub u64);

/// The greatest code that a set-up may hold.
pub const GREATEST_CODE: Code = Code(0xA1E);
/// The time of the greatest code.
pub const GREATEST_TIME: Nanos = Nanos(1_006_632_960);
/// The clock never passes this.
pub const LAST_MOMENT: Nanos = Nanos(1_000_000_000_000_000);
/// An FLR is in progress for at most this long.
pub const FLR_LIMIT: Nanos = Nanos(100_000_000);

impl Code {
    /// Codes are compared as numbers, not as times.
    pub fn is_allowed(self) -> bool {
        self.0 <= GREATEST_CODE.0
    }

    /// value * 32^scale nanoseconds.
    pub const fn time(self) -> Nanos {
        let value = (self.0 & 0x1FF) as u64;
        let scale = (self.0 >> 9) as u32;
        Nanos(value * 32u64.pow(scale))
    }
}

impl Nanos {
    pub fn plus(self, other: Nanos) -> Nanos {
        Nanos(self.0 + other.0)
    }
}
