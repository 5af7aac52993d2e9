//! What may stand in the bytes of a lent image that are ignored in reading.

use crate::random::Random;

/// A source of such bytes: zeros, or anything that the field can hold.
pub struct Noise {
    random: Option<Random>,
}

impl Noise {
    /// Zeros with seed 0.
    pub fn new(seed: u64) -> Noise {
        Noise { random: (seed != 0).then(|| Random::new(seed)) }
    }

    /// A cause of the base, which a status that isn't Pending has no use for.
    pub fn cause(&mut self) -> u8 {
        self.random.as_mut().map_or(0, |random| random.below(4) as u8)
    }

    /// A byte past the count of stamp bytes.
    pub fn byte(&mut self) -> u8 {
        self.random.as_mut().map_or(0, Random::u8)
    }

    /// An earlier stamp without begun.
    pub fn stamp(&mut self) -> u32 {
        self.random.as_mut().map_or(0, Random::u32)
    }

    /// A time that a status has no use for, or that of a slot that was not made Ready or not seen.
    pub fn time(&mut self) -> u64 {
        let Some(random) = &mut self.random else {
            return 0;
        };
        let any = random.u64();
        random.pick(&[0, 1, any, any, u64::MAX])
    }
}
