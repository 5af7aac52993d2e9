//! The mixed trace as the recorder would have captured it, the trace that this capture stands for, and its replay by the plain model.

use crate::bench::Bench;
use crate::card;
use crate::fast::whole::{image_length, put, BAD_CARD, SHORT_IMAGE};
use crate::faults::Fault;
use crate::feed::Fed;
use crate::generate::records::advance;
use crate::records::{record_length, ADVANCE};
use crate::replay::{Stamp, Step, Ticks, BACK, NANOSECONDS_PER_TICK};
use crate::speed::traces::{trace, Subject};

/// A capture's name, where one is asked for by name.
pub const CAPTURED: &str = "captured-mixed";

pub struct Captured {
    pub card: String,
    pub capture: Vec<u8>,
    /// What it stands for: the advances between stamps are records 01.
    pub trace: Vec<u8>,
    /// As many as the trace has, and as there are answers.
    pub records: usize,
}

/// The first stamp: the next ones soon wrap to 0.
const FIRST: Stamp = Stamp(u32::MAX - 100);

impl Captured {
    /// The mixed trace of this many records, each of its advances this many times as long, captured.
    pub fn new(records: usize, times: u64) -> Captured {
        let mixed = trace(Subject::Mixed, records);
        let mut made =
            Captured { card: mixed.card, capture: Vec::new(), trace: Vec::new(), records: 0 };
        let (mut earlier, mut waited, mut rest) = (None, 0, &mixed.bytes[..]);
        while let Some(kind) = rest.first() {
            let (record, others) =
                rest.split_at(record_length(*kind).expect("the trace has kinds"));
            rest = others;
            if *kind == ADVANCE {
                let ns = u32::from_le_bytes([record[1], record[2], record[3], record[4]]);
                waited += u64::from(ns) * times;
                continue;
            }
            // Two stamps can say no more than this.
            let ticks = (waited / NANOSECONDS_PER_TICK).min(u64::from(BACK.0) - 1) as u32;
            let stamp = earlier.map_or(FIRST, |earlier: Stamp| earlier.plus(Ticks(ticks)));
            made.add(Step { earlier, stamp }, record);
            (earlier, waited) = (Some(stamp), 0);
        }
        made
    }

    fn add(&mut self, step: Step, record: &[u8]) {
        self.capture.extend(step.stamp.to_bytes());
        self.capture.extend(record);
        let advances = step.advances(Fault::None);
        self.trace.extend(advances.iter().flat_map(|ns| advance(*ns)));
        self.trace.extend(record);
        self.records += advances.len() + 1;
    }
}

/// Sets the card up and replays the capture by the plain model, in one call; gives what the library's export does.
pub fn run(card: &[u8], capture: &[u8], _: usize, answers: &mut [u8], image: &mut [u8]) -> u64 {
    let Some(setup) = card::read(card) else {
        return BAD_CARD;
    };
    if image.len() < image_length(&setup) {
        return SHORT_IMAGE;
    }
    let mut bench = Bench::new(&setup, Fault::None);
    let fed = match bench.set_up() {
        0 => bench.replay(capture, answers).fed,
        number => Fed { number, ..Fed::start() },
    };
    put(&bench.state, [fed.consumed, fed.written], image);
    u64::from(fed.number)
}

#[cfg(test)]
mod tests {
    use super::*;
    use crate::fast::whole;

    /// A replay by the plain model and the trace by the fast one: the same but for the bytes consumed.
    #[test]
    fn a_capture_is_replayed_as_the_trace_that_it_stands_for() {
        for times in [1, 1_000_000] {
            let made = Captured::new(4_000, times);
            let mut given = [0, 1].map(|_| (vec![0; 8 * made.records], vec![0; 4_000]));
            let card = made.card.as_bytes();
            let [replayed, fed] = &mut given;
            assert_eq!(run(card, &made.capture, 0, &mut replayed.0, &mut replayed.1), 0);
            assert_eq!(whole::run(card, &made.trace, 0, &mut fed.0, &mut fed.1), 0);
            assert_eq!(replayed.1[..8], made.capture.len().to_le_bytes());
            assert_eq!(replayed.1[8..16], (8 * made.records).to_le_bytes());
            assert!(replayed.0 == fed.0 && replayed.1[8..] == fed.1[8..]);
        }
    }

    #[test]
    fn stamps_wrap_and_long_waits_are_two_advances() {
        let (usual, long) = (Captured::new(4_000, 1), Captured::new(4_000, 1_000_000));
        let stamp = |at: usize| u32::from_le_bytes(usual.capture[at..at + 4].try_into().unwrap());
        assert!(stamp(0) == FIRST.0 && stamp(6) == FIRST.0, "control and link up come first");
        assert!(stamp(11) < FIRST.0, "the stamp after the first advance wraps");
        let longest = advance(u32::MAX);
        assert!(!usual.trace.windows(5).any(|bytes| bytes == longest));
        assert!(long.trace.windows(5).any(|bytes| bytes == longest));
        assert!(long.records > usual.records);
    }
}
