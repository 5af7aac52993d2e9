//! What a trace's answers show, and whether the trace does what its name says.

use crate::records::*;
use crate::speed::traces::Subject;

/// Records by kind and status, FRS queued and dropped, and DRS interrupts.
pub struct Tally {
    counts: [[usize; 32]; 16],
    queued: usize,
    dropped: usize,
    drs: usize,
}

impl Tally {
    /// The records of a trace beside their answers.
    pub fn of(trace: &[u8], answers: &[u8]) -> Tally {
        let mut tally = Tally { counts: [[0; 32]; 16], queued: 0, dropped: 0, drs: 0 };
        let mut at = 0;
        for answer in answers.chunks_exact(8) {
            let kind = trace[at];
            tally.counts[usize::from(kind)][usize::from(answer[0])] += 1;
            tally.drs += usize::from(answer[1] >> 2 & 1);
            tally.queued += usize::from(answer[2]);
            tally.dropped += usize::from(answer[3]);
            at += record_length(kind).expect("the trace ran");
        }
        tally
    }

    fn with(&self, kind: u8, status: u8) -> usize {
        self.counts[usize::from(kind)][usize::from(status)]
    }

    fn all(&self, kind: u8) -> usize {
        self.counts[usize::from(kind)].iter().sum()
    }

    /// Every record of this kind has this status.
    fn only(&self, kind: u8, status: u8) -> bool {
        self.with(kind, status) == self.all(kind)
    }

    /// What the trace does other than its subject says, if anything.
    pub fn wrong(&self, subject: Subject, records: usize) -> Option<&'static str> {
        let wants = match subject {
            Subject::ReadsAndWrites8 | Subject::ReadsAndWrites32 => self.reads_and_writes(records),
            Subject::Polling => self.polling(records),
            Subject::Resets => self.resets(records),
            Subject::LongAdvances => self.long_advances(records),
            Subject::FullQueue => self.full_queue(records),
            Subject::Mixed => self.mixed(records),
        };
        wants.into_iter().find(|(holds, _)| !holds).map(|(_, what)| what)
    }

    fn reads_and_writes(&self, records: usize) -> Vec<(bool, &'static str)> {
        vec![
            (self.only(READ, 0) && self.only(WRITE, 0), "reads and writes are answered 0"),
            (
                self.all(READ) + self.all(WRITE) + 3 == records,
                "all but the start are reads and writes",
            ),
            (
                self.all(READ) > records / 2 && self.all(WRITE) > records / 3,
                "there are enough of both",
            ),
        ]
    }

    fn polling(&self, records: usize) -> Vec<(bool, &'static str)> {
        vec![
            (self.with(READ, 16) > records * 3 / 4, "most reads are answered 16"),
            (
                self.with(READ, 16) + self.with(READ, 17) == self.all(READ),
                "the others are answered 17",
            ),
            (
                self.all(READ) + self.all(ADVANCE) + 2 == records,
                "all but the start are reads and advances",
            ),
        ]
    }

    fn resets(&self, records: usize) -> Vec<(bool, &'static str)> {
        vec![
            (self.with(READ, 18) > records / 40, "reads during FLR are answered 18"),
            (self.with(READ, 16) > records / 40, "reads of Pending slots are answered 16"),
            (self.with(READ, 0) > records / 20, "reads after a reset are answered 0"),
            (self.queued > records / 20, "FRS arrive"),
            (self.with(LINK_DOWN, 0) > records / 100, "the link goes down"),
            (self.with(LINK_UP, 0) > self.all(LINK_DOWN), "and up"),
            (self.drs == self.with(LINK_UP, 0), "each time with a DRS"),
        ]
    }

    fn long_advances(&self, records: usize) -> Vec<(bool, &'static str)> {
        vec![
            (self.only(WRITE, 0) && self.only(ADVANCE, 0), "all writes and advances are done"),
            (self.with(LINK_DOWN, 0) > records / 100, "the link goes down and up"),
            (self.drs + 1 >= self.with(LINK_UP, 0), "and every slot is Ready before it goes down"),
            (self.queued + self.dropped + 32 >= self.all(WRITE), "and every FLR ends"),
            (self.all(ADVANCE) > records / 30, "there are enough advances"),
        ]
    }

    fn full_queue(&self, records: usize) -> Vec<(bool, &'static str)> {
        vec![
            (self.only(MESSAGE, 0), "every message is taken"),
            (self.queued == 4, "four are queued"),
            (self.dropped + 4 == self.all(MESSAGE), "the others are dropped"),
            (self.dropped > records * 9 / 10, "and they are most records"),
        ]
    }

    fn mixed(&self, records: usize) -> Vec<(bool, &'static str)> {
        let kinds = ADVANCE..=STATUS_READ;
        let reads = [0, 16, 17, 18, 20, 21, 24];
        vec![
            (kinds.clone().all(|kind| self.with(kind, 0) > records / 1000), "every kind is done"),
            (
                reads.iter().all(|status| self.with(READ, *status) > records / 2000),
                "reads give every status",
            ),
            (
                [0, 17, 18].iter().all(|status| self.with(WRITE, *status) > records / 200),
                "so do writes",
            ),
            (self.with(MESSAGE, 19) > records / 1000, "some messages are none"),
            (self.with(READ, 0) > records / 10, "many reads are done"),
            (
                self.queued > records / 50 && self.dropped > records / 500,
                "FRS are queued and dropped",
            ),
            (self.drs > records / 2000, "DRS are received"),
        ]
    }
}

#[cfg(test)]
mod tests {
    use super::*;
    use crate::bench::Bench;
    use crate::card;
    use crate::fast::whole;
    use crate::faults::Fault;
    use crate::speed::traces::{trace, SUBJECTS};
    use crate::stream::put_image;

    const RECORDS: usize = 4_000;

    /// Answers and image of the plain model.
    fn plainly(text: &str, bytes: &[u8], piece: usize) -> (Vec<u8>, Vec<u8>) {
        let setup = card::read(text.as_bytes()).expect("a card");
        let mut bench = Bench::new(&setup, Fault::None);
        assert_eq!(bench.set_up(), 0);
        let mut answers = vec![0; 8 * RECORDS];
        let (mut consumed, mut written) = (0, 0);
        for input in bytes.chunks(piece) {
            let fed = bench.feed(input, &mut answers[written..]);
            assert_eq!(fed.number, 0);
            consumed += fed.consumed as u64;
            written += fed.written;
        }
        let mut image = [consumed, written as u64].map(u64::to_le_bytes).concat();
        put_image(&bench.state, &mut image);
        (answers, image)
    }

    #[test]
    fn every_trace_does_what_its_name_says_and_the_fast_model_runs_it() {
        for (subject, name) in SUBJECTS {
            let made = trace(subject, RECORDS);
            for piece in [1, 7, 64, 65_536] {
                let (answers, image) = plainly(&made.card, &made.bytes, piece);
                let tally = Tally::of(&made.bytes, &answers);
                assert_eq!(tally.wrong(subject, RECORDS), None, "{name}");
                let mut given = (vec![0; answers.len()], vec![0; image.len()]);
                let text = made.card.as_bytes();
                let number = whole::run(text, &made.bytes, piece, &mut given.0, &mut given.1);
                assert_eq!(number, 0, "{name}");
                assert!(given == (answers, image), "{name} in pieces of {piece}");
            }
        }
    }

    #[test]
    fn a_longer_trace_starts_with_the_shorter() {
        for (subject, name) in SUBJECTS {
            let (short, long) = (trace(subject, 500), trace(subject, 1_000));
            assert!(long.bytes.starts_with(&short.bytes), "{name}");
        }
    }
}
