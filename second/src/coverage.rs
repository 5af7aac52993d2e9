//! Counters of what a run has reached; one that stays 0 fails the run.

use crate::bench::{Answer, Bench};
use crate::feed::Fed;
use crate::generate::Of;
use crate::lateness::reached::Reached as LatenessReached;
use crate::messages::{Kind, DRS, UNREADABLE, UNWRITABLE};
use crate::replay::reached::Reached as ReplaysReached;
use crate::run::{Gave, Reading, Wrote};
use crate::setup::PARTS;
use crate::sheets::reached::Reached;
use crate::sound::{broken_clauses, CLAUSES};
use crate::stream::MOST_MESSAGE;

/// Each kind of record with each status that it can give.
pub const STATUSES: [(u8, &str, &[u8]); 13] = [
    (0x01, "advance", &[0, 22]),
    (0x02, "configuration read", &[0, 16, 17, 18, 20, 21, 24]),
    (0x03, "configuration write", &[0, 17, 18, 20, 21, 24]),
    (0x04, "message", &[0, 19, 23]),
    (0x05, "link up", &[0, 23]),
    (0x06, "link down", &[0, 23]),
    (0x07, "cold reset", &[0]),
    (0x08, "read queue register", &[0]),
    (0x09, "remove oldest", &[0]),
    (0x0A, "clear status bits", &[0]),
    (0x0B, "control", &[0, 24]),
    (0x0C, "hardware sets bits", &[0, 20, 21, 23]),
    (0x0D, "read status bits", &[0]),
];

const SET_UP_NUMBERS: [u8; 5] = [0, 1, 2, 3, 4];
const FEED_NUMBERS: [u8; 8] = [0, 1, 2, 3, 4, 5, 30, 31];
const IN_ONE_RECORD: [&str; 7] = [
    "several FRS queued in one record",
    "several FRS dropped in one record",
    "FRS queued and dropped in one record",
    "own FRS, reason 1",
    "interrupt bit 0, Received",
    "interrupt bit 1, Overflow",
    "interrupt bit 2, DRS",
];

pub struct Coverage {
    answers: [[u64; 32]; 16],
    set_ups: [u64; 32],
    parts: [u64; PARTS.len()],
    feeds: [u64; 32],
    clauses: [u64; CLAUSES.len()],
    in_one_record: [u64; IN_ONE_RECORD.len()],
    noisy_lends: u64,
    written: Messages<{ UNWRITABLE.len() }>,
    read: Messages<{ UNREADABLE.len() }>,
    sheets: Reached,
    captures: ReplaysReached,
    lateness: LatenessReached,
}

/// Counters of messages written, or of messages read.
struct Messages<const N: usize> {
    drs: u64,
    /// By reason.
    frs: [u64; 16],
    /// With 19.
    refused: u64,
    /// With 19 for one thing alone.
    refused_for: [u64; N],
    /// By room or length.
    lengths: [u64; MOST_MESSAGE + 1],
}

impl<const N: usize> Messages<N> {
    fn new() -> Messages<N> {
        Messages {
            drs: 0,
            frs: [0; 16],
            refused: 0,
            refused_for: [0; N],
            lengths: [0; MOST_MESSAGE + 1],
        }
    }

    fn note(&mut self, number: u8, drs: bool, reason: u8, length: usize) {
        self.lengths[length] += 1;
        match number {
            0 if drs => self.drs += 1,
            0 => self.frs[usize::from(reason)] += 1,
            _ => self.refused += 1,
        }
    }

    /// Only what is refused alone counts.
    fn note_refused<T: Copy + PartialEq>(&mut self, refused: &[T], all: &[(T, &str); N]) {
        if let [alone] = refused {
            let index = all.iter().position(|(what, _)| what == alone);
            self.refused_for[index.expect("all are listed")] += 1;
        }
    }

    fn rows<T>(&self, name: &str, all: &[(T, &str); N], rows: &mut Vec<(String, u64)>) {
        rows.push((format!("{name} gives 0, DRS"), self.drs));
        for (reason, count) in self.frs.iter().enumerate() {
            rows.push((format!("{name} gives 0, FRS of reason {reason}"), *count));
        }
        rows.push((format!("{name} gives 19"), self.refused));
        for ((_, what), count) in all.iter().zip(self.refused_for) {
            rows.push((format!("{name} gives 19 for this alone: {what}"), count));
        }
        let least = self.lengths.iter().min().copied().unwrap_or(0);
        rows.push((format!("{name} with each length from 0 to {MOST_MESSAGE}, at least"), least));
    }
}

impl Coverage {
    pub fn new() -> Coverage {
        Coverage {
            answers: [[0; 32]; 16],
            set_ups: [0; 32],
            parts: [0; PARTS.len()],
            feeds: [0; 32],
            clauses: [0; CLAUSES.len()],
            in_one_record: [0; IN_ONE_RECORD.len()],
            noisy_lends: 0,
            written: Messages::new(),
            read: Messages::new(),
            sheets: Reached::new(),
            captures: ReplaysReached::new(),
            lateness: LatenessReached::new(),
        }
    }

    /// A case begins.
    pub fn begin_case(&mut self) {
        self.sheets.begin_case();
        self.captures.begin_case();
        self.lateness.begin_case();
    }

    /// Counts what an operation gave; the bench is as the operation left it.
    pub fn note(&mut self, gave: &Gave, bench: &Bench) {
        self.sheets.note(gave);
        self.captures.note(gave, bench);
        self.lateness.note(gave, bench);
        match gave {
            Gave::SetUp(number) => {
                self.set_ups[usize::from(*number)] += 1;
                self.note_part(bench);
            }
            Gave::Feed(fed) => self.note_feed(fed, bench),
            Gave::Lent { noise } => self.noisy_lends += u64::from(*noise),
            Gave::Wrote(wrote) => self.note_wrote(wrote),
            Gave::Reading(reading) => self.note_reading(reading),
            Gave::Replay(call) => {
                call.replayed.fed.ran.iter().for_each(|(_, answer)| self.note_arrivals(answer));
            }
            Gave::Sheet(_) | Gave::LentReplay { .. } | Gave::Lateness(_) | Gave::Totals(_) => {}
        }
    }

    fn note_wrote(&mut self, wrote: &Wrote) {
        let Wrote { number, kind, reason, room, refused, .. } = wrote;
        self.written.note(*number, *kind == DRS, *reason, room.len());
        self.written.note_refused(refused, &UNWRITABLE);
    }

    fn note_reading(&mut self, reading: &Reading) {
        let Reading { given, bytes, refused } = reading;
        let (number, kind, reason) = match given {
            Ok(message) => (0, message.kind, message.reason),
            Err(number) => (*number, Kind::Frs, 0),
        };
        self.read.note(number, kind == Kind::Drs, reason, bytes.len());
        self.read.note_refused(refused, &UNREADABLE);
    }

    fn note_feed(&mut self, fed: &Fed, bench: &Bench) {
        self.feeds[usize::from(fed.number)] += 1;
        if fed.number == 5 {
            self.note_clause(bench);
        }
        for (kind, answer) in &fed.ran {
            self.answers[usize::from(*kind)][usize::from(answer.status)] += 1;
            self.note_arrivals(answer);
        }
    }

    /// Only a part of refusals 1 to 4 broken alone counts.
    fn note_part(&mut self, bench: &Bench) {
        if let [alone] = bench.setup.broken_parts()[..] {
            let index = PARTS.iter().position(|(part, _, _)| *part == alone);
            self.parts[index.expect("every part is listed")] += 1;
        }
    }

    /// Only a clause broken alone counts.
    fn note_clause(&mut self, bench: &Bench) {
        if let [alone] = broken_clauses(&bench.state)[..] {
            let index = CLAUSES.iter().position(|(clause, _)| *clause == alone);
            self.clauses[index.expect("every clause is listed")] += 1;
        }
    }

    fn note_arrivals(&mut self, answer: &Answer) {
        let reached = [
            answer.queued > 1,
            answer.dropped > 1,
            answer.queued > 0 && answer.dropped > 0,
            answer.own_frs,
            answer.interrupts & 1 != 0,
            answer.interrupts & 2 != 0,
            answer.interrupts & 4 != 0,
        ];
        for (counter, reached) in self.in_one_record.iter_mut().zip(reached) {
            *counter += u64::from(reached);
        }
    }

    fn rows(&self) -> Vec<(String, u64)> {
        let mut rows = Vec::new();
        for (kind, name, statuses) in STATUSES {
            for status in statuses {
                let count = self.answers[usize::from(kind)][usize::from(*status)];
                rows.push((format!("kind {kind:02X} {name}, status {status}"), count));
            }
        }
        for number in SET_UP_NUMBERS {
            rows.push((format!("set-up gives {number}"), self.set_ups[usize::from(number)]));
        }
        for ((_, number, name), count) in PARTS.iter().zip(self.parts) {
            rows.push((format!("set-up gives {number} for this alone: {name}"), count));
        }
        for number in FEED_NUMBERS {
            rows.push((format!("feed gives {number}"), self.feeds[usize::from(number)]));
        }
        for ((_, name), count) in CLAUSES.iter().zip(self.clauses) {
            rows.push((format!("refusal 5 alone: {name}"), count));
        }
        for (name, count) in IN_ONE_RECORD.iter().zip(self.in_one_record) {
            rows.push(((*name).to_string(), count));
        }
        rows.push(("lend with bytes that are ignored".to_string(), self.noisy_lends));
        self.written.rows("write a message", &UNWRITABLE, &mut rows);
        self.read.rows("read a message", &UNREADABLE, &mut rows);
        self.sheets.rows(&mut rows);
        self.captures.rows(&mut rows);
        self.lateness.rows(&mut rows);
        rows
    }

    fn rows_of(&self, of: Of) -> Vec<(String, u64)> {
        match of {
            Of::Everything => self.rows(),
            Of::Sheets => self.sheets.rows_alone(),
            Of::Captures => self.captures.rows_alone(),
            Of::Lateness => self.lateness.rows_alone(),
        }
    }

    /// A markdown table of the counters.
    pub fn table(&self, of: Of) -> String {
        let mut table = String::from("| reached | times |\n|---|---|\n");
        for (name, count) in self.rows_of(of) {
            table += &format!("| {name} | {count} |\n");
        }
        table
    }

    /// The counters that stayed 0.
    pub fn missing(&self, of: Of) -> Vec<String> {
        let rows = self.rows_of(of).into_iter();
        rows.filter(|(_, count)| *count == 0).map(|(name, _)| name).collect()
    }
}

/// Prints the table; true if every counter was reached, or every one that cases of sheets, of captures or of lateness alone can reach.
pub fn report(coverage: &Coverage, of: Of) -> bool {
    print!("{}", coverage.table(of));
    let missing = coverage.missing(of);
    for name in &missing {
        println!("never reached: {name}");
    }
    missing.is_empty()
}
