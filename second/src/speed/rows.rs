//! The rows of the benchmark's tables, and one run of a row.

use crate::fast::whole;
use crate::speed::captures;
use crate::speed::library::{library, Library, Runner};
use crate::speed::traces::{Subject, Trace, SUBJECTS};

/// A subject, and the size of the pieces that its trace is fed in.
#[derive(Clone, Copy)]
pub struct Row {
    pub subject: Subject,
    pub piece: usize,
}

const fn row(subject: Subject, piece: usize) -> Row {
    Row { subject, piece }
}

pub const ROWS: [Row; 10] = [
    row(Subject::ReadsAndWrites8, 65_536),
    row(Subject::ReadsAndWrites32, 65_536),
    row(Subject::Polling, 65_536),
    row(Subject::Resets, 65_536),
    row(Subject::LongAdvances, 65_536),
    row(Subject::FullQueue, 65_536),
    row(Subject::Mixed, 65_536),
    row(Subject::Mixed, 64),
    row(Subject::Mixed, 7),
    row(Subject::Mixed, 1),
];

impl Row {
    pub fn name(self) -> &'static str {
        let found = SUBJECTS.iter().find(|(subject, _)| *subject == self.subject);
        found.expect("every subject is listed").1
    }
}

/// The two that are held against each other.
#[derive(Clone, Copy)]
pub struct Sides {
    pub ours: Runner,
    pub rust: Runner,
}

fn linked() -> Result<Library, String> {
    library().ok_or("built without the library: build with --features library".to_string())
}

/// The proved library and plain Rust, if the library is linked.
pub fn sides() -> Result<Sides, String> {
    Ok(Sides { ours: linked()?.run, rust: whole::run })
}

/// The same for the replay of a capture.
pub fn replays() -> Result<Sides, String> {
    Ok(Sides { ours: linked()?.replay, rust: captures::run })
}

/// Bytes that a run fills, with room for every image.
pub struct Buffers {
    pub answers: Vec<u8>,
    pub image: Vec<u8>,
}

/// What no run has written.
const UNTOUCHED: u8 = 0xEE;
const LONGEST_IMAGE: usize = 32_768;

impl Buffers {
    pub fn new(room: usize) -> Buffers {
        Buffers { answers: vec![UNTOUCHED; room], image: vec![UNTOUCHED; LONGEST_IMAGE] }
    }

    pub fn for_trace(trace: &Trace) -> Buffers {
        Buffers::new(8 * trace.records)
    }

    pub fn run(&mut self, runner: Runner, card: &[u8], trace: &[u8], piece: usize) -> u64 {
        runner(card, trace, piece, &mut self.answers, &mut self.image)
    }
}
