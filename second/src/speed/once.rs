//! One run of one side on a card and a trace from files, in a process of its own: for valgrind, and for peak memory.

use std::fs;
use std::path::{Path, PathBuf};
use std::process::Command;

use crate::fast::whole;
use crate::speed::captures::{Captured, CAPTURED};
use crate::speed::library::{library, Runner};
use crate::speed::rows::Buffers;
use crate::speed::traces::{trace, Subject, SUBJECTS};

pub const SIDES: [&str; 2] = ["proved", "rust"];
/// The proved library's replay, for which the trace is a capture.
pub const REPLAY: &str = "replay";

pub fn text(error: std::io::Error) -> String {
    error.to_string()
}

fn side(name: &str) -> Result<Runner, String> {
    let linked = library().ok_or("built without the library".to_string());
    match name {
        "proved" => linked.map(|library| library.run),
        REPLAY => linked.map(|library| library.replay),
        "rust" => Ok(whole::run),
        _ => Err(format!("no side is named {name}")),
    }
}

/// The card and the trace, or the capture, with this name.
fn named(name: &str, records: usize) -> Result<(String, Vec<u8>), String> {
    if name == CAPTURED {
        let made = Captured::new(records, 1);
        return Ok((made.card, made.capture));
    }
    let found = SUBJECTS.iter().find(|(_, one)| *one == name);
    let (subject, _) = found.ok_or(format!("no trace is named {name}"))?;
    let made = trace(*subject, records);
    Ok((made.card, made.bytes))
}

/// Writes a trace, or a capture, and its card to files.
pub fn write_trace(words: &[String], records: usize) -> Result<bool, String> {
    let [name, card, bytes] = words else {
        return Err("trace wants: NAME CARD TRACE".to_string());
    };
    let (made_card, made_bytes) = named(name, records)?;
    fs::write(card, made_card).map_err(text)?;
    fs::write(bytes, made_bytes).map_err(text)?;
    Ok(true)
}

/// The most memory that this process has had resident, in KB.
fn peak() -> Option<u64> {
    let status = fs::read_to_string("/proc/self/status").ok()?;
    let line = status.lines().find(|line| line.starts_with("VmHWM:"))?;
    line.split_whitespace().nth(1)?.parse().ok()
}

/// Runs one side once; prints its number, the KB of trace and answers, and the KB of peak memory.
pub fn count(words: &[String]) -> Result<bool, String> {
    let [name, card, trace, piece] = words else {
        return Err("count wants: proved|rust|replay CARD TRACE PIECE".to_string());
    };
    let runner = side(name)?;
    let (card, trace) = (fs::read(card).map_err(text)?, fs::read(trace).map_err(text)?);
    let piece = piece.parse().map_err(|_| "PIECE is a number")?;
    // A record has at least a byte. So large a buffer comes from the system as zeros: what is not written to costs nothing.
    let room = (8 * trace.len()).max(1 << 20);
    let mut buffers = Buffers { answers: vec![0; room], image: vec![0; 32_768] };
    let number = buffers.run(runner, &card, &trace, piece);
    let mut written = [0; 8];
    written.copy_from_slice(&buffers.image[8..16]);
    let lent = (trace.len() as u64 + u64::from_le_bytes(written)) / 1024;
    println!("{number} {lent} {}", peak().unwrap_or(0));
    Ok(number == 0)
}

/// A folder of its own for cards and traces, removed at the end.
pub struct Folder {
    path: PathBuf,
}

impl Folder {
    pub fn new() -> Result<Folder, String> {
        let path = std::env::temp_dir().join(format!("otsnebura-{}", std::process::id()));
        fs::create_dir_all(&path).map_err(text)?;
        Ok(Folder { path })
    }

    pub fn file(&self, name: &str) -> PathBuf {
        self.path.join(name)
    }

    pub fn put(&self, subject: Subject, records: usize, name: &str) -> Result<(), String> {
        let made = trace(subject, records);
        self.put_bytes(&made.card, &made.bytes, name)
    }

    pub fn put_bytes(&self, card: &str, bytes: &[u8], name: &str) -> Result<(), String> {
        fs::write(self.file("card"), card).map_err(text)?;
        fs::write(self.file(name), bytes).map_err(text)
    }

    /// This program, about to run `count` on a trace of this folder; `under` stands before it.
    pub fn command(
        &self,
        under: &[&str],
        side: &str,
        trace: &str,
        piece: usize,
    ) -> Result<Command, String> {
        let itself = std::env::current_exe().map_err(text)?;
        let mut words: Vec<&Path> = under.iter().map(Path::new).collect();
        words.push(&itself);
        let mut command = Command::new(words[0]);
        command.args(&words[1..]).args(["count", side]);
        command.args([self.file("card"), self.file(trace)]).arg(piece.to_string());
        Ok(command)
    }
}

impl Drop for Folder {
    fn drop(&mut self) {
        // Left where it is if it can't be removed.
        let _ = fs::remove_dir_all(&self.path);
    }
}
