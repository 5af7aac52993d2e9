//! Instructions and memory accesses per record, counted by valgrind where that is there, and peak memory.

use crate::speed::captures::{Captured, CAPTURED};
use crate::speed::comparing::as_its_trace;
use crate::speed::once::{text, Folder, REPLAY, SIDES};
use crate::speed::rows::{replays, sides, ROWS};
use crate::speed::traces::Subject;

/// Instructions, and how many of them read and write memory.
#[derive(Clone, Copy)]
struct Counts {
    instructions: f64,
    reads: f64,
    writes: f64,
}

/// The counts of a run under callgrind.
fn counted(folder: &Folder, side: &str, trace: &str, piece: usize) -> Result<Counts, String> {
    let file = format!("--callgrind-out-file={}", folder.file("callgrind.out").display());
    let under = ["valgrind", "--tool=callgrind", "--cache-sim=yes", &file];
    let output = folder.command(&under, side, trace, piece)?.output();
    let output = output.map_err(|error| format!("valgrind: {error}"))?;
    let said = String::from_utf8_lossy(&output.stderr).into_owned();
    let line = said.lines().find_map(|line| line.split("Collected : ").nth(1)).unwrap_or("");
    let numbers: Vec<f64> = line.split_whitespace().filter_map(|n| n.parse().ok()).collect();
    match numbers[..] {
        [instructions, reads, writes, ..] => Ok(Counts { instructions, reads, writes }),
        _ => Err(said),
    }
}

/// Counts per record of one side: the difference of two lengths, so that what is done once doesn't count.
fn per_record(
    folder: &Folder,
    side: &str,
    [once, twice]: [&str; 2],
    piece: usize,
    records: usize,
) -> Result<Counts, String> {
    let once = counted(folder, side, once, piece)?;
    let twice = counted(folder, side, twice, piece)?;
    let each = |twice: f64, once: f64| (twice - once) / records as f64;
    Ok(Counts {
        instructions: each(twice.instructions, once.instructions),
        reads: each(twice.reads, once.reads),
        writes: each(twice.writes, once.writes),
    })
}

fn shown(counts: Counts) -> String {
    let Counts { instructions, reads, writes } = counts;
    format!("{instructions:.0}, {reads:.0}, {writes:.0}")
}

/// Counts every row, or those of one name, and prints a table; then the capture.
pub fn instructions(only: Option<&str>, records: usize) -> Result<bool, String> {
    let folder = Folder::new()?;
    println!("| trace | piece | proved: instructions, reads, writes per record | Rust: the same | ratio of instructions |");
    println!("|---|---|---|---|---|");
    for row in ROWS.iter().filter(|row| only.is_none_or(|name| row.name() == name)) {
        folder.put(row.subject, records, "once")?;
        folder.put(row.subject, 2 * records, "twice")?;
        let files = ["once", "twice"];
        let [ours, rust] = SIDES.map(|side| per_record(&folder, side, files, row.piece, records));
        let (ours, rust) = (ours?, rust?);
        let ratio = rust.instructions / ours.instructions;
        println!(
            "| {} | {} | {} | {} | {ratio:.2} |",
            row.name(),
            row.piece,
            shown(ours),
            shown(rust)
        );
    }
    if only.is_none_or(|name| name == CAPTURED) {
        captured(&folder, records)?;
    }
    Ok(true)
}

/// Counts the replay of a capture beside the trace that it stands for, in one piece, once both are seen to give the same.
fn captured(folder: &Folder, records: usize) -> Result<(), String> {
    let [once, twice] = [records, 2 * records].map(|records| Captured::new(records, 1));
    let (sides, replays) = (sides()?, replays()?);
    as_its_trace(&sides, &replays, &twice)?;
    for (made, of) in [(&once, "once"), (&twice, "twice")] {
        folder.put_bytes(&made.card, &made.capture, &format!("capture-{of}"))?;
        folder.put_bytes(&made.card, &made.trace, of)?;
    }
    let records = twice.records - once.records;
    let replay = per_record(folder, REPLAY, ["capture-once", "capture-twice"], 0, records)?;
    let trace = per_record(folder, "proved", ["once", "twice"], 0, records)?;
    println!();
    println!("| capture | replayed: instructions, reads, writes per record | its trace in one piece: the same | ratio of instructions |");
    println!("|---|---|---|---|");
    let ratio = replay.instructions / trace.instructions;
    println!("| {CAPTURED} | {} | {} | {ratio:.2} |", shown(replay), shown(trace));
    Ok(())
}

/// Prints the peak memory of either side at growing lengths of the mixed trace.
pub fn memory(records: usize) -> Result<bool, String> {
    let folder = Folder::new()?;
    println!("| side | records | trace and answers, KB | peak resident, KB | the rest, KB |");
    println!("|---|---|---|---|---|");
    for factor in [1, 4, 16] {
        folder.put(Subject::Mixed, records * factor, "trace")?;
        for side in SIDES {
            let output = folder.command(&[], side, "trace", 65_536)?.output().map_err(text)?;
            let said = String::from_utf8_lossy(&output.stdout).into_owned();
            let numbers: Vec<i64> =
                said.split_whitespace().filter_map(|n| n.parse().ok()).collect();
            let [0, lent, peak] = numbers[..] else {
                return Err(format!("count said: {said}"));
            };
            println!("| {side} | {} | {lent} | {peak} | {} |", records * factor, peak - lent);
        }
    }
    Ok(true)
}
