//! The proved library beside plain Rust, timed on the same traces in one run.

use std::time::Duration;

use crate::speed::clock::processor_time;
use crate::speed::library::Runner;
use crate::speed::rows::{sides, Buffers, Row, Sides, ROWS};
use crate::speed::traces::{trace, Subject, Trace};

/// A round of either side takes about this long.
const ROUND: Duration = Duration::from_millis(100);

/// Seconds of processor time for a run of each, the median over the rounds.
struct Timed {
    ours: f64,
    rust: f64,
}

fn run_times(
    runner: Runner,
    trace: &Trace,
    piece: usize,
    buffers: &mut Buffers,
    times: u32,
) -> f64 {
    let started = processor_time();
    for _ in 0..times {
        let number = buffers.run(runner, trace.card.as_bytes(), &trace.bytes, piece);
        assert_eq!(number, 0, "the trace runs to its end");
    }
    (processor_time() - started).as_secs_f64() / f64::from(times)
}

fn median(mut seconds: Vec<f64>) -> f64 {
    seconds.sort_by(f64::total_cmp);
    seconds[seconds.len() / 2]
}

/// Rounds of the two in turn; the first of a round changes each time.
fn time(sides: &Sides, trace: &Trace, piece: usize, rounds: usize) -> Timed {
    let mut buffers = Buffers::for_trace(trace);
    let mut run = |runner, times| run_times(runner, trace, piece, &mut buffers, times);
    let slower = run(sides.ours, 1).max(run(sides.rust, 1));
    let times = (ROUND.as_secs_f64() / slower).ceil().max(1.0) as u32;
    let (mut ours, mut rust) = (Vec::new(), Vec::new());
    for round in 0..rounds {
        if round % 2 == 0 {
            ours.push(run(sides.ours, times));
            rust.push(run(sides.rust, times));
        } else {
            rust.push(run(sides.rust, times));
            ours.push(run(sides.ours, times));
        }
    }
    Timed { ours: median(ours), rust: median(rust) }
}

fn millions(records: usize, seconds: f64) -> f64 {
    records as f64 / seconds / 1e6
}

/// Times every row, or those of one name, and prints a table.
pub fn time_rows(only: Option<&str>, records: usize, rounds: usize) -> Result<bool, String> {
    let sides = sides()?;
    println!(
        "| trace | piece | records | proved, million records/s | Rust, million records/s | ratio |"
    );
    println!("|---|---|---|---|---|---|");
    for row in ROWS.iter().filter(|row| only.is_none_or(|name| row.name() == name)) {
        let trace = trace(row.subject, records_for(row, records));
        let timed = time(&sides, &trace, row.piece, rounds);
        println!(
            "| {} | {} | {} | {:.2} | {:.2} | {:.2} |",
            row.name(),
            row.piece,
            trace.records,
            millions(trace.records, timed.ours),
            millions(trace.records, timed.rust),
            timed.rust / timed.ours,
        );
    }
    Ok(true)
}

/// Short pieces take many calls, so their traces have fewer records.
fn records_for(row: &Row, records: usize) -> usize {
    match row.piece {
        1 => records / 10,
        7 => records / 4,
        _ => records,
    }
}

/// Times the mixed trace at growing lengths and prints nanoseconds per record.
pub fn lengths(records: usize, rounds: usize) -> Result<bool, String> {
    let sides = sides()?;
    println!("| piece | records | proved, ns/record | Rust, ns/record |");
    println!("|---|---|---|---|");
    for piece in [65_536, 64] {
        for factor in [1, 4, 16] {
            let trace = trace(Subject::Mixed, records * factor);
            let timed = time(&sides, &trace, piece, rounds);
            let each = |seconds: f64| seconds * 1e9 / trace.records as f64;
            let (ours, rust) = (each(timed.ours), each(timed.rust));
            println!("| {piece} | {} | {ours:.1} | {rust:.1} |", trace.records);
        }
    }
    Ok(true)
}
