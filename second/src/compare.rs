//! Holding a program against the model, on generated cases or on a stored stream.

use std::io;
use std::time::{Duration, Instant};

use crate::bench::Bench;
use crate::coverage::{report, Coverage};
use crate::faults::Fault;
use crate::generate::Of;
use crate::names;
use crate::program::{Outcome, Program};
use crate::run::{run_case, run_operation};
use crate::show::show;
use crate::shrink::shrink;
use crate::stream::{put_case, Case, VERSION};

const BATCH: u64 = 500;
const LIMIT: Duration = Duration::from_secs(120);
const SHRINK_LIMIT: Duration = Duration::from_secs(5);
const SHRINK_TIME: Duration = Duration::from_secs(60);
const SHRINK_TRIES: usize = 3000;
/// How much more than expected is read, to see a program that writes too much.
const MORE: usize = 4096;

/// Runs a case on the model, counting what it reaches.
fn expected(case: &Case, coverage: &mut Coverage) -> Vec<u8> {
    let mut out = Vec::new();
    let mut bench = Bench::new(&case.setup, Fault::None);
    coverage.begin_case();
    for operation in &case.operations {
        let gave = run_operation(&mut bench, operation, &mut out);
        coverage.note(&gave, &bench);
    }
    out
}

fn first_difference(expected: &[u8], given: &[u8]) -> Option<usize> {
    if expected == given {
        return None;
    }
    let both = expected.iter().zip(given);
    Some(both.take_while(|(one, other)| one == other).count())
}

/// A case of a batch that came out otherwise, and how.
struct Difference {
    index: usize,
    what: String,
}

fn describe(case: &Case, offset: usize, expected: &[u8], given: &[u8]) -> String {
    let place = names::name(case, offset);
    match (expected.get(offset), given.get(offset)) {
        (Some(want), Some(got)) => format!("{place}: byte {want:02X} expected, {got:02X} given"),
        (Some(_), None) => format!("{place}: output ends early"),
        _ => "more output than expected".to_string(),
    }
}

/// The first case whose output differs.
fn find_difference(cases: &[Case], expected: &[Vec<u8>], outcome: &Outcome) -> Option<Difference> {
    let mut rest = &outcome.output[..];
    for (index, (case, want)) in cases.iter().zip(expected).enumerate() {
        let given = &rest[..want.len().min(rest.len())];
        if let Some(offset) = first_difference(want, given) {
            let mut what = describe(case, offset, want, given);
            if let Some(crash) = outcome.crash() {
                what += &format!("; the program {crash}");
            }
            return Some(Difference { index, what });
        }
        rest = &rest[want.len()..];
    }
    let last = cases.len() - 1;
    let what = match outcome.crash() {
        Some(crash) => format!("the program {crash}"),
        None if !rest.is_empty() => "more output than expected".to_string(),
        None if outcome.says_bad_case() => "the program says bad case".to_string(),
        None if !outcome.succeeded() => "the program's exit code is not 0".to_string(),
        None => return None,
    };
    Some(Difference { index: last, what })
}

fn run_batch(
    program: &Program,
    cases: &[Case],
    expected: &[Vec<u8>],
    limit: Duration,
) -> io::Result<Option<Difference>> {
    let mut stream = vec![VERSION];
    for case in cases {
        put_case(case, &mut stream);
    }
    let length: usize = expected.iter().map(Vec::len).sum();
    let outcome = program.call(&stream, length + MORE, limit)?;
    Ok(find_difference(cases, expected, &outcome))
}

fn differs(program: &Program, case: &Case) -> Option<Difference> {
    let expected = [run_case(case, Fault::None)];
    let cases = std::slice::from_ref(case);
    run_batch(program, cases, &expected, SHRINK_LIMIT).ok().flatten()
}

fn tell(program: &Program, seed: u64, number: u64, case: &Case, difference: &Difference) {
    println!("difference: seed {seed}, case {number}: {}", difference.what);
    if differs(program, case).is_none() {
        println!("the case alone does not differ; it is shown as it was");
        print!("{}", show(case));
        return;
    }
    let deadline = Instant::now() + SHRINK_TIME;
    let small = shrink(case.clone(), SHRINK_TRIES, |case| {
        Instant::now() < deadline && differs(program, case).is_some()
    });
    if let Some(difference) = differs(program, &small) {
        println!("shrunk case: {}", difference.what);
    }
    print!("{}", show(&small));
}

/// Compares on generated cases; true if all agree and everything was reached.
pub fn compare(program: &Program, of: Of, seed: u64, cases: u64) -> io::Result<bool> {
    let started = Instant::now();
    let mut coverage = Coverage::new();
    let mut first = 0;
    while first < cases {
        let last = (first + BATCH).min(cases);
        let batch: Vec<Case> = (first..last).map(|number| of.case(seed, number)).collect();
        let wanted: Vec<Vec<u8>> = batch.iter().map(|case| expected(case, &mut coverage)).collect();
        if let Some(difference) = run_batch(program, &batch, &wanted, LIMIT)? {
            let number = first + difference.index as u64;
            tell(program, seed, number, &batch[difference.index], &difference);
            return Ok(false);
        }
        first = last;
        if first % 10_000 == 0 || first == cases {
            eprintln!("{first} of {cases} cases agree, {:.1} s", started.elapsed().as_secs_f64());
        }
    }
    let complete = report(&coverage, of);
    println!("{cases} cases of seed {seed} agree, {:.1} s", started.elapsed().as_secs_f64());
    Ok(complete)
}

/// Compares a program's output for a stored stream with the stored output.
pub fn compare_stored(program: &Program, stream: &[u8], expected: &[u8]) -> io::Result<bool> {
    let outcome = program.call(stream, expected.len() + MORE, LIMIT)?;
    if let Some(crash) = outcome.crash() {
        println!("the program {crash}");
        return Ok(false);
    }
    match first_difference(expected, &outcome.output) {
        None => {
            println!("{} bytes of output agree", expected.len());
            Ok(true)
        }
        Some(offset) => {
            println!("the output differs from byte {offset} on");
            Ok(false)
        }
    }
}
