//! An independent implementation of the bench, and what holds other programs against it.

mod answers;
mod arguments;
mod bench;
mod card;
mod compare;
mod coverage;
mod fast;
mod faults;
mod feed;
mod fuzz;
mod generate;
mod landed;
mod lateness;
#[cfg(test)]
mod marked;
mod messages;
mod names;
mod plant;
mod program;
#[cfg(test)]
mod properties;
mod queue;
mod random;
mod readiness;
mod records;
mod registers;
mod replay;
mod run;
mod selfcheck;
mod setup;
mod sheet_files;
mod sheets;
mod show;
mod shrink;
mod sound;
mod speed;
mod spoil;
mod state;
mod stream;
mod times;

use std::fs;
use std::io::{BufReader, BufWriter, Write};
use std::process::ExitCode;

use arguments::Arguments;
use faults::{Fault, FAULTS};
use generate::Of;
use program::Program;
use setup::Setup;

const USAGE: &str = "usage:
  second run [--fault NAME] < stream > output
  second answers CARD TRACE [--fault NAME] > answers
  second replay CARD CAPTURE [--fault NAME] > answers
  second moments CARD CAPTURE [--fault NAME]
  second write --seed S --cases N [--sheets | --captures | --lateness] > stream
  second selfcheck [--seed S] [--cases N] [--sheets | --captures | --lateness]
  second faults [--seed S] [--cases N] [--table | --masks]
  second compare PROGRAM [--seed S] [--cases N] [--sheets | --captures | --lateness] [-- its own words]
  second compare PROGRAM --stream FILE --expect FILE [-- its own words]
  second fuzz PROGRAM [--seed S] [--rounds N] [-- its own words]
  second sheets OTSNEBURA [--seed S] [--cases N] [-- its own words]
  second bench [--only TRACE] [--records N] [--rounds N] | --compare [--records N] | --lengths
  second instructions [--only TRACE] [--records N]
  second memory [--records N]
  second trace NAME [--records N] CARD TRACE
  second count proved|rust|replay CARD TRACE PIECE";

/// Whether a command found everything in order, or why it could not run.
type Verdict = Result<bool, String>;

fn text(error: std::io::Error) -> String {
    error.to_string()
}

/// The fault with this name, for trying the comparison out.
fn fault_named(name: &str) -> Result<Fault, String> {
    let found = FAULTS.iter().find(|described| format!("{:?}", described.fault) == name);
    found.map(|described| described.fault).ok_or(format!("no fault is named {name}"))
}

fn run_command(arguments: &Arguments) -> Verdict {
    let fault = arguments.text("--fault").map_or(Ok(Fault::None), fault_named)?;
    let input = BufReader::with_capacity(1 << 20, std::io::stdin().lock());
    let mut output = BufWriter::with_capacity(1 << 20, std::io::stdout().lock());
    match run::run_stream(input, &mut output, fault).map_err(text)? {
        run::Ended::AtItsEnd => Ok(true),
        run::Ended::BadCase(_) => Err("bad case".to_string()),
    }
}

/// Writes the answers of a trace file, or of a capture file, or the moments of a capture file, on a card file.
fn answers_command(arguments: &Arguments, answers: fn(&Setup, &[u8], Fault) -> Vec<u8>) -> Verdict {
    let fault = arguments.text("--fault").map_or(Ok(Fault::None), fault_named)?;
    let [card, trace] = arguments.words.as_slice() else {
        return Err(USAGE.to_string());
    };
    let setup = card::read(&fs::read(card).map_err(text)?).ok_or("no card")?;
    let answers = answers(&setup, &fs::read(trace).map_err(text)?, fault);
    std::io::stdout().lock().write_all(&answers).map_err(text)?;
    Ok(true)
}

/// Writes generated cases as a stream.
fn write_command(arguments: &Arguments) -> Verdict {
    let seed = arguments.number("--seed", 1)?;
    let mut output = BufWriter::with_capacity(1 << 20, std::io::stdout().lock());
    let mut bytes = vec![stream::VERSION];
    for number in 0..arguments.number("--cases", 1000)? {
        stream::put_case(&of(arguments).case(seed, number), &mut bytes);
        output.write_all(&bytes).map_err(text)?;
        bytes.clear();
    }
    output.write_all(&bytes).and_then(|()| output.flush()).map_err(text)?;
    Ok(true)
}

/// What the cases of a command are made of.
fn of(arguments: &Arguments) -> Of {
    let named =
        [("--sheets", Of::Sheets), ("--captures", Of::Captures), ("--lateness", Of::Lateness)];
    let found = named.into_iter().find(|(name, _)| arguments.has(name));
    found.map_or(Of::Everything, |(_, of)| of)
}

fn selfcheck_command(arguments: &Arguments) -> Verdict {
    let (seed, cases) = (arguments.number("--seed", 1)?, arguments.number("--cases", 20_000)?);
    Ok(selfcheck::selfcheck(of(arguments), seed, cases))
}

fn faults_command(arguments: &Arguments) -> Verdict {
    let (seed, cases) = (arguments.number("--seed", 1)?, arguments.number("--cases", 20_000)?);
    if arguments.has("--masks") {
        return Ok(plant::masks(seed, cases));
    }
    Ok(plant::faults(seed, cases, arguments.has("--table")))
}

fn program_of(arguments: &Arguments) -> Result<Program, String> {
    let path = arguments.words.first().ok_or(USAGE)?.clone();
    Ok(Program { path, arguments: arguments.for_program.clone() })
}

fn compare_command(arguments: &Arguments) -> Verdict {
    let program = program_of(arguments)?;
    let agrees = match (arguments.text("--stream"), arguments.text("--expect")) {
        (Some(stream), Some(expect)) => {
            let stream = fs::read(stream).map_err(text)?;
            let expect = fs::read(expect).map_err(text)?;
            compare::compare_stored(&program, &stream, &expect)
        }
        _ => {
            let seed = arguments.number("--seed", 1)?;
            let cases = arguments.number("--cases", 20_000)?;
            compare::compare(&program, of(arguments), seed, cases)
        }
    };
    agrees.map_err(text)
}

fn fuzz_command(arguments: &Arguments) -> Verdict {
    let program = program_of(arguments)?;
    let (seed, rounds) = (arguments.number("--seed", 1)?, arguments.number("--rounds", 1000)?);
    fuzz::fuzz(&program, seed, rounds).map_err(text)
}

/// The command `otsnebura sheet` on generated card files and sheets.
fn sheets_command(arguments: &Arguments) -> Verdict {
    let program = program_of(arguments)?;
    let (seed, cases) = (arguments.number("--seed", 1)?, arguments.number("--cases", 300)?);
    sheet_files::compare(&program, seed, cases).map_err(text)
}

fn records_of(arguments: &Arguments, otherwise: u64) -> Result<usize, String> {
    Ok(arguments.number("--records", otherwise)? as usize)
}

/// The proved library beside plain Rust: compared, or timed.
fn bench_command(arguments: &Arguments) -> Verdict {
    if arguments.has("--compare") {
        return speed::compare(records_of(arguments, 20_000)?);
    }
    let records = records_of(arguments, 1_000_000)?;
    let rounds = arguments.number("--rounds", 9)?.max(1) as usize;
    if arguments.has("--lengths") {
        return speed::lengths(records / 4, rounds);
    }
    speed::time_rows(arguments.text("--only"), records, rounds)
}

fn instructions_command(arguments: &Arguments) -> Verdict {
    speed::instructions(arguments.text("--only"), records_of(arguments, 10_000)?)
}

fn command() -> Verdict {
    let mut given = std::env::args().skip(1);
    let command = given.next().ok_or(USAGE)?;
    let arguments = Arguments::read(given)?;
    match command.as_str() {
        "run" => run_command(&arguments),
        "answers" => answers_command(&arguments, answers::answers),
        "replay" => answers_command(&arguments, answers::replayed),
        "moments" => answers_command(&arguments, answers::moments),
        "write" => write_command(&arguments),
        "selfcheck" => selfcheck_command(&arguments),
        "faults" => faults_command(&arguments),
        "compare" => compare_command(&arguments),
        "fuzz" => fuzz_command(&arguments),
        "sheets" => sheets_command(&arguments),
        "bench" => bench_command(&arguments),
        "instructions" => instructions_command(&arguments),
        "memory" => speed::memory(records_of(&arguments, 250_000)?),
        "trace" => speed::write_trace(&arguments.words, records_of(&arguments, 20_000)?),
        "count" => speed::count(&arguments.words),
        _ => Err(USAGE.to_string()),
    }
}

fn main() -> ExitCode {
    match command() {
        Ok(true) => ExitCode::SUCCESS,
        Ok(false) => ExitCode::FAILURE,
        Err(message) => {
            eprintln!("{message}");
            ExitCode::FAILURE
        }
    }
}
