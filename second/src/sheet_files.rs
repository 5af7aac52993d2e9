//! The command `otsnebura sheet CARD SHEET` beside the model: it prints the card with the sheet's codes, or says which
//! line is refused with which number.

use std::fs;
use std::io;
use std::path::{Path, PathBuf};
use std::time::Duration;

use crate::card;
use crate::faults::Fault;
use crate::generate::{cards, sheets};
use crate::program::{Outcome, Program};
use crate::random::Random;
use crate::setup::Setup;
use crate::sheets::{Sheet, Taken};
use crate::stream::MOST_BYTES;

const LIMIT: Duration = Duration::from_secs(20);
const MOST_OUTPUT: usize = 1 << 20;
/// With this many cases every counter must have been reached.
const ENOUGH: u64 = 300;
/// The option with which the command prints no card.
const CHECK: &str = "--check";

/// A folder that goes when it is done with.
struct Folder(PathBuf);

impl Folder {
    fn new() -> io::Result<Folder> {
        let path = std::env::temp_dir().join(format!("second-sheets-{}", std::process::id()));
        fs::create_dir_all(&path)?;
        Ok(Folder(path))
    }

    /// Writes a file and gives its path.
    fn write(&self, name: &str, bytes: &[u8]) -> io::Result<String> {
        let path: &Path = &self.0.join(name);
        fs::write(path, bytes)?;
        Ok(path.to_string_lossy().into_owned())
    }
}

impl Drop for Folder {
    fn drop(&mut self) {
        // What can't be removed lies in the system's own folder for such files.
        let _ = fs::remove_dir_all(&self.0);
    }
}

/// A card, its text, and the text of a sheet.
struct Files {
    setup: Setup,
    card: Vec<u8>,
    sheet: Vec<u8>,
    /// Whether the command is run with `--check` too.
    check: bool,
}

/// The files with this number of this seed: mostly sheets that are accepted.
fn files(seed: u64, number: u64) -> Files {
    let mut random = Random::for_case(seed ^ 0x5_4EE7, number);
    let setup = cards::setup(&mut random);
    let card = cards::text(&mut random, &setup);
    let sheet = match random.below(20) {
        0..=7 => sheets::sound(&mut random, setup.slots),
        8..=10 => sheets::of_all_slots(&mut random, setup.slots),
        11..=15 => sheets::bad(&mut random, setup.slots),
        16 => sheets::longer(&mut random, setup.slots),
        _ => sheets::any(&mut random, setup.slots),
    };
    let check = random.chance(50);
    Files { setup, card, sheet, check }
}

/// The command under test.
struct Desk<'a> {
    program: &'a Program,
    folder: Folder,
}

impl Desk<'_> {
    /// Runs the command on two texts, with an option or none.
    fn run(&self, option: Option<&str>, card: &[u8], sheet: &[u8]) -> io::Result<Outcome> {
        let card = self.folder.write("card", card)?;
        let sheet = self.folder.write("sheet", sheet)?;
        let mut arguments = self.program.arguments.clone();
        arguments.push("sheet".to_string());
        arguments.extend(option.map(String::from));
        arguments.extend([card, sheet]);
        let program = Program { path: self.program.path.clone(), arguments };
        program.call(&[], MOST_OUTPUT, LIMIT)
    }

    /// What is wrong with what the command does, if anything.
    fn wrong(&self, files: &Files, taken: &Taken) -> io::Result<Option<String>> {
        if files.check {
            let outcome = self.run(Some(CHECK), &files.card, &files.sheet)?;
            if let Some(what) = wrong_check(&outcome, taken) {
                return Ok(Some(format!("with {CHECK}: {what}")));
            }
        }
        let outcome = self.run(None, &files.card, &files.sheet)?;
        if taken.number != 0 {
            return Ok(wrong_refusal(&outcome, taken));
        }
        let wanted = Setup { entries: taken.entries, ..files.setup.clone() };
        if let Some(what) = wrong_card(&outcome, &wanted) {
            return Ok(Some(what));
        }
        let again = self.run(None, &outcome.output, b"")?;
        let what = wrong_card(&again, &wanted);
        Ok(what.map(|what| format!("the printed card with an empty sheet: {what}")))
    }
}

fn status(outcome: &Outcome) -> Option<i32> {
    outcome.status.and_then(|status| status.code())
}

/// How the command ended, if not with this exit status.
fn wrong_status(outcome: &Outcome, wanted: i32) -> Option<String> {
    match status(outcome) {
        Some(given) if given == wanted => None,
        Some(given) => {
            Some(format!("exit status {wanted} expected, {given} given: {}", outcome.errors))
        }
        None => Some(outcome.crash().unwrap_or_default()),
    }
}

fn wrong_refusal(outcome: &Outcome, taken: &Taken) -> Option<String> {
    let said = format!("line {}: {}: ", taken.line, taken.number);
    if !outcome.errors.contains(&said) {
        return Some(format!("\"{said}\" expected, \"{}\" said", outcome.errors));
    }
    if !outcome.output.is_empty() {
        return Some("a refused sheet prints something".to_string());
    }
    wrong_status(outcome, 1)
}

/// With `--check` an accepted sheet prints nothing either.
fn wrong_check(outcome: &Outcome, taken: &Taken) -> Option<String> {
    if taken.number != 0 {
        return wrong_refusal(outcome, taken);
    }
    if !outcome.output.is_empty() {
        return Some("something is printed".to_string());
    }
    wrong_status(outcome, 0)
}

fn wrong_card(outcome: &Outcome, wanted: &Setup) -> Option<String> {
    if let Some(what) = wrong_status(outcome, 0) {
        return Some(what);
    }
    let printed = || outcome.output.escape_ascii().to_string().replace("\\n", "\n");
    match card::read(&outcome.output) {
        Some(setup) if setup == *wanted => None,
        Some(setup) => {
            Some(format!("{} printed:\n{}", first_difference(wanted, &setup), printed()))
        }
        None => Some(format!("what is printed is no card:\n{}", printed())),
    }
}

/// The first thing that differs.
fn first_difference(wanted: &Setup, given: &Setup) -> String {
    let facts = |setup: &Setup| (setup.slots, setup.cells, setup.bus, setup.port_id);
    if facts(wanted) != facts(given) {
        return format!("slots, queue, bus, port {:?}, not {:?}", facts(wanted), facts(given));
    }
    let mut slots = wanted.entries.iter().zip(&given.entries);
    if let Some(slot) = slots.position(|(one, other)| one != other) {
        let (wanted, given) = (wanted.entries[slot], given.entries[slot]);
        return format!("slot {slot} {wanted:X?}, not {given:X?}");
    }
    let mut words = wanted.defaults.iter().zip(&given.defaults);
    let place = words.position(|(one, other)| one != other).unwrap_or(0);
    format!(
        "default word {place} {:08X}, not {:08X}",
        wanted.defaults[place], given.defaults[place]
    )
}

fn tell(seed: u64, number: u64, files: &Files, what: &str) {
    println!("seed {seed} case {number}: {what}");
    for (name, text) in [("card", &files.card), ("sheet", &files.sheet)] {
        println!("{name}, {} bytes:", text.len());
        for line in text.split_inclusive(|byte| *byte == b'\n') {
            println!("  \"{}\"", line.escape_ascii());
        }
    }
}

/// What a case may be, each with its name and whether it is.
fn facts(files: &Files, taken: &Taken) -> [(&'static str, bool); 14] {
    let Files { setup, sheet, check, .. } = files;
    let (number, accepted) = (taken.number, taken.number == 0);
    let named = |slot: usize| taken.good.iter().any(|line| line.slot == slot as u64);
    let is_high = |slot: &usize| setup.entries[*slot].codes().iter().any(|code| !code.is_allowed());
    let high: Vec<usize> = (0..setup.slot_count()).filter(is_high).collect();
    let after = Setup { entries: taken.entries, ..setup.clone() };
    let [before, after] = [setup, &after].map(|setup| setup.refusal(Fault::None));
    [
        ("accepted", accepted),
        ("refused with 40", number == 40),
        ("refused with 41", number == 41),
        ("refused with 42", number == 42),
        ("refused with 43", number == 43),
        (
            "a code above A1Eh in a slot that is named",
            accepted && high.iter().any(|slot| named(*slot)),
        ),
        (
            "a code above A1Eh in a slot that is not named",
            accepted && !high.iter().all(|slot| named(*slot)),
        ),
        ("a card refused with 3 and mended", before == Some(3) && after != Some(3)),
        ("a card refused with 3 and not mended", accepted && before == Some(3) && after == Some(3)),
        ("a code above A1Eh, the sheet refused", !accepted && !high.is_empty()),
        ("more than 4,096 bytes, refused", !accepted && sheet.len() > MOST_BYTES),
        ("with --check, accepted", *check && accepted),
        ("with --check, refused", *check && !accepted),
        ("with --check, more than 4,096 bytes", *check && sheet.len() > MOST_BYTES),
    ]
}

/// Gives generated cards and sheets to the command; true if it did with each what the model does.
pub fn compare(program: &Program, seed: u64, cases: u64) -> io::Result<bool> {
    let desk = Desk { program, folder: Folder::new()? };
    let mut counts: Vec<(&str, u64)> = Vec::new();
    for number in 0..cases {
        let files = files(seed, number);
        let taken = Sheet::new(&files.sheet, files.setup.slots).take(&files.setup.entries);
        if let Some(what) = desk.wrong(&files, &taken)? {
            tell(seed, number, &files, &what);
            return Ok(false);
        }
        let facts = facts(&files, &taken);
        counts.resize(facts.len(), ("", 0));
        for ((name, count), (fact, is_so)) in counts.iter_mut().zip(facts) {
            (*name, *count) = (fact, *count + u64::from(is_so));
        }
    }
    for (name, count) in &counts {
        println!("{count:>6}  {name}");
    }
    println!("{cases} cards and sheets of seed {seed} agree");
    let missing = counts.iter().filter(|(_, count)| *count == 0 && cases >= ENOUGH);
    Ok(missing.inspect(|(name, _)| println!("never reached: {name}")).count() == 0)
}
