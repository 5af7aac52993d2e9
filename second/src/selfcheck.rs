//! The models alone over generated cases: soundness is kept, refusals change nothing, and the fast model is the plain one.

use std::time::Instant;

use crate::bench::Bench;
use crate::coverage::{report, Coverage};
use crate::fast::held;
use crate::faults::Fault;
use crate::generate::Of;
use crate::lateness::{self, Difference, Totals, FARTHEST};
use crate::messages::{self, Message, MESSAGE_LENGTH};
use crate::random::Random;
use crate::replay::Replay;
use crate::run::{
    run_operation, Gave, Listed, Reading, ReplayCall, Report, Sheet, Wrote, UNTOUCHED,
};
use crate::setup::SlotEntry;
use crate::sheets::{self, Line};
use crate::state::State;
use crate::stream::{put_case, Case};

/// What an operation did wrong, if anything.
fn wrong(before: &State, bench: &Bench, gave: &Gave) -> Option<&'static str> {
    let number = match gave {
        Gave::SetUp(number) => *number,
        Gave::Feed(fed) => fed.number,
        Gave::Lent { .. } | Gave::LentReplay { .. } => return None,
        Gave::Replay(call) => return wrong_replay(before, bench, call),
        Gave::Wrote(wrote) => return wrong_write(wrote),
        Gave::Reading(reading) => return wrong_reading(reading),
        Gave::Sheet(sheet) => return wrong_sheet(sheet, *before != bench.state),
        Gave::Lateness(report) => return wrong_report(report, bench, *before != bench.state),
        Gave::Totals(listed) => return wrong_totals(listed, *before != bench.state),
    };
    if (1..=5).contains(&number) {
        return (*before != bench.state).then_some("a refusal changed the state");
    }
    bench.is_unsound().then_some("soundness was not kept")
}

/// A refused call and one after the end change nothing; another leaves a sound state and a replay state that matches.
fn wrong_replay(before: &State, bench: &Bench, call: &ReplayCall) -> Option<&'static str> {
    let number = call.replayed.fed.number;
    let changed = *before != bench.state || call.before != bench.replay;
    if (1..=5).contains(&number) {
        return changed.then_some("a refusal changed the state");
    }
    if call.before.ended != 0 {
        return (changed || number != call.before.ended).then_some("an ended replay went on");
    }
    if bench.is_unsound() {
        return Some("soundness was not kept");
    }
    if wrong_moments(bench, call) {
        return Some("a replay keeps other moments than those at which it made slots Ready");
    }
    if bench.replay_does_not_match() {
        return Some("a replay left a state that doesn't match");
    }
    let ended = if [32, 33].contains(&number) { number } else { 0 };
    (bench.replay.ended != ended).then_some("a replay ended otherwise than by its number")
}

/// A moment that a call changed is one of those at which it made the slot Ready, the last, and lies within its time.
fn wrong_moments(bench: &Bench, call: &ReplayCall) -> bool {
    let (first, last) = (call.port_before.clock, bench.state.port.clock);
    let made = &call.replayed.fed.made;
    let within = made.iter().all(|made| first <= made.moment && made.moment <= last);
    let slots = call.before.moments.iter().zip(&bench.replay.moments).enumerate();
    let kept = slots.map(|(slot, (before, after))| {
        let of_slot = made.iter().rev().find(|made| made.slot == slot);
        of_slot.map_or(*before, |made| Some(made.moment)) == *after
    });
    !within || kept.filter(|kept| !kept).count() > 0
}

/// The bench time and the difference add up to the seen time; a report changes nothing.
fn wrong_report(report: &Report, bench: &Bench, changed: bool) -> Option<&'static str> {
    let Report { seen, differences, .. } = report;
    let far = FARTHEST.unsigned_abs();
    for (slot, difference) in differences.iter().enumerate() {
        let made = bench.replay.moments[slot].filter(|_| slot < bench.setup.slot_count());
        let right = match (seen[slot], made, difference) {
            (Some(seen), Some(made), Difference::Of(of)) => {
                let distance = of.unsigned_abs();
                made.0.checked_add_signed(*of) == Some(seen.0) && distance <= far
            }
            (Some(seen), Some(made), Difference::Outside) => seen.0.abs_diff(made.0) > far,
            (None, _, Difference::None) | (_, None, Difference::None) => true,
            _ => false,
        };
        if !right {
            return Some("a difference is wrong");
        }
    }
    changed.then_some("a report changed the state")
}

/// Totals hold together, are those of the list in another order, and change nothing.
fn wrong_totals(listed: &Listed, changed: bool) -> Option<&'static str> {
    let Listed { list, totals: given } = listed;
    let backwards: Vec<i64> = list.iter().rev().copied().collect();
    if lateness::totals(&backwards, Fault::None) != *given {
        return Some("another order gives other totals");
    }
    if given.number != 0 {
        let refused = Totals { number: given.number, ..Totals::NONE };
        return (*given != refused).then_some("totals are given with a number");
    }
    let Totals { early, on_time, late, least, greatest, sum, .. } = *given;
    let count = list.len() as i128;
    let counted = u64::from(early) + u64::from(on_time) + u64::from(late) == list.len() as u64;
    let between = i128::from(least) * count <= i128::from(sum)
        && i128::from(sum) <= i128::from(greatest) * count;
    let there = list.is_empty() || list.contains(&least) && list.contains(&greatest);
    let right = counted && between && there && least <= greatest;
    (!right || changed).then_some("totals don't hold together")
}

/// Whether an operation other than a replay or the lending of its state changed that state.
fn replay_touched(before: &Replay, bench: &Bench, gave: &Gave) -> bool {
    !matches!(gave, Gave::Replay(_) | Gave::LentReplay { .. }) && *before != bench.replay
}

/// A message written is read back as it was; one refused is refused for something, and its room stays.
fn wrong_write(wrote: &Wrote) -> Option<&'static str> {
    if wrote.number != 0 {
        let same = wrote.room.iter().all(|byte| *byte == UNTOUCHED);
        return (wrote.refused.is_empty() || !same).then_some("a refused message was written");
    }
    let back = messages::read(&wrote.room, Fault::None);
    let same = back.is_ok_and(|message| {
        (message.kind.byte_0(), message.id, message.reason) == (wrote.kind, wrote.id, wrote.reason)
    });
    (!same).then_some("a message written is not read back")
}

/// A message read can be written, and then differs only in what is ignored.
fn wrong_reading(reading: &Reading) -> Option<&'static str> {
    let Ok(message) = reading.given else {
        return reading.refused.is_empty().then_some("a message is refused for nothing");
    };
    let Message { kind, id, reason } = message;
    let mut room = [UNTOUCHED; MESSAGE_LENGTH];
    let written = messages::write(kind.byte_0(), id, reason, &mut room, Fault::None);
    let told = [0, 4, 5, 7, 10, 11, 12].iter().all(|place| room[*place] == reading.bytes[*place]);
    (written.is_err() || !told).then_some("a message read is not written back")
}

/// A sheet changes no state; a refused one no code; an accepted one gives the codes of the least times that cover.
fn wrong_sheet(sheet: &Sheet, state_changed: bool) -> Option<&'static str> {
    let Sheet { taken, before, .. } = sheet;
    if state_changed {
        return Some("a sheet changed the state");
    }
    if taken.number != 0 {
        let refused = (40..=43).contains(&taken.number) && taken.line > 0;
        return (!refused || taken.entries != *before).then_some("a refused sheet changed a code");
    }
    let slots = taken.entries.iter().zip(before).enumerate();
    for (slot, (entry, before)) in slots {
        let line = taken.good.iter().find(|line| line.slot == slot as u64);
        match line {
            Some(line) if !covers(line, entry) => return Some("a code is not the least"),
            None if entry != before => return Some("a slot not named changed"),
            _ => {}
        }
    }
    (taken.line != 0).then_some("an accepted sheet names a line")
}

/// Each time is covered, and not by the time before it at the code's scale, nor could a lower scale hold it.
fn covers(line: &Line, entry: &SlotEntry) -> bool {
    line.times.iter().zip(entry.codes()).all(|(time, code)| {
        let claim = sheets::nanoseconds(*time, line.unit).map_or(u64::MAX, |claim| claim.0);
        let (value, step) = (u64::from(code.0) & 0x1FF, 32u64.pow(u32::from(code.0 >> 9)));
        let least = value * step >= claim && (value == 0 || (value - 1) * step < claim);
        let lowest = step == 1 || claim > 511 * (step / 32);
        code.is_allowed() && least && lowest
    })
}

/// Runs a case on the sound model and counts what it reaches.
pub fn check_case(case: &Case, coverage: &mut Coverage, out: &mut Vec<u8>) -> Result<(), String> {
    let mut bench = Bench::new(&case.setup, Fault::None);
    coverage.begin_case();
    for (index, operation) in case.operations.iter().enumerate() {
        let (before, replay) = (bench.state.clone(), bench.replay);
        out.clear();
        let gave = run_operation(&mut bench, operation, out);
        coverage.note(&gave, &bench);
        if replay_touched(&replay, &bench, &gave) {
            return Err(format!("operation {index}: the replay state changed"));
        }
        if let Some(what) = wrong(&before, &bench, &gave) {
            return Err(format!("operation {index}: {what}"));
        }
    }
    Ok(())
}

/// Holds the fast model to the plain one on a case, as it is and damaged; it takes no sheets.
fn hold(case: &Case, seed: u64, number: u64) -> Result<(), String> {
    held::hold(case)?;
    let damaged = held::damaged(case, &mut Random::for_case(!seed, number));
    held::hold(&damaged).map_err(|what| format!("damaged, {what}"))
}

/// Runs generated cases on the two models; true if nothing was wrong and all was reached.
pub fn selfcheck(of: Of, seed: u64, cases: u64) -> bool {
    let started = Instant::now();
    let mut coverage = Coverage::new();
    let (mut out, mut stream) = (Vec::new(), Vec::new());
    let mut stream_bytes = 0;
    for number in 0..cases {
        let case = of.case(seed, number);
        let checked = check_case(&case, &mut coverage, &mut out);
        let held = || if of == Of::Sheets { Ok(()) } else { hold(&case, seed, number) };
        if let Err(what) = checked.and_then(|()| held()) {
            println!("seed {seed} case {number}: {what}");
            return false;
        }
        stream.clear();
        put_case(&case, &mut stream);
        stream_bytes += stream.len();
        if number % 20_000 == 19_999 {
            eprintln!("{} cases", number + 1);
        }
    }
    let complete = report(&coverage, of);
    let seconds = started.elapsed().as_secs_f64();
    println!("{cases} cases of seed {seed}, {stream_bytes} stream bytes, {seconds:.1} s");
    complete
}
