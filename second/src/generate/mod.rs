//! Cases made from a seed and a case number.

pub mod captures;
pub mod cards;
mod damage;
pub mod lateness;
mod messages;
pub mod records;
mod replays;
mod script;
pub mod setups;
pub mod sheets;
pub mod states;

use crate::random::Random;
use crate::setup::Setup;
use crate::stream::{Case, Operation};
use script::Script;

/// The case with this number of this seed.
pub fn case(seed: u64, number: u64) -> Case {
    let mut random = Random::for_case(seed, number);
    match random.weighted(&[140, 160, 280, 375, 40, 50, 5, 60, 80, 160, 140, 130, 4, 130, 6]) {
        0 => bad_set_up(&mut random),
        1 => unsound_state(&mut random),
        2 => made_up_state(&mut random),
        3 => reached_state(&mut random),
        4 => never_set_up(&mut random),
        5 => messages_alone(&mut random),
        6 => long_trace(&mut random),
        7 => sheets_and_traces(&mut random),
        8 => sheets_alone(&mut random),
        9 => captures_and_traces(&mut random),
        10 => lent_replay(&mut random),
        11 => captures_alone(&mut random),
        12 => long_capture(&mut random),
        13 => lateness_alone(&mut random),
        _ => long_lists(&mut random),
    }
}

/// The case with this number of this seed that is made of lists, and of replays with reports, alone.
pub fn case_of_lateness(seed: u64, number: u64) -> Case {
    lateness_alone(&mut Random::for_case(seed.rotate_left(32), number))
}

/// The case with this number of this seed that is made of captures alone.
pub fn case_of_captures(seed: u64, number: u64) -> Case {
    captures_alone(&mut Random::for_case(!seed.rotate_left(32), number))
}

/// The case with this number of this seed that is made of sheets alone.
pub fn case_of_sheets(seed: u64, number: u64) -> Case {
    sheets_alone(&mut Random::for_case(!seed, number))
}

/// What cases are made of.
#[derive(Clone, Copy, PartialEq, Eq, Debug)]
pub enum Of {
    Everything,
    Sheets,
    Captures,
    Lateness,
}

impl Of {
    /// The case with this number of this seed.
    pub fn case(self, seed: u64, number: u64) -> Case {
        match self {
            Of::Everything => case(seed, number),
            Of::Sheets => case_of_sheets(seed, number),
            Of::Captures => case_of_captures(seed, number),
            Of::Lateness => case_of_lateness(seed, number),
        }
    }
}

fn finish(setup: Setup, build: impl FnOnce(&mut Script)) -> Case {
    let mut script = Script::new(&setup);
    build(&mut script);
    let operations: Vec<Operation> = script.into_operations();
    Case { setup, operations }
}

/// A set-up that is refused, by set-up and by feed.
fn bad_set_up(random: &mut Random) -> Case {
    let setup = setups::bad(random);
    finish(setup, |script| {
        if random.chance(70) {
            script.set_up();
        }
        if random.chance(20) {
            script.lend_anything(random);
        }
        if random.chance(15) {
            script.sheet(random);
        }
        script.feed_something(random);
        if random.chance(50) {
            script.replay_on_any_state(random);
            script.lateness(random);
        }
        if random.chance(30) {
            script.set_up();
        }
    })
}

/// A state with one clause of refusal 5 broken, then perhaps set up anew.
fn unsound_state(random: &mut Random) -> Case {
    let setup = setups::good(random);
    finish(setup, |script| {
        let clause = states::any_clause(random);
        let state = states::unsound(random, script.setup(), clause);
        script.lend(random, state);
        script.feed_something(random);
        if random.chance(40) {
            script.replay_on_any_state(random);
            script.lateness(random);
        }
        if random.chance(25) {
            script.set_up();
            script.feed_trace(random, 4);
        }
    })
}

/// A sound state made up, then traces.
fn made_up_state(random: &mut Random) -> Case {
    let setup = setups::good(random);
    finish(setup, |script| {
        if random.chance(20) {
            script.set_up();
        }
        let state = states::sound(random, script.setup());
        script.lend(random, state);
        let records = 1 + random.below(16);
        script.feed_trace(random, records);
        if random.chance(10) {
            script.set_up();
            script.feed_trace(random, 3);
        }
    })
}

/// A set-up, then traces and scenarios.
fn reached_state(random: &mut Random) -> Case {
    let setup = setups::good(random);
    finish(setup, |script| {
        script.set_up();
        if random.chance(60) {
            script.scenario(random);
        }
        let records = 1 + random.below(24);
        script.feed_trace(random, records);
        if random.chance(5) {
            script.set_up();
            script.feed_trace(random, 4);
        }
    })
}

/// Messages written and read, on any set-up, and now and then a feed after them.
fn messages_alone(random: &mut Random) -> Case {
    let setup = if random.chance(20) { setups::bad(random) } else { setups::good(random) };
    finish(setup, |script| {
        for _ in 0..4 + random.below(24) {
            script.message(random);
        }
        if random.chance(30) {
            script.set_up();
            script.message(random);
            script.feed_something(random);
        }
    })
}

/// Hundreds of records in one case.
fn long_trace(random: &mut Random) -> Case {
    let setup = setups::good(random);
    finish(setup, |script| {
        script.set_up();
        for _ in 0..1 + random.below(3) {
            script.scenario(random);
            let records = 50 + random.below(400);
            script.feed_trace(random, records);
        }
    })
}

/// Everything lent at 0 and fed without a set-up.
fn never_set_up(random: &mut Random) -> Case {
    let setup = setups::good(random);
    finish(setup, |script| {
        let records = 1 + random.below(12);
        script.feed_trace(random, records);
    })
}

/// Sheets before and after a set-up and between feeds; half the time one that mends a code.
fn sheets_and_traces(random: &mut Random) -> Case {
    let mends = random.chance(40);
    let setup = if mends { setups::with_bad_code(random) } else { setups::good(random) };
    finish(setup, |script| {
        if random.chance(40) {
            script.set_up();
        }
        for _ in 0..random.below(3) {
            script.sheet(random);
        }
        if mends || random.chance(30) {
            script.sheet_of_all_slots(random);
        }
        script.set_up();
        script.scenario(random);
        script.sheet(random);
        script.scenario(random);
        let records = 1 + random.below(8);
        script.feed_trace(random, records);
    })
}

/// Sheets alone, with nothing lent, so that the case is small.
fn sheets_alone(random: &mut Random) -> Case {
    let setup = setups::with_nothing_lent(random);
    let count = 4 + random.below(12);
    let texts = (0..count).map(|_| sheets::any(random, setup.slots));
    let operations = texts.map(Operation::Sheet).collect();
    Case { setup, operations }
}

/// Captures after a set-up or on a sound state, with feeds, set-ups and lent states between their calls.
fn captures_and_traces(random: &mut Random) -> Case {
    let setup = setups::good(random);
    finish(setup, |script| {
        if random.chance(60) {
            script.set_up();
        } else {
            let state = states::sound(random, script.setup());
            script.lend(random, state);
            script.lend_matching(random);
        }
        if random.chance(60) {
            script.replay_scenario(random);
        }
        for _ in 0..1 + random.below(3) {
            script.between_replays(random);
            let records = 1 + random.below(8);
            script.replay_capture(random, records);
            if random.chance(50) {
                script.lateness(random);
            }
        }
        script.after_the_end(random);
        if random.chance(30) {
            script.lateness(random);
        }
    })
}

/// A replay state lent that matches, or one with a clause broken; then replays.
fn lent_replay(random: &mut Random) -> Case {
    let setup = setups::good(random);
    finish(setup, |script| {
        for _ in 0..1 + random.below(2) {
            script.lend_replay_state(random);
            let records = random.below(4);
            script.replay_capture(random, records);
            if random.chance(40) {
                script.lateness(random);
            }
        }
        script.after_the_end(random);
    })
}

/// Hundreds of stamped records in one call, up to 4,096 bytes and as much room.
fn long_capture(random: &mut Random) -> Case {
    let setup = setups::small(random);
    finish(setup, |script| {
        script.set_up();
        script.replay_scenario(random);
        script.replay_at_length(random);
    })
}

/// Captures alone on small set-ups, some ten calls a case.
fn captures_alone(random: &mut Random) -> Case {
    let bad = random.chance(4);
    let setup = if bad { setups::small_and_bad(random) } else { setups::small(random) };
    finish(setup, |script| {
        script.set_up();
        if bad {
            for _ in 0..1 + random.below(4) {
                script.replay_on_any_state(random);
            }
            return;
        }
        if random.chance(50) {
            script.replay_scenario(random);
        }
        while script.replays() < 8 {
            script.begin_anew(random);
            let records = 1 + random.below(6);
            script.replay_capture(random, records);
        }
        script.after_the_end(random);
    })
}

/// Lists as long as lists may be, or nearly, or a little longer, with nothing lent.
fn long_lists(random: &mut Random) -> Case {
    let setup = setups::with_nothing_lent(random);
    let lists = (0..3).map(|_| lateness::long_list(random));
    let operations = lists.map(Operation::Totals).collect();
    Case { setup, operations }
}

/// Lists, and replays with reports after them, on small set-ups; some ten of both a case.
fn lateness_alone(random: &mut Random) -> Case {
    let bad = random.chance(4);
    let setup = if bad { setups::quick_and_bad(random) } else { setups::quick(random) };
    finish(setup, |script| {
        script.set_up();
        if bad {
            return script.reports_on_refused(random);
        }
        while script.replays_and_lists() < 10 {
            if random.chance(35) {
                script.totals(random);
                continue;
            }
            if random.chance(50) {
                script.between_ways(random);
                if random.chance(30) {
                    script.lateness(random);
                }
            }
            script.replay_ways(random);
            script.lateness(random);
        }
    })
}
