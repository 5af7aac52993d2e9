//! The fast model held to the plain one, operation by operation: number, counts, every answer byte and the whole state.

use crate::bench::Bench;
use crate::fast;
use crate::faults::Fault;
use crate::random::Random;
use crate::run::{run_operation, UNTOUCHED};
use crate::setup::Setup;
use crate::state::State;
use crate::stream::{put_image, Case, Operation};

/// Runs one operation on the fast model and writes its output as the case stream has it.
fn run_fast(setup: &Setup, state: &mut State, operation: &Operation, out: &mut Vec<u8>) {
    match operation {
        Operation::SetUp => out.push(fast::set_up(setup, state)),
        Operation::Feed { room, input } => {
            let mut answers = vec![UNTOUCHED; usize::from(*room)];
            let fed = fast::feed(setup, state, input, &mut answers);
            out.push(fed.number);
            out.extend((fed.consumed as u32).to_le_bytes());
            out.extend((fed.written as u32).to_le_bytes());
            out.extend(&answers);
        }
        Operation::Lend { state: lent, .. } => {
            *state = (**lent).clone();
            return;
        }
        _ => return,
    }
    put_image(state, out);
}

/// The fast model has no message reader and writer apart from a trace, no reader of sheets and no replay.
fn is_of_both(operation: &Operation) -> bool {
    matches!(operation, Operation::SetUp | Operation::Feed { .. } | Operation::Lend { .. })
}

/// What the images leave out: a refusal leaves the port as it was, and other calls leave zeros past the carried bytes.
fn carried_wrong(before: &State, after: &State, number: u8) -> bool {
    let refused = (1..=5).contains(&number) || before.port.broken && after.port.broken;
    if refused {
        return before != after;
    }
    let count = usize::from(after.port.carried_count);
    after.port.carried[count..].iter().any(|byte| *byte != 0)
}

/// Runs a case on both models; says at which operation they differ. Sheets and captures are taken by the plain one for both.
pub fn hold(case: &Case) -> Result<(), String> {
    let mut plain = Bench::new(&case.setup, Fault::None);
    let mut state = State::zero(&case.setup);
    let (mut wanted, mut given) = (Vec::new(), Vec::new());
    for (index, operation) in case.operations.iter().enumerate() {
        wanted.clear();
        given.clear();
        let before = state.clone();
        run_operation(&mut plain, operation, &mut wanted);
        if !is_of_both(operation) {
            if matches!(operation, Operation::Replay { .. }) {
                state.clone_from(&plain.state);
            }
            continue;
        }
        run_fast(&plain.setup, &mut state, operation, &mut given);
        if wanted != given {
            return Err(format!("operation {index}: the fast model gives something else"));
        }
        let feeds = matches!(operation, Operation::Feed { .. });
        if feeds && carried_wrong(&before, &state, given[0]) {
            return Err(format!("operation {index}: the fast model leaves other carried bytes"));
        }
    }
    Ok(())
}

/// The case with bytes of its traces changed, left out and put in, and with other rooms.
pub fn damaged(case: &Case, random: &mut Random) -> Case {
    let mut case = case.clone();
    for operation in &mut case.operations {
        if let Operation::Feed { room, input } = operation {
            for _ in 0..random.below(4) {
                damage(random, input);
            }
            if random.chance(20) {
                *room = random.below(64) as u16;
            }
        }
    }
    case
}

fn damage(random: &mut Random, input: &mut Vec<u8>) {
    let place = random.below(input.len() + 1);
    match random.below(4) {
        0 => input.insert(place, random.u8()),
        1 => input.insert(place, random.below(14) as u8),
        _ if place == input.len() => {}
        2 => {
            input.remove(place);
        }
        _ => input[place] ^= 1 << random.below(8),
    }
}

#[cfg(test)]
mod tests {
    use super::*;
    use crate::generate;

    #[test]
    fn fast_model_is_the_plain_one() {
        for number in 0..10_000 {
            let case = generate::case(11, number);
            hold(&case).unwrap_or_else(|what| panic!("case {number}: {what}"));
            let damaged = damaged(&case, &mut Random::for_case(12, number));
            hold(&damaged).unwrap_or_else(|what| panic!("case {number}, damaged: {what}"));
        }
    }
}
