//! The answers of a trace or of a capture on a card: what the commands `otsnebura run --answers` and `otsnebura replay --answers`
//! write. The moments that the replay of a capture keeps.

use crate::bench::Bench;
use crate::faults::Fault;
use crate::feed::ANSWER_LENGTH;
use crate::setup::Setup;

/// The answers of a trace; none where the set-up is refused.
pub fn answers(setup: &Setup, trace: &[u8], fault: Fault) -> Vec<u8> {
    let mut bench = Bench::new(setup, fault);
    if bench.set_up() != 0 {
        return Vec::new();
    }
    let mut room = vec![0; ANSWER_LENGTH * trace.len()];
    let fed = bench.feed(trace, &mut room);
    room.truncate(fed.written);
    room
}

/// A bench that has replayed a capture in one call, and the answers; none where the set-up is refused.
fn replay<'a>(setup: &'a Setup, capture: &[u8], fault: Fault) -> Option<(Bench<'a>, Vec<u8>)> {
    let mut bench = Bench::new(setup, fault);
    if bench.set_up() != 0 {
        return None;
    }
    // A record and its stamp are five bytes or more, and have three answers at most.
    let mut room = vec![0; ANSWER_LENGTH * capture.len()];
    let replayed = bench.replay(capture, &mut room);
    room.truncate(replayed.fed.written);
    Some((bench, room))
}

/// The answers of a capture, those of its advances too.
pub fn replayed(setup: &Setup, capture: &[u8], fault: Fault) -> Vec<u8> {
    replay(setup, capture, fault).map_or_else(Vec::new, |(_, answers)| answers)
}

/// A line for each slot that a capture made Ready: the slot, and when it last did.
pub fn moments(setup: &Setup, capture: &[u8], fault: Fault) -> Vec<u8> {
    let Some((bench, _)) = replay(setup, capture, fault) else {
        return Vec::new();
    };
    let slots = bench.replay.moments.iter().take(setup.slot_count()).enumerate();
    let made = slots.filter_map(|(slot, moment)| Some((slot, (*moment)?)));
    made.map(|(slot, moment)| format!("{slot} {}\n", moment.0)).collect::<String>().into_bytes()
}
