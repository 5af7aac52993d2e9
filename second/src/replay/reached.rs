//! Counters of what replays have reached.

use super::{broken_clauses, Replay, Step, Ticks, BACK, CLAUSES, NEVER_ALONE, STAMP_BYTES};
use crate::bench::{Answer, Bench};
use crate::coverage::STATUSES;
use crate::faults::Fault;
use crate::records::{record_length, ADVANCE};
use crate::run::{Gave, ReplayCall};
use crate::sound;
use crate::stream::MOST_BYTES;

const NUMBERS: [u8; 10] = [0, 1, 2, 3, 4, 5, 30, 31, 32, 33];

/// A call, and how it left things.
struct Call<'a> {
    call: &'a ReplayCall,
    number: u8,
    after: Replay,
    carries: bool,
    sound: bool,
}

impl Call<'_> {
    fn before(&self) -> &Replay {
        &self.call.before
    }

    /// The byte at which the call stopped.
    fn next_byte(&self) -> Option<u8> {
        self.call.input.get(self.call.replayed.fed.consumed).copied()
    }

    fn is_empty(&self) -> bool {
        self.call.input.is_empty()
    }

    fn lacks_room(&self) -> bool {
        self.call.room - self.call.replayed.fed.written < 8
    }

    fn was_broken(&self) -> bool {
        self.call.port_before.broken
    }

    /// The whole stamp that the call left, if any.
    fn stamp_left(&self) -> Option<Step> {
        self.after.step(Fault::None)
    }

    fn ticks_left(&self) -> Option<Ticks> {
        self.stamp_left().and_then(Step::ticks)
    }

    /// How many advances the stamp has that was left.
    fn due(&self) -> usize {
        self.stamp_left().map_or(0, |step| step.advances(Fault::None).len())
    }

    fn answered(&self) -> usize {
        usize::from(self.after.answered)
    }

    /// Whether some advance of the stamp that was left was answered in an earlier call.
    fn answered_before(&self) -> bool {
        self.before().answered > 0 && self.call.replayed.steps.is_empty()
    }

    fn gives(&self, number: u8) -> bool {
        self.number == number
    }

    /// Whether the call ended the replay with this number.
    fn ends(&self, number: u8) -> bool {
        self.gives(number) && self.before().ended == 0
    }

    /// Whether the replay had ended with this number.
    fn had_ended(&self, number: u8) -> bool {
        self.gives(number) && self.before().ended == number
    }

    /// 30 at a kind byte, with so many advances due and answered.
    fn lacks_room_at_kind(&self) -> bool {
        self.gives(30) && self.stamp_left().is_some()
    }

    fn lacks_room_at_advance(&self) -> bool {
        self.lacks_room_at_kind() && self.answered() < self.due()
    }

    fn lacks_room_after_advances(&self) -> bool {
        self.lacks_room_at_kind() && self.answered() == self.due() && self.due() > 0
    }

    /// 31 at a kind byte that no record has.
    fn breaks(&self) -> bool {
        self.gives(31) && !self.was_broken()
    }
}

type Test = fn(&Call) -> bool;

/// What a call gives, and where.
const PLACES: [(&str, Test); 62] = [
    ("gives 0 for an empty input", |call| call.gives(0) && call.is_empty()),
    ("gives 0 within a stamp, 1 byte taken", |call| call.gives(0) && call.after.taken == 1),
    ("gives 0 within a stamp, 2 bytes taken", |call| call.gives(0) && call.after.taken == 2),
    ("gives 0 within a stamp, 3 bytes taken", |call| call.gives(0) && call.after.taken == 3),
    ("gives 0 before a kind byte, no advance due", |call| {
        call.gives(0) && call.stamp_left().is_some() && call.due() == 0
    }),
    ("gives 0 before a kind byte, an advance due", |call| {
        call.gives(0) && call.due() > 0 && call.answered() == 0
    }),
    ("gives 0 before a kind byte for an empty input, advances answered", |call| {
        call.gives(0) && call.is_empty() && call.answered() > 0
    }),
    ("gives 0 before a kind byte, the recorder went back", |call| {
        call.gives(0) && call.stamp_left().is_some_and(|step| step.is_back(Fault::None))
    }),
    ("gives 0 within a record", |call| call.gives(0) && call.carries),
    ("gives 0 at the end of a record", |call| {
        call.gives(0) && !call.carries && call.after.taken == 0 && call.after.earlier.is_some()
    }),
    ("gives 0, a record that was carried", |call| {
        call.gives(0) && call.call.port_before.carried_count > 0 && !call.carries
    }),
    ("gives 1 to 4 to a replay that has ended", |call| {
        (1..=4).contains(&call.number) && call.before().ended != 0
    }),
    ("gives 5 by the port", |call| call.gives(5) && !call.sound),
    ("gives 5 by the port to a replay that has ended", |call| {
        call.gives(5) && !call.sound && [32, 33].contains(&call.before().ended)
    }),
    ("gives 5 by the match alone", |call| call.gives(5) && call.sound),
    ("gives 5 by the match to a replay that has ended", |call| {
        call.gives(5) && call.sound && [32, 33].contains(&call.before().ended)
    }),
    ("gives 5 by the match on a broken port", |call| {
        call.gives(5) && call.sound && call.was_broken()
    }),
    ("gives 30 at the one advance", |call| call.lacks_room_at_advance() && call.due() == 1),
    ("gives 30 at the first advance of two", |call| {
        call.lacks_room_at_advance() && call.due() == 2 && call.answered() == 0
    }),
    ("gives 30 at the second advance", |call| {
        call.lacks_room_at_advance() && call.answered() == 1 && !call.answered_before()
    }),
    ("gives 30 at the second advance, the first answered in an earlier call", |call| {
        call.lacks_room_at_advance() && call.answered() == 1 && call.answered_before()
    }),
    ("gives 30 at an advance, of a kind that is unknown", |call| {
        call.lacks_room_at_advance() && call.next_byte().and_then(record_length).is_none()
    }),
    ("gives 30 at an advance after other records", |call| {
        call.lacks_room_at_advance() && !call.call.replayed.steps.is_empty()
    }),
    ("gives 30 at a record's last byte", |call| call.gives(30) && call.carries),
    ("gives 30 at a record of one byte, no advance due", |call| {
        call.lacks_room_at_kind() && call.due() == 0
    }),
    ("gives 30 at a record of one byte after its advance", |call| {
        call.lacks_room_after_advances() && call.due() == 1 && !call.answered_before()
    }),
    ("gives 30 at a record of one byte after its two advances", |call| {
        call.lacks_room_after_advances() && call.due() == 2 && !call.answered_before()
    }),
    ("gives 30 at a record of one byte, its advances answered in an earlier call", |call| {
        call.lacks_room_after_advances() && call.answered_before()
    }),
    ("gives 31 on a broken port", |call| call.gives(31) && call.was_broken()),
    ("gives 31 on a broken port for an empty input", |call| {
        call.gives(31) && call.was_broken() && call.is_empty()
    }),
    ("gives 31 on a broken port, at a kind byte", |call| {
        call.gives(31) && call.was_broken() && call.stamp_left().is_some()
    }),
    ("gives 31 at the first stamp", |call| {
        call.breaks() && call.after.earlier.is_none() && call.stamp_left().is_some()
    }),
    ("gives 31, no advance due", |call| {
        call.breaks() && call.after.earlier.is_some() && call.due() == 0
    }),
    ("gives 31 after an advance", |call| {
        call.breaks() && call.due() == 1 && !call.answered_before()
    }),
    ("gives 31 after two advances", |call| {
        call.breaks() && call.due() == 2 && !call.answered_before()
    }),
    ("gives 31 after advances of an earlier call", |call| call.breaks() && call.answered_before()),
    ("gives 31 without room", |call| call.breaks() && call.lacks_room()),
    ("gives 32, a difference of 2^31", |call| call.ends(32) && call.ticks_left() == Some(BACK)),
    ("gives 32, a difference of 2^31 + 1", |call| {
        call.ends(32) && call.ticks_left() == Some(Ticks(BACK.0 + 1))
    }),
    ("gives 32, a difference of 2^32 - 1", |call| {
        call.ends(32) && call.ticks_left() == Some(Ticks(u32::MAX))
    }),
    ("gives 32, the stamp is the higher number", |call| {
        call.ends(32) && call.stamp_left().is_some_and(|step| !wraps(&step))
    }),
    ("gives 32 at a kind 01", |call| call.ends(32) && call.next_byte() == Some(ADVANCE)),
    ("gives 32 at a kind that is unknown", |call| {
        call.ends(32) && call.next_byte().and_then(record_length).is_none()
    }),
    ("gives 32 without room", |call| call.ends(32) && call.lacks_room()),
    ("gives 32 after other records", |call| call.ends(32) && !call.call.replayed.steps.is_empty()),
    ("gives 32, the stamp of an earlier call", |call| {
        call.ends(32) && usize::from(call.before().taken) == STAMP_BYTES
    }),
    ("gives 32 again", |call| call.had_ended(32)),
    ("gives 32 again for an empty input", |call| call.had_ended(32) && call.is_empty()),
    ("gives 32 again on a broken port", |call| call.had_ended(32) && call.was_broken()),
    ("gives 33 at the first stamp", |call| call.ends(33) && call.after.earlier.is_none()),
    ("gives 33, a difference of 0", |call| call.ends(33) && call.ticks_left() == Some(Ticks(0))),
    ("gives 33, an advance due", |call| call.ends(33) && call.due() == 1 && call.answered() == 0),
    ("gives 33, two advances due", |call| call.ends(33) && call.due() == 2 && call.answered() == 0),
    ("gives 33, the advance answered", |call| {
        call.ends(33) && call.due() == 1 && call.answered() == 1
    }),
    ("gives 33, one of two advances answered", |call| {
        call.ends(33) && call.due() == 2 && call.answered() == 1
    }),
    ("gives 33, two advances answered", |call| call.ends(33) && call.answered() == 2),
    ("gives 33 without room for an advance due", |call| {
        call.ends(33) && call.answered() < call.due() && call.lacks_room()
    }),
    ("gives 33 after other records", |call| call.ends(33) && !call.call.replayed.steps.is_empty()),
    ("gives 33 again", |call| call.had_ended(33)),
    ("gives 33 again for an empty input", |call| call.had_ended(33) && call.is_empty()),
    ("gives 33 again on a broken port", |call| call.had_ended(33) && call.was_broken()),
    ("of 4,096 bytes with 4,096 of room", |call| {
        call.call.input.len() == MOST_BYTES && call.call.room == MOST_BYTES
    }),
];

type StepTest = fn(&Step) -> bool;

fn by(step: &Step, ticks: u32) -> bool {
    step.ticks() == Some(Ticks(ticks))
}

fn wraps(step: &Step) -> bool {
    step.earlier.is_some_and(|earlier| step.stamp.0 < earlier.0)
}

fn advances(step: &Step) -> usize {
    step.advances(Fault::None).len()
}

/// Stamps whose kind byte was consumed.
const STEPS: [(&str, StepTest); 18] = [
    ("a first stamp of 0", |step| step.earlier.is_none() && step.stamp.0 == 0),
    ("a first stamp of 2^32 - 1", |step| step.earlier.is_none() && step.stamp.0 == u32::MAX),
    ("a first stamp of 2^31", |step| step.earlier.is_none() && step.stamp.0 == BACK.0),
    ("another first stamp", |step| step.earlier.is_none()),
    ("equal stamps", |step| by(step, 0)),
    ("a difference of 1", |step| by(step, 1)),
    ("a difference of 1,073,741,823, one advance", |step| by(step, 1_073_741_823)),
    ("a difference of 1,073,741,824, two advances", |step| by(step, 1_073_741_824)),
    ("a difference of 1,073,741,825", |step| by(step, 1_073_741_825)),
    ("a difference of 2^31 - 2", |step| by(step, BACK.0 - 2)),
    ("a difference of 2^31 - 1", |step| by(step, BACK.0 - 1)),
    ("one advance without a wrap", |step| advances(step) == 1 && !wraps(step)),
    ("one advance with a wrap", |step| advances(step) == 1 && wraps(step)),
    ("two advances without a wrap", |step| advances(step) == 2 && !wraps(step)),
    ("two advances with a wrap", |step| advances(step) == 2 && wraps(step)),
    ("a wrap to 0", |step| wraps(step) && step.stamp.0 == 0),
    ("a wrap by 1 tick", |step| wraps(step) && by(step, 1)),
    ("a wrap by 2^31 - 1", |step| wraps(step) && by(step, BACK.0 - 1)),
];

/// What the advances of a call came to.
const ADVANCES: [&str; 6] = [
    "an advance answered 22",
    "two advances, the first answered 22",
    "two advances, the second answered 22",
    "two advances answered 22",
    "an advance in which FRS are queued",
    "a second advance in which FRS are queued",
];

const AFTER_FEED: &str = "after a feed, a record that it began";
const AFTER_FEED_5: &str = "gives 5 after a feed that left bytes";
const AFTER_FEED_STAMP: &str = "after a feed, a stamp begun before it";
const AFTER_SET_UP: &str = "after a set-up, a stamp begun before it";
const AFTER_LEND: &str = "after a lent state, a stamp begun before it";
const SAME_KIND: &str = "after a 30 at an advance, the same kind byte";
const OTHER_KIND: &str = "after a 30 at an advance, another kind byte";
const KIND_01: &str = "after a 30 at an advance, a kind byte 01";
const UNKNOWN_KIND: &str = "after a 30 at an advance, a kind byte that is unknown";
const AFTER_31: &str = "after a 31";
const NOISE: &str = "state lent with bytes that are ignored";

/// What stands between calls.
const BETWEEN: [&str; 11] = [
    AFTER_FEED,
    AFTER_FEED_5,
    AFTER_FEED_STAMP,
    AFTER_SET_UP,
    AFTER_LEND,
    SAME_KIND,
    OTHER_KIND,
    KIND_01,
    UNKNOWN_KIND,
    AFTER_31,
    NOISE,
];
/// What cases of captures alone can't reach.
const NOT_ALONE: [&str; 4] =
    [AFTER_FEED, AFTER_FEED_5, AFTER_FEED_STAMP, "of 4,096 bytes with 4,096 of room"];

/// What came since the last replay call of a case.
#[derive(Clone, Copy, Default)]
struct Since {
    fed: bool,
    set_up: bool,
    lent: bool,
    lent_replay: bool,
    /// The kind byte at which the last call lacked room for an advance, with nothing since then.
    lacked_room_at: Option<u8>,
    broke: bool,
}

/// Counters, each of something that must come up.
pub struct Reached {
    numbers: [u64; 64],
    places: [u64; PLACES.len()],
    clauses: [u64; CLAUSES.len()],
    steps: [u64; STEPS.len()],
    advances: [u64; ADVANCES.len()],
    between: [u64; BETWEEN.len()],
    answers: [[u64; 32]; 16],
    since: Since,
}

impl Reached {
    pub fn new() -> Reached {
        Reached {
            numbers: [0; 64],
            places: [0; PLACES.len()],
            clauses: [0; CLAUSES.len()],
            steps: [0; STEPS.len()],
            advances: [0; ADVANCES.len()],
            between: [0; BETWEEN.len()],
            answers: [[0; 32]; 16],
            since: Since::default(),
        }
    }

    /// A case begins.
    pub fn begin_case(&mut self) {
        self.since = Since::default();
    }

    /// Counts a replay, or what stands between replays; the bench is as the operation left it.
    pub fn note(&mut self, gave: &Gave, bench: &Bench) {
        match gave {
            Gave::Replay(call) => return self.note_call(call, bench),
            Gave::Feed(fed) if fed.consumed > 0 => self.since.fed = true,
            Gave::SetUp(0) => self.since.set_up = true,
            Gave::Lent { .. } => self.since.lent = true,
            Gave::LentReplay { noise } => {
                self.since.lent_replay = true;
                self.count_between(NOISE, *noise);
            }
            _ => return,
        }
        (self.since.lacked_room_at, self.since.broke) = (None, false);
    }

    fn count_between(&mut self, name: &str, reached: bool) {
        let index = BETWEEN.iter().position(|one| *one == name).expect("every name is listed");
        self.between[index] += u64::from(reached);
    }

    fn note_call(&mut self, given: &ReplayCall, bench: &Bench) {
        let number = given.replayed.fed.number;
        let of_set_up = (1..=4).contains(&number);
        let sound = !of_set_up && sound::broken_clauses(&bench.state).is_empty();
        let carries = bench.state.port.carried_count > 0;
        let call = Call { call: given, number, after: bench.replay, carries, sound };
        self.numbers[usize::from(number)] += 1;
        for ((_, test), count) in PLACES.iter().zip(&mut self.places) {
            *count += u64::from(test(&call));
        }
        if number == 5 && sound {
            self.note_clause(bench);
        }
        for step in &given.replayed.steps {
            for ((_, test), count) in STEPS.iter().zip(&mut self.steps) {
                *count += u64::from(test(step));
            }
        }
        self.note_records(&given.replayed.fed.ran);
        self.note_between(&call);
        let lacked_room_at = call.next_byte().filter(|_| call.lacks_room_at_advance());
        self.since = Since { lacked_room_at, broke: call.breaks(), ..Since::default() };
    }

    /// Only a clause broken alone counts.
    fn note_clause(&mut self, bench: &Bench) {
        if let [alone] = broken_clauses(&bench.replay, &bench.state.port)[..] {
            let index = CLAUSES.iter().position(|(clause, _)| *clause == alone);
            self.clauses[index.expect("every clause is listed")] += 1;
        }
    }

    fn note_records(&mut self, ran: &[(u8, Answer)]) {
        for (kind, answer) in ran {
            self.answers[usize::from(*kind)][usize::from(answer.status)] += 1;
        }
        let is_22 = |answer: &Answer| answer.status == 22;
        let mut count = |place: usize, reached: bool| self.advances[place] += u64::from(reached);
        for (_, answer) in ran.iter().filter(|(kind, _)| *kind == ADVANCE) {
            count(0, is_22(answer));
            count(4, answer.queued > 0);
        }
        // Two advances in a row are those of one stamp.
        for pair in ran.windows(2) {
            if let [(ADVANCE, first), (ADVANCE, second)] = pair {
                count(1, is_22(first) && !is_22(second));
                count(2, !is_22(first) && is_22(second));
                count(3, is_22(first) && is_22(second));
                count(5, second.queued > 0);
            }
        }
    }

    fn note_between(&mut self, call: &Call) {
        let Since { fed, set_up, lent, lent_replay, lacked_room_at, broke } = self.since;
        let before = call.before();
        let begun = before.taken > 0 && before.ended == 0 && !lent_replay;
        let refused = (1..=5).contains(&call.number);
        let goes_on = !refused && !call.was_broken();
        let carried = call.call.port_before.carried_count > 0;
        self.count_between(AFTER_FEED, fed && !lent && carried && goes_on && !call.is_empty());
        self.count_between(AFTER_FEED_5, fed && !lent && !lent_replay && call.gives(5) && carried);
        self.count_between(AFTER_FEED_STAMP, fed && begun && goes_on);
        self.count_between(AFTER_SET_UP, set_up && !lent && begun && goes_on);
        self.count_between(AFTER_LEND, lent && begun && goes_on);
        self.count_between(AFTER_31, broke);
        let (Some(kind), Some(next)) = (lacked_room_at, call.call.input.first().copied()) else {
            return;
        };
        self.count_between(SAME_KIND, kind == next);
        self.count_between(OTHER_KIND, kind != next && record_length(next).is_some());
        self.count_between(KIND_01, next == ADVANCE);
        self.count_between(UNKNOWN_KIND, record_length(next).is_none());
    }

    /// The rows that cases of captures alone can reach.
    pub fn rows_alone(&self) -> Vec<(String, u64)> {
        let mut rows = Vec::new();
        self.rows(&mut rows);
        rows.retain(|(name, _)| !NOT_ALONE.iter().any(|place| name.ends_with(place)));
        rows
    }

    pub fn rows(&self, rows: &mut Vec<(String, u64)>) {
        let mut add = |name: String, count: u64| rows.push((format!("replay {name}"), count));
        for number in NUMBERS {
            add(format!("gives {number}"), self.numbers[usize::from(number)]);
        }
        for ((name, _), count) in PLACES.iter().zip(self.places) {
            add((*name).to_string(), count);
        }
        for ((clause, name), count) in CLAUSES.iter().zip(self.clauses) {
            if !NEVER_ALONE.contains(clause) {
                add(format!("gives 5 by this alone: {name}"), count);
            }
        }
        for ((name, _), count) in STEPS.iter().zip(self.steps) {
            add(format!("with {name}"), count);
        }
        for (name, count) in ADVANCES.iter().zip(self.advances) {
            add(format!("with {name}"), count);
        }
        for (name, count) in BETWEEN.iter().zip(self.between) {
            add((*name).to_string(), count);
        }
        for (kind, name, statuses) in STATUSES {
            for status in statuses {
                let count = self.answers[usize::from(kind)][usize::from(*status)];
                add(format!("with kind {kind:02X} {name}, status {status}"), count);
            }
        }
    }
}
