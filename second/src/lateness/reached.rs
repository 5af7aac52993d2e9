//! Counters of what kept moments, reports by slot and lists have reached.

use super::{is_outside, Difference, FARTHEST, MOST_DIFFERENCES, OUTSIDE, TOO_MANY};
use crate::bench::Bench;
use crate::faults::Fault;
use crate::feed::Fed;
use crate::records::{ADVANCE, COLD_RESET, LINK_DOWN, LINK_UP};
use crate::replay::{Made, Replay};
use crate::run::{Gave, Listed, ReplayCall, Report};
use crate::setup::MOST_SLOTS;
use crate::state::{Cause, Status};
use crate::stream::MOST_LISTED;
use crate::times::{Nanos, LAST_MOMENT};

/// A slot that became Ready in a replay call.
struct Event<'a> {
    made: &'a Made,
    /// What the call made Ready before it, and after it.
    earlier: &'a [Made],
    later: &'a [Made],
    call: &'a ReplayCall,
    bench: &'a Bench<'a>,
}

impl Event<'_> {
    fn by(&self, cause: Cause, at_once: bool) -> bool {
        let same = match (self.made.cause, cause) {
            (Cause::Flr { .. }, Cause::Flr { .. }) => true,
            (one, other) => one == other,
        };
        same && self.made.at_once() == at_once
    }

    fn before(&self) -> Option<Nanos> {
        self.call.before.moments[self.made.slot]
    }

    /// Whether the record at this distance from the one that made it Ready is an advance too.
    fn advance_at(&self, distance: isize) -> bool {
        let place = self.made.by.number.checked_add_signed(distance);
        let ran = &self.call.replayed.fed.ran;
        let at = |place: Option<usize>| place.and_then(|place| ran.get(place));
        !self.made.at_once() && at(place).is_some_and(|(kind, _)| *kind == ADVANCE)
    }

    /// Whether an earlier event of the same record fits.
    fn beside(&self, fits: impl Fn(&Made) -> bool) -> bool {
        let same_record = |other: &&Made| other.by.number == self.made.by.number;
        self.earlier.iter().filter(same_record).any(fits)
    }

    fn is_again(&self) -> bool {
        self.earlier.iter().any(|other| other.slot == self.made.slot)
    }

    fn is_last(&self) -> bool {
        self.later.iter().all(|other| other.slot != self.made.slot)
    }

    fn status(&self) -> Status {
        self.bench.state.statuses[self.made.slot]
    }

    /// Whether the slot is Down at the call's end, last by a record of this kind.
    fn went_down_by(&self, kind: u8) -> bool {
        let downs = [LINK_DOWN, COLD_RESET];
        let ran = self.call.replayed.fed.ran[self.made.by.number..].iter();
        let last = ran.rev().find(|(kind, answer)| downs.contains(kind) && answer.status == 0);
        self.is_last()
            && self.status() == Status::Down
            && last.is_some_and(|(last, _)| *last == kind)
    }

    fn gives(&self, number: u8) -> bool {
        self.call.replayed.fed.number == number
    }
}

const FLR: Cause = Cause::Flr { end: Nanos(0) };

type EventTest = fn(&Event) -> bool;

/// Moments that a replay keeps.
const EVENTS: [(&str, EventTest); 30] = [
    ("link up, in an advance", |event| event.by(Cause::LinkUp, false)),
    ("FLR, in an advance", |event| event.by(FLR, false)),
    ("D3hot, in an advance", |event| event.by(Cause::D3hot, false)),
    ("link up, a wait of 0", |event| event.by(Cause::LinkUp, true)),
    ("FLR, a wait of 0", |event| event.by(FLR, true)),
    ("D3hot, a wait of 0", |event| event.by(Cause::D3hot, true)),
    (
        "an FLR that is in progress for less",
        |event| matches!(event.made.cause, Cause::Flr { end } if end < event.made.moment),
    ),
    ("within an advance", |event| event.made.moment < event.made.left),
    ("at an advance's end", |event| !event.made.at_once() && event.made.moment == event.made.left),
    ("the first advance of two", |event| event.advance_at(1)),
    ("the second advance of two", |event| event.advance_at(-1)),
    ("several slots at one moment of an advance", |event| {
        !event.made.at_once() && event.beside(|other| other.moment == event.made.moment)
    }),
    ("several slots at different moments of an advance", |event| {
        event.beside(|other| other.moment < event.made.moment)
    }),
    ("several slots by a wait of 0", |event| event.made.at_once() && event.beside(|_| true)),
    ("the same slot again in a call", |event| event.is_again()),
    ("the same slot again in a call, by a wait of 0", |event| {
        event.made.at_once() && event.is_again()
    }),
    ("a slot that has a moment of an earlier call", |event| event.before().is_some()),
    ("a slot that has a later moment", |event| event.before() > Some(event.made.moment)),
    ("a slot that has the same moment", |event| event.before() == Some(event.made.moment)),
    ("a slot that was Ready before the call", |event| {
        event.call.statuses_before[event.made.slot] == Status::Ready && !event.is_again()
    }),
    ("a slot that is Pending at the call's end", |event| {
        event.is_last() && matches!(event.status(), Status::Pending { .. })
    }),
    ("a slot that is Down at the call's end by link down", |event| event.went_down_by(LINK_DOWN)),
    ("a slot that is Down at the call's end by cold reset", |event| event.went_down_by(COLD_RESET)),
    ("a slot that sends no FRS", |event| !event.bench.setup.entries[event.made.slot].sends_frs),
    ("a moment of 10^15", |event| event.made.moment == LAST_MOMENT),
    ("a moment of 0", |event| event.made.moment == Nanos(0)),
    ("in a call that gives 30", |event| event.gives(30)),
    ("in a call that gives 31", |event| event.gives(31)),
    ("in a call that gives 32", |event| event.gives(32)),
    ("in a call that gives 33", |event| event.gives(33)),
];

/// A replay call, and how it left things.
struct Call<'a> {
    call: &'a ReplayCall,
    bench: &'a Bench<'a>,
}

impl Call<'_> {
    /// Whether some slot has a moment of an earlier call that this one leaves.
    fn keeps(&self) -> bool {
        let made = &self.call.replayed.fed.made;
        let there = self.call.before.moments.iter().enumerate().filter(|(_, one)| one.is_some());
        there.into_iter().any(|(slot, _)| made.iter().all(|made| made.slot != slot))
    }

    fn ran(&self, kind: u8, status: u8) -> bool {
        let ran = &self.call.replayed.fed.ran;
        ran.iter().any(|(one, answer)| *one == kind && answer.status == status)
    }

    fn keeps_with(&self, number: u8) -> bool {
        self.keeps() && self.call.replayed.fed.number == number
    }

    fn keeps_after(&self, kind: u8) -> bool {
        self.keeps() && self.ran(kind, 0)
    }

    fn has_pending(&self) -> bool {
        let statuses = &self.bench.state.statuses;
        statuses.iter().any(|status| matches!(status, Status::Pending { .. }))
    }
}

type CallTest = fn(&Call) -> bool;

/// Moments that a call leaves.
const CALLS: [(&str, CallTest); 12] = [
    ("by link up", |call| call.keeps_after(LINK_UP)),
    ("by link down", |call| call.keeps_after(LINK_DOWN)),
    ("by cold reset", |call| call.keeps_after(COLD_RESET)),
    ("by an advance answered 22, with a slot Pending", |call| {
        call.ran(ADVANCE, 22) && call.has_pending()
    }),
    ("by the first call of a replay", |call| {
        let fresh = Replay { moments: call.call.before.moments, ..Replay::FRESH };
        call.keeps_with(0) && call.call.before == fresh
    }),
    ("by a call refused with 1 to 4", |call| {
        call.keeps() && (1..=4).contains(&call.call.replayed.fed.number)
    }),
    ("by a call refused with 5", |call| call.keeps_with(5)),
    ("by a call refused with 31", |call| call.keeps_with(31) && call.call.port_before.broken),
    ("by a call that gives 31", |call| call.keeps_with(31) && !call.call.port_before.broken),
    ("by a call that gives 32 or 33", |call| {
        (call.keeps_with(32) || call.keeps_with(33)) && call.call.before.ended == 0
    }),
    ("by a call after 32 or 33", |call| {
        (call.keeps_with(32) || call.keeps_with(33)) && call.call.before.ended != 0
    }),
    ("by a call that gives 30", |call| call.keeps_with(30)),
];

const LEFT_BY_FEED: &str = "left by a feed that makes the slot Ready";
const NOT_BY_FEED: &str = "not kept by a feed that makes a slot Ready";
const LEFT_BY_SET_UP: &str = "left by a set-up";
const LEFT_BY_LEND: &str = "left by a lent state";
const LEFT_BY_SHEET: &str = "left by a sheet";
const LENT_NONE: &str = "lent: none";
const LENT_ALL: &str = "lent: all 32";
const LENT_PAST_COUNT: &str = "lent: past the set-up's count";
const LENT_AFTER_CLOCK: &str = "lent: after the clock";
const LENT_AFTER_LAST: &str = "lent: after 10^15";
const LENT_HIGHEST: &str = "lent: 2^64 - 1";
const LENT_NOISE: &str = "lent: bytes that are ignored";

/// What other operations leave, and what is lent.
const OTHERS: [&str; 12] = [
    LEFT_BY_FEED,
    NOT_BY_FEED,
    LEFT_BY_SET_UP,
    LEFT_BY_LEND,
    LEFT_BY_SHEET,
    LENT_NONE,
    LENT_ALL,
    LENT_PAST_COUNT,
    LENT_AFTER_CLOCK,
    LENT_AFTER_LAST,
    LENT_HIGHEST,
    LENT_NOISE,
];

/// A slot of a report.
struct Slot<'a> {
    seen: Option<Nanos>,
    made: Option<Nanos>,
    difference: Difference,
    /// Whether it is below the set-up's count.
    counts: bool,
    status: Option<Status>,
    bench: &'a Bench<'a>,
}

impl Slot<'_> {
    fn is(&self, difference: i64) -> bool {
        self.difference == Difference::Of(difference)
    }

    fn of(&self, fits: fn(i64) -> bool) -> bool {
        matches!(self.difference, Difference::Of(difference) if fits(difference))
    }

    /// Refused, with the exact difference.
    fn outside(&self, fits: fn(i128) -> bool) -> bool {
        let (Some(seen), Some(made)) = (self.seen, self.made) else {
            return false;
        };
        let exact = i128::from(seen.0) - i128::from(made.0);
        self.difference == Difference::Outside && fits(exact)
    }

    fn given(&self) -> bool {
        self.of(|_| true)
    }
}

const FAR: i128 = FARTHEST as i128;

type SlotTest = fn(&Slot) -> bool;

/// Slots of reports.
const SLOTS: [(&str, SlotTest); 31] = [
    ("early", |slot| slot.of(|difference| difference < 0)),
    ("on time", |slot| slot.is(0)),
    ("late", |slot| slot.of(|difference| difference > 0)),
    ("early by 1", |slot| slot.is(-1)),
    ("late by 1", |slot| slot.is(1)),
    ("early by 10^15", |slot| slot.is(-FARTHEST)),
    ("late by 10^15", |slot| slot.is(FARTHEST)),
    ("early by 2^32 or more", |slot| slot.of(|difference| difference <= -(1 << 32))),
    ("late by 2^32 or more", |slot| slot.of(|difference| difference >= 1 << 32)),
    ("34, early", |slot| slot.outside(|exact| exact < 0)),
    ("34, late", |slot| slot.outside(|exact| exact > 0)),
    ("34, early by 10^15 + 1", |slot| slot.outside(|exact| exact == -FAR - 1)),
    ("34, late by 10^15 + 1", |slot| slot.outside(|exact| exact == FAR + 1)),
    ("34, early by 2^63 or more", |slot| slot.outside(|exact| exact <= -(1 << 63))),
    ("34, late by 2^63 or more", |slot| slot.outside(|exact| exact >= 1 << 63)),
    ("34, within 10^15 in 64 bits", |slot| {
        slot.outside(|exact| !is_outside(exact as i64) && exact != 0)
    }),
    ("none, not made Ready", |slot| slot.counts && slot.seen.is_some() && slot.made.is_none()),
    ("none, not seen", |slot| slot.counts && slot.seen.is_none() && slot.made.is_some()),
    ("none, neither", |slot| slot.counts && slot.seen.is_none() && slot.made.is_none()),
    ("none, past the set-up's count", |slot| {
        !slot.counts && slot.seen.is_some() && slot.made.is_some()
    }),
    ("none, past the set-up's count and outside", |slot| {
        !slot.counts
            && slot
                .seen
                .zip(slot.made)
                .is_some_and(|(seen, made)| super::difference(seen, made) == Difference::Outside)
    }),
    ("a difference, seen after the clock", |slot| {
        slot.given() && slot.seen > Some(slot.bench.state.port.clock)
    }),
    ("a difference, seen after 10^15", |slot| slot.given() && slot.seen > Some(LAST_MOMENT)),
    ("a difference, made after 10^15", |slot| slot.given() && slot.made > Some(LAST_MOMENT)),
    ("a difference, seen at 0", |slot| slot.given() && slot.seen == Some(Nanos(0))),
    ("a difference, made at 0", |slot| slot.given() && slot.made == Some(Nanos(0))),
    ("a difference, seen at 2^64 - 1", |slot| slot.given() && slot.seen == Some(Nanos(u64::MAX))),
    ("a difference, made at 2^64 - 1", |slot| slot.given() && slot.made == Some(Nanos(u64::MAX))),
    ("a difference, the slot Ready", |slot| slot.given() && slot.status == Some(Status::Ready)),
    ("a difference, the slot Pending", |slot| {
        slot.given() && matches!(slot.status, Some(Status::Pending { .. }))
    }),
    ("a difference, the slot Down", |slot| slot.given() && slot.status == Some(Status::Down)),
];

/// What came since the last replay call of a case.
#[derive(Clone, Copy, Default)]
struct Since {
    replayed: bool,
    fed: bool,
    set_up: bool,
    lent: bool,
    lent_replay: bool,
}

/// A report, and where it stands.
struct Whole<'a> {
    report: &'a Report,
    bench: &'a Bench<'a>,
    since: Since,
}

impl Whole<'_> {
    fn has(&self, fits: fn(&Difference) -> bool) -> bool {
        self.report.differences.iter().any(fits)
    }

    fn given(&self) -> bool {
        self.has(|one| matches!(one, Difference::Of(_)))
    }

    fn refused(&self) -> bool {
        self.bench.setup.refusal(Fault::None).is_some()
    }
}

type WholeTest = fn(&Whole) -> bool;

const OF_NO_SLOTS: &str = "of 0 slots";
const OF_MANY_SLOTS: &str = "of more than 32 slots";

/// Reports.
const REPORTS: [(&str, WholeTest); 20] = [
    ("without a difference", |whole| whole.has(|_| true) && !whole.given()),
    ("with two differences", |whole| {
        whole.report.differences.iter().filter(|one| matches!(one, Difference::Of(_))).count() > 1
    }),
    ("with a difference and a 34", |whole| {
        whole.given() && whole.has(|one| *one == Difference::Outside)
    }),
    ("with a difference after a 34", |whole| {
        let outside = whole.report.differences.iter().position(|one| *one == Difference::Outside);
        outside.is_some_and(|first| {
            whole.report.differences[first..].iter().any(|one| matches!(one, Difference::Of(_)))
        })
    }),
    ("with bytes that are ignored", |whole| {
        whole.report.noise && whole.report.seen.iter().any(Option::is_none)
    }),
    ("of a replay that has not begun", |whole| {
        whole.given() && whole.bench.replay.earlier.is_none()
    }),
    ("of a replay that has ended", |whole| whole.given() && whole.bench.replay.ended != 0),
    ("of a replay state that doesn't match", |whole| {
        whole.given() && whole.bench.replay_does_not_match()
    }),
    ("on a broken port", |whole| whole.given() && whole.bench.state.port.broken),
    ("on an unsound state", |whole| whole.given() && !whole.refused() && whole.bench.is_unsound()),
    ("on a set-up that is refused", |whole| whole.given() && whole.refused()),
    (OF_NO_SLOTS, |whole| {
        let both = |slot: usize| {
            whole.report.seen[slot].is_some() && whole.bench.replay.moments[slot].is_some()
        };
        whole.bench.setup.slots == 0 && (0..MOST_SLOTS).any(both)
    }),
    (OF_MANY_SLOTS, |whole| whole.given() && whole.bench.setup.slot_count() > MOST_SLOTS),
    ("with a difference of the last slot", |whole| {
        let last = whole.bench.setup.slot_count().min(MOST_SLOTS).checked_sub(1);
        last.is_some_and(|last| matches!(whole.report.differences[last], Difference::Of(_)))
    }),
    ("right after a replay call", |whole| {
        let Since { replayed, fed, set_up, lent, lent_replay } = whole.since;
        whole.given() && replayed && !(fed || set_up || lent || lent_replay)
    }),
    ("after a feed since then", |whole| whole.given() && whole.since.fed),
    ("after a set-up since then", |whole| whole.given() && whole.since.set_up),
    ("after a lent state since then", |whole| whole.given() && whole.since.lent),
    ("after a lent replay state since then", |whole| whole.given() && whole.since.lent_replay),
    ("without any replay call", |whole| !whole.since.replayed),
];

type ListTest = fn(&Listed) -> bool;

fn only_outside(listed: &Listed) -> Option<i64> {
    let mut outside = listed.list.iter().filter(|one| is_outside(**one));
    let first = outside.next().copied();
    first.filter(|_| outside.next().is_none())
}

/// Where the first one outside stands, and how many there are in all.
fn outside_at(listed: &Listed, fits: fn(usize, usize) -> bool) -> bool {
    let first = listed.list.iter().position(|one| is_outside(*one));
    first.is_some_and(|first| fits(first, listed.list.len()))
}

fn taken(listed: &Listed) -> bool {
    listed.totals.number == 0 && !listed.list.is_empty()
}

fn all(listed: &Listed, fits: fn(&i64) -> bool) -> bool {
    taken(listed) && listed.list.len() > 1 && listed.list.iter().all(fits)
}

fn of_length(listed: &Listed, number: u8, length: usize) -> bool {
    listed.totals.number == number && listed.list.len() == length
}

/// What 64-bit floating-point numbers lose.
fn loses_in_doubles(listed: &Listed) -> bool {
    let sum: f64 = listed.list.iter().map(|one| *one as f64).sum();
    taken(listed) && sum as i64 != listed.totals.sum
}

const MOST: usize = MOST_DIFFERENCES;

/// Lists.
const LISTS: [(&str, ListTest); 40] = [
    ("gives 0", |listed| listed.totals.number == 0),
    ("gives 34", |listed| listed.totals.number == OUTSIDE),
    ("gives 35", |listed| listed.totals.number == TOO_MANY),
    ("of none", |listed| listed.list.is_empty()),
    ("of one", |listed| of_length(listed, 0, 1)),
    ("early, on time and late", |listed| {
        let totals = listed.totals;
        totals.early > 0 && totals.on_time > 0 && totals.late > 0
    }),
    ("all early", |listed| all(listed, |one| *one < 0)),
    ("all on time", |listed| all(listed, |one| *one == 0)),
    ("all late", |listed| all(listed, |one| *one > 0)),
    ("all equal", |listed| taken(listed) && listed.totals.least == listed.totals.greatest),
    ("with equal ones that aren't neighbours", |listed| {
        let list = &listed.list;
        taken(listed)
            && list.len() < 20
            && list.windows(3).any(|three| three[0] == three[2] && three[0] != three[1])
    }),
    ("with equal neighbours", |listed| {
        taken(listed) && listed.list.windows(2).any(|pair| pair[0] == pair[1])
    }),
    ("the least of greater size than the greatest", |listed| {
        let totals = listed.totals;
        totals.greatest > 0 && -totals.least > totals.greatest
    }),
    ("the least not the first, the greatest not the last", |listed| {
        let totals = listed.totals;
        taken(listed)
            && listed.list[0] != totals.least
            && listed.list.last() != Some(&totals.greatest)
    }),
    ("with 1 to 3 or -1 to -3", |listed| {
        taken(listed) && listed.list.iter().any(|one| (1..=3).contains(&one.abs()))
    }),
    ("with 10^15", |listed| taken(listed) && listed.list.contains(&FARTHEST)),
    ("with -10^15", |listed| taken(listed) && listed.list.contains(&-FARTHEST)),
    ("gives 34 for 10^15 + 1 alone", |listed| only_outside(listed) == Some(FARTHEST + 1)),
    ("gives 34 for -10^15 - 1 alone", |listed| only_outside(listed) == Some(-FARTHEST - 1)),
    ("gives 34 for 2^63 - 1 alone", |listed| only_outside(listed) == Some(i64::MAX)),
    ("gives 34 for -2^63 alone", |listed| only_outside(listed) == Some(i64::MIN)),
    ("gives 34 for the only one", |listed| outside_at(listed, |_, count| count == 1)),
    ("gives 34 for the first", |listed| outside_at(listed, |first, count| first == 0 && count > 1)),
    ("gives 34 for the last", |listed| {
        outside_at(listed, |first, count| first + 1 == count && count > 1)
    }),
    ("gives 34, of more than 9,000", |listed| {
        listed.totals.number == OUTSIDE && listed.list.len() > MOST
    }),
    ("gives 34, of more than 9,000, for one of the first 9,000", |listed| {
        outside_at(listed, |first, count| first < MOST && count > MOST)
    }),
    ("gives 34, of more than 9,000, for one after the 9,000th", |listed| {
        outside_at(listed, |first, _| first >= MOST)
    }),
    ("of 8,999", |listed| of_length(listed, 0, MOST - 1)),
    ("of 9,000", |listed| of_length(listed, 0, MOST)),
    ("of 9,001 gives 35", |listed| of_length(listed, TOO_MANY, MOST + 1)),
    ("of 9,100 gives 35", |listed| of_length(listed, TOO_MANY, MOST_LISTED)),
    ("of 9,000 gives 34", |listed| of_length(listed, OUTSIDE, MOST)),
    ("more than 255 early", |listed| listed.totals.early > 255),
    ("more than 255 on time", |listed| listed.totals.on_time > 255),
    ("more than 255 late", |listed| listed.totals.late > 255),
    ("a sum of 9 * 10^18", |listed| listed.totals.sum == MOST as i64 * FARTHEST),
    ("a sum of -9 * 10^18", |listed| listed.totals.sum == -(MOST as i64) * FARTHEST),
    ("a sum outside ±10^15", |listed| is_outside(listed.totals.sum)),
    ("a sum that floating-point numbers lose", loses_in_doubles),
    ("a sum of 0, not all on time", |listed| {
        taken(listed) && listed.totals.sum == 0 && listed.totals.least < 0
    }),
];

/// Counters, each of something that must come up.
pub struct Reached {
    events: [u64; EVENTS.len()],
    calls: [u64; CALLS.len()],
    others: [u64; OTHERS.len()],
    slots: [u64; SLOTS.len()],
    reports: [u64; REPORTS.len()],
    lists: [u64; LISTS.len()],
    since: Since,
}

/// Counts the tests that hold.
fn count<T: Copy>(tests: &[(&str, T)], counts: &mut [u64], holds: impl Fn(T) -> bool) {
    for ((_, test), count) in tests.iter().zip(counts) {
        *count += u64::from(holds(*test));
    }
}

impl Reached {
    pub fn new() -> Reached {
        Reached {
            events: [0; EVENTS.len()],
            calls: [0; CALLS.len()],
            others: [0; OTHERS.len()],
            slots: [0; SLOTS.len()],
            reports: [0; REPORTS.len()],
            lists: [0; LISTS.len()],
            since: Since::default(),
        }
    }

    /// A case begins.
    pub fn begin_case(&mut self) {
        self.since = Since::default();
    }

    fn count_other(&mut self, name: &str, reached: bool) {
        let index = OTHERS.iter().position(|one| *one == name).expect("every name is listed");
        self.others[index] += u64::from(reached);
    }

    /// Counts what has to do with lateness; the bench is as the operation left it.
    pub fn note(&mut self, gave: &Gave, bench: &Bench) {
        let kept = bench.replay.moments.iter().any(Option::is_some);
        match gave {
            Gave::Replay(call) => self.note_call(call, bench),
            Gave::Feed(fed) => self.note_feed(fed, bench),
            Gave::SetUp(number) => {
                self.since.set_up |= *number == 0;
                self.count_other(LEFT_BY_SET_UP, kept && *number == 0);
            }
            Gave::Lent { .. } => {
                self.since.lent = true;
                self.count_other(LEFT_BY_LEND, kept);
            }
            Gave::Sheet(_) => self.count_other(LEFT_BY_SHEET, kept),
            Gave::LentReplay { noise } => self.note_lent(bench, *noise),
            Gave::Lateness(report) => self.note_report(report, bench),
            Gave::Totals(listed) => count(&LISTS, &mut self.lists, |test| test(listed)),
            Gave::Wrote(_) | Gave::Reading(_) => {}
        }
    }

    fn note_call(&mut self, call: &ReplayCall, bench: &Bench) {
        let made = &call.replayed.fed.made;
        for (index, one) in made.iter().enumerate() {
            let (earlier, later) = (&made[..index], &made[index + 1..]);
            let event = Event { made: one, earlier, later, call, bench };
            count(&EVENTS, &mut self.events, |test| test(&event));
        }
        let whole = Call { call, bench };
        count(&CALLS, &mut self.calls, |test| test(&whole));
        self.since = Since { replayed: true, ..Since::default() };
    }

    fn note_feed(&mut self, fed: &Fed, bench: &Bench) {
        self.since.fed |= fed.consumed > 0;
        let has = |made: &Made| bench.replay.moments[made.slot].is_some();
        self.count_other(LEFT_BY_FEED, fed.made.iter().any(has));
        self.count_other(NOT_BY_FEED, !fed.made.iter().all(has));
    }

    fn note_lent(&mut self, bench: &Bench, noise: bool) {
        self.since.lent_replay = true;
        let moments = &bench.replay.moments;
        let count = bench.setup.slot_count().min(MOST_SLOTS);
        let there = moments.iter().flatten().count();
        let any = |fits: &dyn Fn(Nanos) -> bool| moments.iter().flatten().any(|one| fits(*one));
        let clock = bench.state.port.clock;
        self.count_other(LENT_NONE, there == 0);
        self.count_other(LENT_ALL, there == MOST_SLOTS);
        self.count_other(LENT_PAST_COUNT, moments[count..].iter().any(Option::is_some));
        self.count_other(LENT_AFTER_CLOCK, any(&|moment| moment > clock));
        self.count_other(LENT_AFTER_LAST, any(&|moment| moment > LAST_MOMENT));
        self.count_other(LENT_HIGHEST, any(&|moment| moment == Nanos(u64::MAX)));
        self.count_other(LENT_NOISE, noise && there < MOST_SLOTS);
    }

    fn note_report(&mut self, report: &Report, bench: &Bench) {
        for slot in 0..MOST_SLOTS {
            let of_slot = Slot {
                seen: report.seen[slot],
                made: bench.replay.moments[slot],
                difference: report.differences[slot],
                counts: slot < bench.setup.slot_count(),
                status: bench.state.statuses.get(slot).copied(),
                bench,
            };
            count(&SLOTS, &mut self.slots, |test| test(&of_slot));
        }
        let whole = Whole { report, bench, since: self.since };
        count(&REPORTS, &mut self.reports, |test| test(&whole));
    }

    /// The rows that cases of lateness alone can reach: all.
    pub fn rows_alone(&self) -> Vec<(String, u64)> {
        let mut rows = Vec::new();
        self.rows(&mut rows);
        rows
    }

    pub fn rows(&self, rows: &mut Vec<(String, u64)>) {
        let mut add = |front: &str, name: &str, count: u64| {
            rows.push((format!("{front} {name}"), count));
        };
        for ((name, _), count) in EVENTS.iter().zip(self.events) {
            add("moment kept:", name, count);
        }
        for ((name, _), count) in CALLS.iter().zip(self.calls) {
            add("moment left", name, count);
        }
        for (name, count) in OTHERS.iter().zip(self.others) {
            add("moment", name, count);
        }
        for ((name, _), count) in SLOTS.iter().zip(self.slots) {
            add("lateness of a slot:", name, count);
        }
        for ((name, _), count) in REPORTS.iter().zip(self.reports) {
            add("lateness by slot", name, count);
        }
        for ((name, _), count) in LISTS.iter().zip(self.lists) {
            add("list", name, count);
        }
    }
}
