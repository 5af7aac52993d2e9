//! Making a failing case smaller while it still fails.

use crate::bench::Bench;
use crate::faults::Fault;
use crate::lateness::{is_outside, Seen};
use crate::messages::FRS;
use crate::replay::{Moments, Replay, Stamp};
use crate::run::run_operation;
use crate::setup::{SlotEntry, MOST_SLOTS, WORDS_PER_SLOT};
use crate::sheets::LINE_END;
use crate::show::{split_captured, split_records};
use crate::state::{Cause, Port, State, Status};
use crate::stream::{Case, Operation, MOST_BYTES};
use crate::times::{Code, Nanos};

/// In so many places of a list at most something is tried.
const MOST_PLACES: usize = 32;

/// Tries smaller cases until none fails any more or the tries run out.
pub fn shrink(case: Case, tries: usize, mut fails: impl FnMut(&Case) -> bool) -> Case {
    let mut best = case;
    let mut left = tries;
    loop {
        let mut smaller = None;
        for candidate in candidates(&best) {
            if left == 0 {
                return best;
            }
            left -= 1;
            if candidate != best && fails(&candidate) {
                smaller = Some(candidate);
                break;
            }
        }
        match smaller {
            Some(case) => best = case,
            None => return best,
        }
    }
}

/// Smaller cases, the most hopeful first.
fn candidates(case: &Case) -> Vec<Case> {
    let mut all = without_operations(case);
    all.extend(joined_feeds(case));
    all.extend(lent_instead(case));
    all.extend(fewer_slots(case));
    all.extend(fewer_cells(case));
    for index in reports_first(&case.operations) {
        for operation in simpler_operations(&case.operations[index]) {
            let mut next = case.clone();
            next.operations[index] = operation;
            all.push(next);
        }
    }
    all.extend(simpler_setups(case));
    all
}

/// The places of all operations; a report goes by what came before it, and is made small before that.
fn reports_first(operations: &[Operation]) -> Vec<usize> {
    let mut places: Vec<usize> = (0..operations.len()).collect();
    places.sort_by_key(|place| !matches!(operations[*place], Operation::Lateness { .. }));
    places
}

fn without_operations(case: &Case) -> Vec<Case> {
    let count = case.operations.len();
    let mut all = Vec::new();
    for kept in [count / 4, count / 2, count.saturating_sub(1)] {
        let mut next = case.clone();
        next.operations.truncate(kept);
        all.push(next);
    }
    for index in 0..count {
        let mut next = case.clone();
        next.operations.remove(index);
        all.push(next);
    }
    all
}

/// The rooms and inputs of two calls made one, if it isn't too long.
fn joined_calls(room: u16, input: &[u8], more: u16, rest: &[u8]) -> Option<(u16, Vec<u8>)> {
    let room = usize::from(room + more).min(MOST_BYTES) as u16;
    let input = [input, rest].concat();
    (input.len() <= MOST_BYTES).then_some((room, input))
}

/// Two feeds, or two replays, made one.
fn joined(one: &Operation, other: &Operation) -> Option<Operation> {
    use Operation::{Feed, Replay};
    match (one, other) {
        (Feed { room, input }, Feed { room: more, input: rest }) => {
            let (room, input) = joined_calls(*room, input, *more, rest)?;
            Some(Feed { room, input })
        }
        (Replay { room, input }, Replay { room: more, input: rest }) => {
            let (room, input) = joined_calls(*room, input, *more, rest)?;
            Some(Replay { room, input })
        }
        _ => None,
    }
}

/// The same case with two feeds, or two replays, that follow each other made one.
fn joined_feeds(case: &Case) -> Vec<Case> {
    let mut all = Vec::new();
    for (index, pair) in case.operations.windows(2).enumerate() {
        if let Some(both) = joined(&pair[0], &pair[1]) {
            let mut next = case.clone();
            next.operations.remove(index);
            next.operations[index] = both;
            all.push(next);
        }
    }
    all
}

/// The same case with a replay that is left out, and what it leaves lent in its place.
fn lent_instead(case: &Case) -> Vec<Case> {
    let mut bench = Bench::new(&case.setup, Fault::None);
    let mut all = Vec::new();
    for (index, operation) in case.operations.iter().enumerate() {
        run_operation(&mut bench, operation, &mut Vec::new());
        if matches!(operation, Operation::Replay { .. }) {
            let replay = Box::new(bench.replay);
            let lend = Operation::LendReplay { replay, noise: 0 };
            all.push(changed(case, |next| next.operations[index] = lend));
        }
    }
    all
}

/// The same case without its last slot, if all lengths fit the slots.
fn fewer_slots(case: &Case) -> Option<Case> {
    let setup = &case.setup;
    let slots = setup.slot_count();
    let words = slots * WORDS_PER_SLOT;
    let fits = setup.statuses == slots && setup.live_words == words;
    if slots < 2 || !fits || setup.defaults.len() != words {
        return None;
    }
    let mut next = case.clone();
    next.setup.slots -= 1;
    next.setup.statuses -= 1;
    next.setup.live_words -= WORDS_PER_SLOT;
    next.setup.defaults.truncate(words - WORDS_PER_SLOT);
    for operation in &mut next.operations {
        if let Operation::Lend { state, .. } = operation {
            state.statuses.pop();
            state.live.truncate(words - WORDS_PER_SLOT);
        }
    }
    Some(next)
}

/// The same case with a shorter queue.
fn fewer_cells(case: &Case) -> Vec<Case> {
    let count = case.setup.cells;
    let shorter = [1, 2, count / 2, count.saturating_sub(1)];
    let shorter = shorter.into_iter().filter(|cells| (1..count).contains(cells));
    let cut = |cells: usize| {
        changed(case, |next| {
            next.setup.cells = cells;
            for operation in &mut next.operations {
                if let Operation::Lend { state, .. } = operation {
                    state.cells.truncate(cells);
                }
            }
        })
    };
    shorter.map(cut).collect()
}

fn simpler_operations(operation: &Operation) -> Vec<Operation> {
    match operation {
        Operation::SetUp => Vec::new(),
        Operation::Feed { room, input } => {
            let calls = simpler_calls(*room, input, &split_records(input)).into_iter();
            calls.map(|(room, input)| Operation::Feed { room, input }).collect()
        }
        Operation::Replay { room, input } => {
            let calls = simpler_calls(*room, input, &split_captured(input, 0)).into_iter();
            let stamps = simpler_stamps(*room, input).into_iter();
            calls.chain(stamps).map(|(room, input)| Operation::Replay { room, input }).collect()
        }
        Operation::LendReplay { replay, noise } => simpler_replays(replay, *noise),
        Operation::Lend { state, noise } => simpler_lends(state, *noise),
        Operation::WriteMessage { kind, id, reason, room } => {
            simpler_writes(*kind, *id, *reason, *room)
        }
        Operation::ReadMessage(bytes) => simpler_readings(bytes),
        Operation::Sheet(text) => simpler_sheets(text),
        Operation::Lateness { seen, noise } => simpler_reports(seen, *noise),
        Operation::Totals(list) => simpler_lists(list),
    }
}

/// Fewer times seen, and each of them 0 in turn.
fn simpler_reports(seen: &Seen, noise: u64) -> Vec<Operation> {
    let quiet = Operation::Lateness { seen: Box::new(*seen), noise: 0 };
    let simpler = simpler_times(seen).into_iter();
    let reports = simpler.map(|seen| Operation::Lateness { seen: Box::new(seen), noise });
    std::iter::once(quiet).chain(reports).collect()
}

/// No time at all, one of them alone, each of them left out, and each 0 in turn.
fn simpler_times(times: &Moments) -> Vec<Moments> {
    let mut all = vec![[None; MOST_SLOTS]];
    let there: Vec<usize> = (0..MOST_SLOTS).filter(|slot| times[*slot].is_some()).collect();
    for slot in &there {
        all.push(changed(&[None; MOST_SLOTS], |next| next[*slot] = times[*slot]));
    }
    for slot in there {
        all.push(changed(times, |next| next[slot] = None));
        all.push(changed(times, |next| next[slot] = Some(Nanos(0))));
    }
    all
}

/// Fewer differences, all that are taken 0 at once, and each of them 0 in turn; in a long list only in a few places.
fn simpler_lists(list: &[i64]) -> Vec<Operation> {
    let zeros = |one: &i64| if is_outside(*one) { *one } else { 0 };
    let mut lists = Vec::new();
    let mut run = list.len();
    while run > 0 && list.len() / run <= MOST_PLACES {
        for from in (0..list.len()).step_by(run) {
            let to = (from + run).min(list.len());
            lists.push([&list[..from], &list[to..]].concat());
        }
        run /= 2;
    }
    lists.extend(list.split_first().map(|(_, rest)| rest.to_vec()));
    lists.push(list.iter().map(zeros).collect());
    for place in (0..list.len()).filter(|place| list[*place] != 0).take(MOST_PLACES) {
        lists.push(changed(&list.to_vec(), |next| next[place] = 0));
    }
    lists.into_iter().map(Operation::Totals).collect()
}

fn simpler_lends(state: &State, noise: u64) -> Vec<Operation> {
    let quiet = (noise != 0).then(|| Operation::Lend { state: Box::new(state.clone()), noise: 0 });
    let states = simpler_states(state).into_iter();
    let lends = states.map(|state| Operation::Lend { state: Box::new(state), noise });
    quiet.into_iter().chain(lends).collect()
}

fn simpler_writes(kind: u8, id: u16, reason: u8, room: u8) -> Vec<Operation> {
    vec![
        Operation::WriteMessage { kind, id: 0, reason, room },
        Operation::WriteMessage { kind, id, reason: 0, room },
        Operation::WriteMessage { kind: FRS, id, reason, room },
        Operation::WriteMessage { kind, id, reason, room: 16 },
        Operation::WriteMessage { kind, id, reason, room: room / 2 },
    ]
}

/// Fewer bytes, and each byte 0 in turn.
fn simpler_readings(bytes: &[u8]) -> Vec<Operation> {
    let shorter = [0, bytes.len() / 2, bytes.len().saturating_sub(1)];
    let mut all: Vec<Operation> =
        shorter.iter().map(|length| Operation::ReadMessage(bytes[..*length].to_vec())).collect();
    for place in (0..bytes.len()).filter(|place| bytes[*place] != 0) {
        let mut next = bytes.to_vec();
        next[place] = 0;
        all.push(Operation::ReadMessage(next));
    }
    all
}

/// Fewer lines, fewer characters, and each digit 0 in turn.
fn simpler_sheets(text: &[u8]) -> Vec<Operation> {
    let lines: Vec<&[u8]> = text.split_inclusive(|byte| *byte == LINE_END).collect();
    let mut texts = Vec::new();
    let mut run = lines.len();
    while run > 0 {
        for from in (0..lines.len()).step_by(run) {
            let to = (from + run).min(lines.len());
            texts.push([&lines[..from], &lines[to..]].concat().concat());
        }
        run /= 2;
    }
    for place in 0..text.len() {
        texts.push([&text[..place], &text[place + 1..]].concat());
        if matches!(text[place], b'1'..=b'9') {
            texts.push(changed(&text.to_vec(), |next| next[place] = b'0'));
        }
    }
    texts.into_iter().map(Operation::Sheet).collect()
}

/// Each byte 0 in turn.
fn simpler_stamps(room: u16, input: &[u8]) -> Vec<(u16, Vec<u8>)> {
    let there = (0..input.len()).filter(|place| input[*place] != 0);
    there.map(|place| (room, changed(&input.to_vec(), |next| next[place] = 0))).collect()
}

fn simpler_replays(replay: &Replay, noise: u64) -> Vec<Operation> {
    let lend = |replay, noise| Operation::LendReplay { replay: Box::new(replay), noise };
    let mut all = vec![lend(*replay, 0)];
    for simpler in [
        Replay::FRESH,
        Replay { earlier: None, ..*replay },
        Replay { earlier: replay.earlier.map(|_| Stamp(0)), ..*replay },
        Replay { taken: 0, bytes: [0; 4], ..*replay },
        Replay { bytes: [0; 4], ..*replay },
        Replay { answered: 0, ..*replay },
        Replay { ended: 0, ..*replay },
    ] {
        all.push(lend(simpler, noise));
    }
    for moments in simpler_times(&replay.moments) {
        all.push(lend(Replay { moments, ..*replay }, noise));
    }
    all
}

/// Fewer records, fewer bytes, less room.
fn simpler_calls(room: u16, input: &[u8], records: &[&[u8]]) -> Vec<(u16, Vec<u8>)> {
    let mut inputs = Vec::new();
    let mut run = records.len();
    while run > 0 {
        for from in (0..records.len()).step_by(run) {
            let to = (from + run).min(records.len());
            inputs.push([&records[..from], &records[to..]].concat().concat());
        }
        run /= 2;
    }
    for from in 0..input.len() {
        inputs.push([&input[..from], &input[from + 1..]].concat());
    }
    let mut all: Vec<(u16, Vec<u8>)> = inputs.into_iter().map(|input| (room, input)).collect();
    let needed = (records.len() * 8) as u16;
    for smaller in [0, 8, needed, room / 2] {
        if smaller < room {
            all.push((smaller, input.to_vec()));
        }
    }
    all
}

fn changed<T: Clone>(from: &T, change: impl FnOnce(&mut T)) -> T {
    let mut next = from.clone();
    change(&mut next);
    next
}

/// The same state with its clock at 0 and all times moved along.
fn at_clock_0(state: &mut State) {
    let clock = state.port.clock.0;
    let moved = |time: Nanos| Nanos(time.0.saturating_sub(clock));
    for status in &mut state.statuses {
        if let Status::Pending { cause, ready } = status {
            *ready = moved(*ready);
            if let Cause::Flr { end } = cause {
                *end = moved(*end);
            }
        }
    }
    state.port.clock = Nanos(0);
}

fn simpler_states(state: &State) -> Vec<State> {
    let mut all = vec![
        changed(state, |next| next.live.fill(0)),
        changed(state, at_clock_0),
        changed(state, |next| next.cells.fill(0)),
        changed(state, |next| next.port = Port::zero()),
        changed(state, |next| next.port.carried = [0; 16]),
        changed(state, |next| next.port.carried_count = 0),
        changed(state, |next| (next.port.start, next.port.depth) = (0, 0)),
        changed(state, |next| next.port.visibility = false),
        changed(state, |next| next.port.frs_interrupt = false),
        changed(state, |next| next.port.received = false),
        changed(state, |next| next.port.overflow = false),
        changed(state, |next| next.port.drs_received = false),
        changed(state, |next| next.port.signalling = 0),
        changed(state, |next| next.port.owed = false),
    ];
    for slot in 0..state.statuses.len() {
        all.push(changed(state, |next| next.statuses[slot] = Status::Ready));
    }
    for index in (0..state.live.len()).filter(|index| state.live[*index] != 0) {
        all.push(changed(state, |next| next.live[index] = 0));
    }
    all
}

/// The same case with nothing lent, and with fewer slots whatever is lent.
fn lent_less(case: &Case) -> Vec<Case> {
    let nothing = changed(case, |next| {
        (next.setup.statuses, next.setup.live_words, next.setup.cells) = (0, 0, 0);
        next.setup.defaults.clear();
        for operation in &mut next.operations {
            if let Operation::Lend { state, .. } = operation {
                state.statuses.clear();
                state.live.clear();
                state.cells.clear();
            }
        }
    });
    let slots = case.setup.slots;
    let fewer = [1, slots / 2, slots.saturating_sub(1)].into_iter();
    let fewer = fewer.filter(|fewer| *fewer >= 1 && *fewer < slots);
    let fewer = fewer.map(|fewer| changed(case, |next| next.setup.slots = fewer));
    std::iter::once(nothing).chain(fewer).collect()
}

fn simpler_setups(case: &Case) -> Vec<Case> {
    let mut all = lent_less(case);
    all.extend([
        changed(case, |next| next.setup.defaults.fill(0)),
        changed(case, |next| next.setup.entries = [SlotEntry::BLANK; MOST_SLOTS]),
        changed(case, |next| {
            let slots = next.setup.slot_count().min(MOST_SLOTS);
            next.setup.entries[slots..].fill(SlotEntry::BLANK);
        }),
        changed(case, |next| next.setup.bus = 0),
        changed(case, |next| next.setup.port_id = 0),
    ]);
    for slot in 0..case.setup.slot_count().min(MOST_SLOTS) {
        let entry = case.setup.entries[slot];
        let simpler = [
            SlotEntry::BLANK,
            SlotEntry { reset: Code(0), ..entry },
            SlotEntry { dl_up: Code(0), ..entry },
            SlotEntry { flr: Code(0), ..entry },
            SlotEntry { d3hot: Code(0), ..entry },
            SlotEntry { sends_frs: false, ..entry },
        ];
        for entry in simpler {
            all.push(changed(case, |next| next.setup.entries[slot] = entry));
        }
    }
    let defaults = &case.setup.defaults;
    for index in (0..defaults.len()).filter(|index| defaults[*index] != 0) {
        all.push(changed(case, |next| next.setup.defaults[index] = 0));
    }
    all
}

#[cfg(test)]
mod tests {
    use super::*;
    use crate::generate;
    use crate::run::run_case;

    #[test]
    fn a_shrunk_case_still_differs_and_is_small() {
        let fault = Fault::DropSetsReceived;
        let differs = |case: &Case| run_case(case, fault) != run_case(case, Fault::None);
        let found = (0..2000).map(|number| generate::case(1, number)).find(|case| differs(case));
        let small = shrink(found.expect("the fault shows"), 3000, differs);
        assert!(differs(&small));
        assert!(small.operations.len() <= 2);
        assert_eq!(small.setup.slots, 1);
    }

    #[test]
    fn a_sheet_shrinks_to_a_line_or_two() {
        for (fault, lines) in [
            (Fault::SheetHighestCode, 1),
            (Fault::SheetCrTaken, 1),
            (Fault::SheetNamedInFirstLine, 3),
            (Fault::SheetLimitBeforeNamed, 2),
        ] {
            let differs = |case: &Case| run_case(case, fault) != run_case(case, Fault::None);
            let mut cases = (0..2000).map(|number| generate::case(2, number));
            let found = cases.find(|case| differs(case));
            let small = shrink(found.expect("the fault shows"), 3000, differs);
            let [Operation::Sheet(text)] = &small.operations[..] else {
                panic!("{} operations", small.operations.len());
            };
            assert_eq!(text.iter().filter(|byte| **byte == LINE_END).count(), lines);
            assert_eq!((small.setup.statuses, small.setup.cells), (0, 0));
        }
    }

    #[test]
    fn a_replay_shrinks_to_a_few_operations() {
        for (fault, most) in [
            (Fault::ReplayTickOf3, 3),
            (Fault::ReplayHalfIsForward, 3),
            (Fault::ReplayAdvancesRepeated, 4),
            (Fault::ReplayEnded33BackTaken, 3),
        ] {
            let differs = |case: &Case| run_case(case, fault) != run_case(case, Fault::None);
            let mut cases = (0..2000).map(|number| generate::case(2, number));
            let found = cases.find(|case| differs(case));
            let small = shrink(found.expect("the fault shows"), 3000, differs);
            assert!(differs(&small));
            assert!(small.operations.len() <= most, "{fault:?}: {}", small.operations.len());
        }
    }

    #[test]
    fn a_list_shrinks_to_a_few_differences() {
        for (fault, most) in [
            (Fault::Totals0IsLate, 1),
            (Fault::TotalsSumOf32Bits, 1),
            (Fault::TotalsOneMoreTaken, 1),
            (Fault::TotalsLeastOfNone, 0),
            (Fault::TotalsNeighboursOnce, 2),
        ] {
            let differs = |case: &Case| run_case(case, fault) != run_case(case, Fault::None);
            let mut cases = (0..2000).map(|number| generate::case(2, number));
            let found = cases.find(|case| differs(case));
            let small = shrink(found.expect("the fault shows"), 3000, differs);
            let [Operation::Totals(list)] = &small.operations[..] else {
                panic!("{fault:?}: {} operations", small.operations.len());
            };
            assert_eq!(list.len(), most, "{fault:?}: {list:?}");
        }
    }

    #[test]
    fn moments_and_reports_shrink_to_one_slot() {
        for (fault, most) in [
            (Fault::LatenessBenchMinusSeen, 2),
            (Fault::LatenessUpperEdgeRefused, 2),
            (Fault::MomentsPastCountNotShown, 2),
            (Fault::MomentNotOfFlrAtOnce, 3),
        ] {
            let differs = |case: &Case| run_case(case, fault) != run_case(case, Fault::None);
            let mut cases = (0..4000).map(|number| generate::case(2, number));
            let found = cases.find(|case| differs(case));
            let small = shrink(found.expect("the fault shows"), 3000, differs);
            assert!(differs(&small));
            assert!(small.operations.len() <= most, "{fault:?}: {}", small.operations.len());
            for operation in &small.operations {
                match operation {
                    Operation::Lateness { seen, .. } => assert!(seen.iter().flatten().count() < 2),
                    Operation::LendReplay { replay, .. } => {
                        assert!(replay.moments.iter().flatten().count() < 2);
                    }
                    _ => {}
                }
            }
        }
    }

    #[test]
    fn a_message_shrinks_to_itself_alone() {
        for fault in [Fault::WriterReasonMasked, Fault::ReaderLongTaken] {
            let differs = |case: &Case| run_case(case, fault) != run_case(case, Fault::None);
            let mut cases = (0..2000).map(|number| generate::case(2, number));
            let found = cases.find(|case| differs(case));
            let small = shrink(found.expect("the fault shows"), 3000, differs);
            assert!(differs(&small));
            assert_eq!(small.operations.len(), 1);
            assert_eq!(small.setup.slots, 1);
        }
    }
}
