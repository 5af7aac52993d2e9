//! Counters of where sheets stand among the other operations of a case.

use super::Taken;
use crate::run::{Gave, Sheet};

const BEFORE_SET_UP: &str = "that changes a code before set-up";
const AFTER_SET_UP: &str = "that changes a code after set-up";
const BETWEEN_FEEDS: &str = "that changes a code between two feeds";
const IN_A_ROW: &str = "right after another";
const AFTER_REFUSED: &str = "accepted right after one that is refused";
const NAMED_EARLIER: &str = "accepted, a slot that an earlier one named";
const NAMED_IN_REFUSED: &str = "accepted, a slot that an earlier one named before it was refused";

const PLACES: [&str; 7] = [
    BEFORE_SET_UP,
    AFTER_SET_UP,
    BETWEEN_FEEDS,
    IN_A_ROW,
    AFTER_REFUSED,
    NAMED_EARLIER,
    NAMED_IN_REFUSED,
];
/// What cases of sheets alone can't reach.
pub const NOT_ALONE: [&str; 3] = [BEFORE_SET_UP, AFTER_SET_UP, BETWEEN_FEEDS];

/// What came before in a case.
#[derive(Clone, Copy, Default)]
struct Before {
    /// A set-up that gave 0.
    set_up: bool,
    /// A feed that ran a record, with nothing since then but sheets, messages and what was refused.
    fed: bool,
    /// How many sheets changed a code before that set-up.
    changes: u64,
    /// How many sheets changed a code since that feed.
    changes_since_feed: u64,
    /// The number of the sheet that came just before.
    last: Option<u8>,
    /// Bits of the slots that sheets named, and of those that refused ones named.
    named: u32,
    named_in_refused: u32,
}

pub struct Order {
    before: Before,
    counts: [u64; PLACES.len()],
}

/// Bits of the slots that a sheet's good lines name.
fn named(taken: &Taken) -> u32 {
    taken.good.iter().fold(0, |bits, line| bits | 1 << line.slot)
}

impl Order {
    pub fn new() -> Order {
        Order { before: Before::default(), counts: [0; PLACES.len()] }
    }

    /// A case begins.
    pub fn begin(&mut self) {
        self.before = Before::default();
    }

    fn count(&mut self, place: &str, times: u64) {
        let index = PLACES.iter().position(|one| *one == place).expect("every place is listed");
        self.counts[index] += times;
    }

    pub fn note(&mut self, gave: &Gave) {
        let before = self.before;
        match gave {
            Gave::Sheet(sheet) => return self.note_sheet(sheet),
            Gave::SetUp(0) => {
                self.count(BEFORE_SET_UP, before.changes);
                self.before.set_up = true;
                (self.before.fed, self.before.changes) = (false, 0);
            }
            Gave::Feed(fed) if !fed.ran.is_empty() => {
                self.count(BETWEEN_FEEDS, before.changes_since_feed);
                (self.before.fed, self.before.changes_since_feed) = (true, 0);
            }
            Gave::Lent { .. } => self.before.fed = false,
            _ => {}
        }
        if !self.before.fed {
            self.before.changes_since_feed = 0;
        }
        self.before.last = None;
    }

    fn note_sheet(&mut self, sheet: &Sheet) {
        let (before, taken) = (self.before, &sheet.taken);
        let (changes, accepted) = (taken.entries != sheet.before, taken.number == 0);
        let named = named(taken);
        let refused_before = before.last.is_some_and(|number| number != 0);
        for (place, reached) in [
            (AFTER_SET_UP, changes && before.set_up),
            (IN_A_ROW, before.last.is_some()),
            (AFTER_REFUSED, accepted && refused_before),
            (NAMED_EARLIER, accepted && named & before.named != 0),
            (NAMED_IN_REFUSED, accepted && named & before.named_in_refused != 0),
        ] {
            self.count(place, u64::from(reached));
        }
        self.before = Before {
            changes: before.changes + u64::from(changes && !before.set_up),
            changes_since_feed: before.changes_since_feed + u64::from(changes && before.fed),
            last: Some(taken.number),
            named: before.named | named,
            named_in_refused: before.named_in_refused | if accepted { 0 } else { named },
            ..before
        };
    }

    pub fn rows(&self) -> impl Iterator<Item = (&'static str, u64)> {
        PLACES.into_iter().zip(self.counts)
    }
}
