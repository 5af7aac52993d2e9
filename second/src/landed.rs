//! What of the later requests has landed: the fields and operations of the case stream that each opens. A request is
//! turned on in `LANDED` and nowhere else.

use crate::setup::SlotEntry;

/// The requests that open something in the case stream, by what they open.
#[derive(Clone, Copy, PartialEq, Eq, Debug)]
pub struct Landed {
    /// operation 04.
    pub sheets: bool,
    /// the moment of the last reset in a state image.
    pub reset_moment: bool,
    /// operation 05.
    pub explanations: bool,
    /// operations 06 and 07.
    pub replay: bool,
    /// operations 08 and 09, and the moments of a replay image.
    pub lateness: bool,
    /// an entry's edition.
    pub editions: bool,
    /// a conventional card.
    pub conventional: bool,
    /// operations 0A and 0B.
    pub plans: bool,
    /// an entry's V and parent; phase 3, cause 4 and the set of a status.
    pub children: bool,
    /// operation 0C.
    pub retry: bool,
}

impl Landed {
    /// The base alone.
    pub const NOTHING: Landed = Landed {
        sheets: false,
        reset_moment: false,
        explanations: false,
        replay: false,
        lateness: false,
        editions: false,
        conventional: false,
        plans: false,
        children: false,
        retry: false,
    };

    /// Whether an operation is the base's or that of a request that has landed.
    pub fn has_operation(&self, operation: u8) -> bool {
        match operation {
            0x01..=0x03 | 0x0D | 0x0E => true,
            0x04 => self.sheets,
            0x05 => self.explanations,
            0x06 | 0x07 => self.replay,
            0x08 | 0x09 => self.lateness,
            0x0A | 0x0B => self.plans,
            0x0C => self.retry,
            _ => false,
        }
    }

    pub fn takes_conventional(&self, conventional: bool) -> bool {
        self.conventional || !conventional
    }

    pub fn takes_edition(&self, edition: u8) -> bool {
        self.editions || edition == SlotEntry::BLANK.edition
    }

    pub fn takes_v(&self, v: u16) -> bool {
        self.children || v == SlotEntry::BLANK.v.0
    }

    pub fn takes_parent(&self, parent: u8) -> bool {
        self.children || parent == NO_PARENT
    }

    pub fn takes_reset_moment(&self, moment: u64) -> bool {
        self.reset_moment || moment == 0
    }

    pub fn takes_phase(&self, phase: u8) -> bool {
        phase <= if self.children { 3 } else { 2 }
    }

    pub fn takes_cause(&self, cause: u8) -> bool {
        cause <= if self.children { 4 } else { 3 }
    }

    pub fn takes_set(&self, set: u8) -> bool {
        set <= if self.children { 3 } else { 0 }
    }
}

/// What stands for "no parent" in the stream.
pub const NO_PARENT: u8 = 0xFF;

/// What has landed.
pub const LANDED: Landed = Landed { sheets: true, replay: true, lateness: true, ..Landed::NOTHING };

#[cfg(test)]
mod tests {
    use super::*;

    #[test]
    fn the_base_has_five_operations_and_what_has_landed_five_more() {
        let operations = |landed: Landed| -> Vec<u8> {
            (0..=255).filter(|kind| landed.has_operation(*kind)).collect()
        };
        assert_eq!(operations(Landed::NOTHING), [0x01, 0x02, 0x03, 0x0D, 0x0E]);
        assert_eq!(operations(LANDED), [1, 2, 3, 4, 6, 7, 8, 9, 0x0D, 0x0E]);
    }

    #[test]
    fn later_fields_take_their_defaults_alone() {
        let taken = |takes: &dyn Fn(u8) -> bool| (0..=255).filter(|byte| takes(*byte)).count();
        assert!(LANDED.takes_conventional(false) && !LANDED.takes_conventional(true));
        assert!(LANDED.takes_edition(1) && taken(&|byte| LANDED.takes_edition(byte)) == 1);
        assert!(LANDED.takes_v(0) && !LANDED.takes_v(1) && !LANDED.takes_v(0x100));
        assert!(LANDED.takes_parent(0xFF) && taken(&|byte| LANDED.takes_parent(byte)) == 1);
        assert!(LANDED.takes_reset_moment(0) && !LANDED.takes_reset_moment(1 << 40));
        assert_eq!(taken(&|byte| LANDED.takes_phase(byte)), 3);
        assert_eq!(taken(&|byte| LANDED.takes_cause(byte)), 4);
        assert_eq!(taken(&|byte| LANDED.takes_set(byte)), 1);
    }

    #[test]
    fn a_request_opens_what_is_its_own() {
        let with_sheets = Landed { sheets: true, ..Landed::NOTHING };
        assert!(with_sheets.has_operation(4) && !with_sheets.has_operation(5));
        let with_replay = Landed { replay: true, ..Landed::NOTHING };
        assert!(with_replay.has_operation(6) && with_replay.has_operation(7));
        assert!(!with_replay.has_operation(8));
        let with_lateness = Landed { lateness: true, ..with_replay };
        assert!(with_lateness.has_operation(8) && with_lateness.has_operation(9));
        assert!(!with_lateness.has_operation(0x0A));
        let with_editions = Landed { editions: true, ..Landed::NOTHING };
        assert!(with_editions.takes_edition(2) && !with_editions.takes_parent(0));
        let with_children = Landed { children: true, ..Landed::NOTHING };
        assert!(with_children.takes_phase(3) && !with_children.takes_phase(4));
        assert!(with_children.takes_parent(0) && with_children.takes_set(3));
    }
}
