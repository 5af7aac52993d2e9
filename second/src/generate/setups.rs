//! Set-ups, good and bad.

use crate::random::Random;
use crate::setup::{
    Setup, SlotEntry, DEVICE_CAPABILITIES, DEVICE_CONTROL, MOST_SLOTS, PMCSR, WORDS_PER_SLOT,
};
use crate::times::Code;

/// Codes at the edges of values, scales and the FLR limit.
const EDGE_CODES: [u16; 20] = [
    0x000, 0x001, 0x002, 0x005, 0x00A, 0x1FF, 0x200, 0x201, 0x220, 0x3FF, 0x400, 0x401, 0x85F,
    0x860, 0x9FF, 0xA00, 0xA02, 0xA03, 0xA1D, 0xA1E,
];
/// Codes of 0 ns, and of times that a few ticks reach.
const QUICK_CODES: [u16; 14] = [
    0x000, 0x000, 0x000, 0x200, 0x001, 0x004, 0x005, 0x00A, 0x00A, 0x014, 0x1FF, 0x220, 0x860,
    0xA03,
];
const BAD_CODES: [u16; 8] = [0xA1F, 0xA20, 0xAFF, 0xBFF, 0xC00, 0xFFF, 0x1000, 0xFFFF];

fn code(random: &mut Random) -> Code {
    match random.below(4) {
        0 => Code(random.below(0xA1F) as u16),
        1 => Code(random.below(24) as u16),
        _ => Code(random.pick(&EDGE_CODES)),
    }
}

fn slot_count(random: &mut Random) -> usize {
    match random.weighted(&[450, 350, 160, 35, 5]) {
        0 => 1,
        1 => 2 + random.below(2),
        2 => 4 + random.below(5),
        3 => 9 + random.below(23),
        _ => MOST_SLOTS,
    }
}

fn queue_length(random: &mut Random) -> usize {
    match random.weighted(&[250, 400, 250, 97, 2, 1]) {
        0 => 1,
        1 => 2 + random.below(2),
        2 => 4 + random.below(5),
        3 => 9 + random.below(32),
        4 => 4095,
        _ => 100 + random.below(3900),
    }
}

/// Entries whose codes come from a small pool, so that ready times tie.
fn entries(random: &mut Random, slots: usize) -> [SlotEntry; MOST_SLOTS] {
    let pool: Vec<Code> = (0..3).map(|_| code(random)).collect();
    let garbage_beyond = random.chance(30);
    let mut entries = [SlotEntry::BLANK; MOST_SLOTS];
    for (slot, entry) in entries.iter_mut().enumerate() {
        let mut next = || match slot < slots {
            true if random.chance(70) => random.pick(&pool),
            true => code(random),
            false if garbage_beyond => Code(random.u16()),
            false => Code(0),
        };
        *entry = SlotEntry {
            reset: next(),
            dl_up: next(),
            flr: next(),
            d3hot: next(),
            ..SlotEntry::BLANK
        };
        entry.sends_frs = random.chance(75);
    }
    entries
}

fn defaults(random: &mut Random, slots: usize) -> Vec<u32> {
    let full = random.chance(40);
    let mut words = vec![0; slots * WORDS_PER_SLOT];
    for (index, word) in words.iter_mut().enumerate() {
        if full || index % WORDS_PER_SLOT == 0 || random.chance(10) {
            *word = random.u32();
        }
    }
    for slot in words.chunks_mut(WORDS_PER_SLOT) {
        slot[PMCSR] &= !3;
        slot[DEVICE_CONTROL] &= !(1 << 15 | 1 << 21);
        slot[DEVICE_CAPABILITIES] |= 1 << 28;
        if random.chance(20) {
            slot[DEVICE_CAPABILITIES] &= !(1 << 28);
        }
        if random.chance(60) {
            slot[PMCSR] &= !(1 << 3);
        }
    }
    words
}

/// A set-up that nothing refuses.
pub fn good(random: &mut Random) -> Setup {
    let slots = slot_count(random);
    Setup {
        slots: slots as u8,
        statuses: slots,
        live_words: slots * WORDS_PER_SLOT,
        cells: queue_length(random),
        bus: random.u8(),
        port_id: random.u16(),
        conventional: false,
        entries: entries(random, slots),
        defaults: defaults(random, slots),
    }
}

/// A set-up that nothing refuses, with a small image.
pub fn small(random: &mut Random) -> Setup {
    let slots = random.pick(&[1, 1, 1, 1, 1, 2, 2, 3]);
    Setup {
        slots: slots as u8,
        statuses: slots,
        live_words: slots * WORDS_PER_SLOT,
        cells: 1 + random.below(6),
        bus: random.u8(),
        port_id: random.u16(),
        conventional: false,
        entries: entries(random, slots),
        defaults: defaults(random, slots),
    }
}

/// A set-up that nothing refuses, with a small image and times that are often 0 or tie.
pub fn quick(random: &mut Random) -> Setup {
    let slots = random.pick(&[1, 1, 2, 2, 3, 4]);
    let mut setup = Setup {
        slots: slots as u8,
        statuses: slots,
        live_words: slots * WORDS_PER_SLOT,
        cells: 1 + random.below(4),
        defaults: defaults(random, slots),
        ..small(random)
    };
    for entry in &mut setup.entries[..slots] {
        let mut next = || match random.chance(90) {
            true => Code(random.pick(&QUICK_CODES)),
            false => code(random),
        };
        (entry.reset, entry.dl_up) = (next(), next());
        (entry.flr, entry.d3hot) = (next(), next());
    }
    setup
}

/// A quick set-up with one thing wrong, or counting other slots than it lends memory for.
pub fn quick_and_bad(random: &mut Random) -> Setup {
    let mut setup = quick(random);
    match random.below(5) {
        0 => setup.cells = 0,
        1 => spoil_codes(&mut setup, random),
        2 => spoil_defaults(&mut setup, random),
        _ => super::lateness::counting_others(random, &mut setup),
    }
    setup
}

/// A set-up with a small image and one thing wrong.
pub fn small_and_bad(random: &mut Random) -> Setup {
    let mut setup = small(random);
    match random.below(4) {
        0 => setup.statuses -= 1,
        1 => setup.cells = 0,
        2 => spoil_codes(&mut setup, random),
        _ => spoil_defaults(&mut setup, random),
    }
    setup
}

/// A length next to the right one.
fn near(random: &mut Random, right: usize, most: usize) -> usize {
    let next = match random.below(6) {
        0 => right + 1,
        1 => right.saturating_sub(1),
        2 => right + WORDS_PER_SLOT,
        3 => right.saturating_sub(WORDS_PER_SLOT),
        4 => 0,
        _ => random.below(most + 1),
    };
    next.min(most)
}

fn no_slots(setup: &mut Setup, random: &mut Random) {
    setup.slots = 0;
    if random.chance(70) {
        setup.statuses = 0;
        setup.live_words = 0;
        setup.defaults.clear();
    }
}

fn too_many_slots(setup: &mut Setup, random: &mut Random) {
    setup.slots = random.pick(&[33, 33, 33, 34, 64, 255]);
    setup.statuses = 32;
    if random.chance(50) {
        setup.live_words = 33 * WORDS_PER_SLOT;
        setup.defaults = defaults(random, 33);
    }
}

fn spoil_lengths(setup: &mut Setup, random: &mut Random) {
    match random.weighted(&[3, 6, 6, 6, 2]) {
        0 => no_slots(setup, random),
        1 => {
            let right = setup.statuses;
            setup.statuses = random
                .pick(&[right + 1, right.saturating_sub(1), 0, 32, right + 2])
                .min(MOST_SLOTS);
        }
        2 => setup.live_words = near(random, setup.live_words, setup.live_words + 64),
        3 => {
            let length = near(random, setup.defaults.len(), setup.defaults.len() + 64);
            setup.defaults.resize(length.min(2112), 0);
        }
        _ => too_many_slots(setup, random),
    }
    setup.live_words = setup.live_words.min(2112);
}

fn spoil_queue(setup: &mut Setup, random: &mut Random) {
    setup.cells = match random.below(8) {
        0 => 4096,
        1 => random.pick(&[4097, 4200, 4095]),
        _ => 0,
    };
}

fn spoil_codes(setup: &mut Setup, random: &mut Random) {
    let slots = usize::from(setup.slots).clamp(1, MOST_SLOTS);
    let entry = &mut setup.entries[random.below(slots)];
    let bad = match random.chance(60) {
        true => Code(random.pick(&BAD_CODES)),
        false => Code(0xA1F + random.below(0x10000 - 0xA1F) as u16),
    };
    match random.below(4) {
        0 => entry.reset = bad,
        1 => entry.dl_up = bad,
        2 => entry.flr = bad,
        _ => entry.d3hot = bad,
    }
}

fn spoil_defaults(setup: &mut Setup, random: &mut Random) {
    let slots = setup.defaults.len() / WORDS_PER_SLOT;
    if slots == 0 {
        return;
    }
    let first = random.below(slots) * WORDS_PER_SLOT;
    let (word, bit) =
        random.pick(&[(DEVICE_CONTROL, 15), (DEVICE_CONTROL, 21), (PMCSR, 0), (PMCSR, 1)]);
    setup.defaults[first + word] |= 1 << bit;
}

/// A set-up with one or two things wrong.
pub fn bad(random: &mut Random) -> Setup {
    let mut setup = good(random);
    let times = if random.chance(20) { 2 } else { 1 };
    for _ in 0..times {
        match random.weighted(&[5, 2, 5, 5]) {
            0 => spoil_lengths(&mut setup, random),
            1 => spoil_queue(&mut setup, random),
            2 => spoil_codes(&mut setup, random),
            _ => spoil_defaults(&mut setup, random),
        }
    }
    setup
}

/// A set-up with a code that is too high, and nothing else wrong.
pub fn with_bad_code(random: &mut Random) -> Setup {
    let mut setup = good(random);
    spoil_codes(&mut setup, random);
    setup
}

/// A set-up of any count of slots with any codes and no memory, which is refused with 1 but for its sheets.
pub fn with_nothing_lent(random: &mut Random) -> Setup {
    let slots = match random.below(10) {
        0..=2 => MOST_SLOTS as u8,
        3 => random.pick(&[0, 1, 31, 33, 34, 64, 255]),
        _ => 1 + random.below(MOST_SLOTS) as u8,
    };
    let entry = |random: &mut Random| {
        let mut codes = [0; 4].map(|_| code(random));
        if random.chance(10) {
            codes = [0; 4].map(|_| Code(random.u16()));
        }
        let [reset, dl_up, flr, d3hot] = codes;
        SlotEntry { reset, dl_up, flr, d3hot, sends_frs: random.chance(50), ..SlotEntry::BLANK }
    };
    Setup {
        slots,
        statuses: 0,
        live_words: 0,
        cells: 0,
        bus: 0,
        port_id: 0,
        conventional: false,
        entries: [SlotEntry::BLANK; MOST_SLOTS].map(|_| entry(random)),
        defaults: Vec::new(),
    }
}
