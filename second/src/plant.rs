//! Planted faults, each run against the sound model until a generated case tells them apart.

use std::panic::{catch_unwind, AssertUnwindSafe};

use crate::faults::{Described, Fault, FAULTS};
use crate::generate;
use crate::registers::{Table, TABLE};
use crate::run::{run_case, run_case_with, run_stream, Ended};
use crate::setup::WORDS_PER_SLOT;
use crate::stream::{put_case, VERSION};

/// What a stream gives with a fault planted: how it ended, and its output.
fn outcome(stream: &[u8], fault: Fault) -> (Ended, Vec<u8>) {
    let mut output = Vec::new();
    let ended = run_stream(stream, &mut output, fault).expect("memory is read and written");
    (ended, output)
}

/// A fault that panics is told apart as well.
fn is_caught(stream: &[u8], sound: &(Ended, Vec<u8>), fault: Fault) -> bool {
    match catch_unwind(AssertUnwindSafe(|| outcome(stream, fault))) {
        Ok(faulty) => faulty != *sound,
        Err(_) => true,
    }
}

/// For each fault the number of cases needed to catch it, or none within the limit.
fn hunt(seed: u64, cases: u64) -> Vec<Option<u64>> {
    let mut needed: Vec<Option<u64>> = vec![None; FAULTS.len()];
    for number in 0..cases {
        if needed.iter().all(Option::is_some) {
            break;
        }
        let mut stream = vec![VERSION];
        put_case(&generate::case(seed, number), &mut stream);
        let sound = outcome(&stream, Fault::None);
        for (described, needed) in FAULTS.iter().zip(&mut needed) {
            if needed.is_none() && is_caught(&stream, &sound, described.fault) {
                *needed = Some(number + 1);
            }
        }
    }
    needed
}

fn cases_needed(needed: Option<u64>) -> String {
    needed.map_or("not caught".to_string(), |cases| cases.to_string())
}

fn print_table(needed: &[Option<u64>]) {
    println!("| section | sentence | planted instead | cases needed |");
    println!("|---|---|---|---|");
    for (described, needed) in FAULTS.iter().zip(needed) {
        let Described { section, sentence, instead, .. } = described;
        println!("| {section} | {sentence} | {instead} | {} |", cases_needed(*needed));
    }
}

fn print_lines(needed: &[Option<u64>]) {
    for (described, needed) in FAULTS.iter().zip(needed) {
        let Described { fault, section, sentence, instead } = described;
        let needed = cases_needed(*needed);
        println!("{needed:>10}  {fault:?}: {section}: \"{sentence}\", but {instead}");
    }
}

/// Runs every planted fault; true if all were caught.
pub fn faults(seed: u64, cases: u64, table: bool) -> bool {
    let hook = std::panic::take_hook();
    std::panic::set_hook(Box::new(|_| {}));
    let needed = hunt(seed, cases);
    std::panic::set_hook(hook);
    if table {
        print_table(&needed);
    } else {
        print_lines(&needed);
    }
    let caught = needed.iter().flatten().count();
    eprintln!("{caught} of {} faults caught within {cases} cases of seed {seed}", FAULTS.len());
    caught == FAULTS.len()
}

/// One bit of one mask of one word.
struct Flip {
    mask: char,
    word: usize,
    bit: u32,
}

impl Flip {
    fn table(&self) -> Table {
        let mut table = TABLE;
        let row = &mut table[self.word];
        let mask = match self.mask {
            'W' => &mut row.w,
            'C' => &mut row.c,
            'S' => &mut row.s,
            _ => &mut row.k,
        };
        *mask ^= 1 << self.bit;
        table
    }

    /// S says something only of bits in W or C, K only of those not in S as well.
    fn matters(&self) -> bool {
        let row = TABLE[self.word];
        let bits = match self.mask {
            'S' => row.w | row.c,
            'K' => (row.w | row.c) & !row.s,
            _ => u32::MAX,
        };
        bits >> self.bit & 1 == 1
    }
}

fn all_flips() -> Vec<Flip> {
    let mut flips = Vec::new();
    for mask in ['W', 'C', 'S', 'K'] {
        for word in 0..WORDS_PER_SLOT {
            flips.extend((0..32).map(|bit| Flip { mask, word, bit }));
        }
    }
    flips.retain(Flip::matters);
    flips
}

/// Flips every bit of the register attributes in turn; true if all were caught.
pub fn masks(seed: u64, cases: u64) -> bool {
    let mut left = all_flips();
    let (count, mut needed) = (left.len(), 0);
    for number in 0..cases {
        if left.is_empty() {
            break;
        }
        let case = generate::case(seed, number);
        let sound = run_case(&case, Fault::None);
        let before = left.len();
        left.retain(|flip| run_case_with(&case, &flip.table()) == sound);
        if left.len() < before {
            needed = number + 1;
        }
    }
    for Flip { mask, word, bit } in &left {
        println!("not caught: mask {mask} of word {word} bit {bit} flipped");
    }
    let caught = count - left.len();
    println!("{caught} of {count} flipped attribute bits caught, the last after {needed} cases");
    left.is_empty()
}
