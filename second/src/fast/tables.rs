//! Tables of the fast model: record lengths, byte lanes, and the words that a reset reaches.

use crate::records::record_length;
use crate::registers::{Masks, TABLE};
use crate::setup::WORDS_PER_SLOT;

/// The longest record, a message with its byte of kind.
pub const LONGEST: usize = 17;

/// A record's length by its byte of kind; 0 for an unknown kind.
pub static LENGTHS: [u8; 256] = lengths();

const fn lengths() -> [u8; 256] {
    let mut lengths = [0; 256];
    let mut kind = 0;
    while kind < 256 {
        if let Some(length) = record_length(kind as u8) {
            lengths[kind] = length as u8;
        }
        kind += 1;
    }
    lengths
}

/// The bits of the bytes that the enables choose.
pub static LANES: [u32; 16] = lanes();

const fn lanes() -> [u32; 16] {
    let mut lanes = [0; 16];
    let mut enables = 0;
    while enables < 16 {
        let mut byte = 0;
        while byte < 4 {
            if enables >> byte & 1 == 1 {
                lanes[enables] |= 0xFF << (8 * byte);
            }
            byte += 1;
        }
        enables += 1;
    }
    lanes
}

/// How many words have attributes; a reset reaches no others.
const LISTED: usize = 10;

/// A word with attributes, and its bits that a reset reaches.
#[derive(Clone, Copy)]
pub struct Reached {
    pub word: usize,
    pub bits: u32,
}

/// Link down, and D3hot to D0 with No_Soft_Reset 0.
pub const BY_LINK_DOWN: [Reached; LISTED] = reached(false);
/// FLR, which keeps the bits in K.
pub const BY_FLR: [Reached; LISTED] = reached(true);

const fn reached(keeps_k: bool) -> [Reached; LISTED] {
    let mut list = [Reached { word: 0, bits: 0 }; LISTED];
    let mut count = 0;
    let mut word = 0;
    while word < WORDS_PER_SLOT {
        let Masks { w, c, s, k } = TABLE[word];
        if w | c != 0 {
            let kept = if keeps_k { s | k } else { s };
            list[count] = Reached { word, bits: (w | c) & !kept };
            count += 1;
        }
        word += 1;
    }
    assert!(count == LISTED);
    list
}
