//! A whole run, as the proved library's export has it: a card's text and a trace in, answers and the final state out.

use crate::card;
use crate::fast::{feed, set_up};
use crate::setup::Setup;
use crate::state::State;
use crate::stream::{self, put_image};

/// The card's text is refused.
pub const BAD_CARD: u64 = 100;
/// The image is too short.
pub const SHORT_IMAGE: u64 = 101;

/// Bytes of the counts that stand before the state image: consumed and written.
const COUNTS: usize = 16;

/// How long the counts and the state image of this set-up are.
pub fn image_length(setup: &Setup) -> usize {
    COUNTS + stream::image_length(setup)
}

/// Writes the counts of bytes consumed and written, and the state image behind them.
pub fn put(state: &State, counts: [usize; 2], image: &mut [u8]) {
    let mut bytes = counts.map(|count| (count as u64).to_le_bytes()).concat();
    put_image(state, &mut bytes);
    image[..bytes.len()].copy_from_slice(&bytes);
}

/// Sets the card up and feeds it the trace in pieces; a piece of 0 stands for the whole trace. Gives the last call's number,
/// the number for which the set-up is refused, 100 or 101.
#[inline(never)]
pub fn run(card: &[u8], trace: &[u8], piece: usize, answers: &mut [u8], image: &mut [u8]) -> u64 {
    let Some(setup) = card::read(card) else {
        return BAD_CARD;
    };
    if image.len() < image_length(&setup) {
        return SHORT_IMAGE;
    }
    let mut state = State::zero(&setup);
    let mut number = set_up(&setup, &mut state);
    let (mut consumed, mut written) = (0, 0);
    let size = if piece == 0 { trace.len().max(1) } else { piece };
    for input in trace.chunks(size) {
        if number != 0 {
            break;
        }
        let fed = feed(&setup, &mut state, input, &mut answers[written..]);
        number = fed.number;
        consumed += fed.consumed;
        written += fed.written;
    }
    put(&state, [consumed, written], image);
    u64::from(number)
}

#[cfg(test)]
mod tests {
    use super::*;

    const CARD: &str = "slots 2\nqueue 3\nbus 01\nport 0008\n\
        slot 0 reset 000 dlup 000 flr 005 d3hot 000 frs yes\nword 0 74 10000000\n\
        slot 1 reset 000 dlup 00A flr 000 d3hot 000 frs no\nword 1 0 56781234\n";

    fn u64_at(image: &[u8], at: usize) -> u64 {
        u64::from_le_bytes(image[at..at + 8].try_into().unwrap())
    }

    /// The image, byte by byte: counts, 46 of the port, 27 a status, live words, cells.
    #[test]
    fn an_image_has_the_layout_of_version_2() {
        // Visibility and DRS by FRS; link up; 7 ns; FLR of slot 0; half a record.
        let trace = [0x0B, 0x09, 5, 1, 7, 0, 0, 0, 3, 0, 30, 2, 0, 0x80, 0, 0, 2, 1];
        let mut answers = [0xEE; 40];
        let mut image = vec![0xEE; 1000];
        assert_eq!(run(CARD.as_bytes(), &trace, 4, &mut answers, &mut image), 0);
        let length = 16 + 46 + 2 * 27 + 4 * (128 + 3);
        assert_eq!(image_length(&card::read(CARD.as_bytes()).unwrap()), length);
        assert!(image[length..].iter().all(|byte| *byte == 0xEE));
        assert_eq!([u64_at(&image, 0), u64_at(&image, 8)], [18, 32]);
        assert_eq!([u64_at(&image, 16), u64_at(&image, 24)], [7, 0]);
        assert_eq!(image[32..40], [1, 1, 0, 0, 0, 1, 0, 2]);
        assert_eq!(image[40..47], [0, 0, 0, 0, 2, 2, 1]);
        assert_eq!(image[47..62], [0; 15]);
        for (slot, (phase, cause, ready, flr_end)) in
            [(1, 2, 12, 12), (1, 1, 10, 0)].into_iter().enumerate()
        {
            let status = &image[62 + 27 * slot..62 + 27 * (slot + 1)];
            assert_eq!(status[..2], [phase, cause]);
            assert_eq!([u64_at(status, 2), u64_at(status, 10)], [ready, flr_end]);
            assert_eq!(status[18..], [0; 9]);
        }
        assert_eq!(image[116 + 4 * 29..116 + 4 * 30], [0, 0, 0, 0x10]);
        assert_eq!(image[116 + 4 * 64..116 + 4 * 65], [0x34, 0x12, 0x78, 0x56]);
        assert_eq!(image[length - 12..length], [0; 12]);
    }
}
