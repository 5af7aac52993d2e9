//! The exports of the proved libraries, where the package is built with the feature `library`.

/// A whole run: card, trace, size of a piece, answers, image; gives a number.
pub type Runner = fn(&[u8], &[u8], usize, &mut [u8], &mut [u8]) -> u64;

/// Both are runners. A replay takes a capture for the trace, in one call, whatever the size of a piece.
pub struct Library {
    pub run: Runner,
    pub replay: Runner,
}

/// The proved library, if it is linked.
pub fn library() -> Option<Library> {
    #[cfg(feature = "library")]
    return Some(Library { run: linked::run, replay: linked::replay });
    #[cfg(not(feature = "library"))]
    None
}

#[cfg(feature = "library")]
mod linked {
    extern "C" {
        // A slice goes as a pointer and a length.
        fn otsnebura_run(
            card: *const u8,
            card_length: usize,
            trace: *const u8,
            trace_length: usize,
            piece: usize,
            answers: *mut u8,
            answers_length: usize,
            image: *mut u8,
            image_length: usize,
        ) -> u64;

        fn otsnebura_replay(
            card: *const u8,
            card_length: usize,
            capture: *const u8,
            capture_length: usize,
            answers: *mut u8,
            answers_length: usize,
            image: *mut u8,
            image_length: usize,
        ) -> u64;
    }

    pub fn run(
        card: &[u8],
        trace: &[u8],
        piece: usize,
        answers: &mut [u8],
        image: &mut [u8],
    ) -> u64 {
        // The export asks nothing of its caller but that the slices be slices.
        unsafe {
            otsnebura_run(
                card.as_ptr(),
                card.len(),
                trace.as_ptr(),
                trace.len(),
                piece,
                answers.as_mut_ptr(),
                answers.len(),
                image.as_mut_ptr(),
                image.len(),
            )
        }
    }

    pub fn replay(
        card: &[u8],
        capture: &[u8],
        _: usize,
        answers: &mut [u8],
        image: &mut [u8],
    ) -> u64 {
        // Nor does this one.
        unsafe {
            otsnebura_replay(
                card.as_ptr(),
                card.len(),
                capture.as_ptr(),
                capture.len(),
                answers.as_mut_ptr(),
                answers.len(),
                image.as_mut_ptr(),
                image.len(),
            )
        }
    }
}
