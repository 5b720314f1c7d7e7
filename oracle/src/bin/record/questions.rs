//! The scope's questions, in its order. The Rust has none: a refused call's number is from here.
use crate::calls::Call;
use crate::planes::{Case, Pair};

/// The number of the first question failed, of those that the call is asked; 0 where it passes all.
pub fn refusal(call: Call, case: &Case, pairs: &[Pair]) -> u64 {
    let questions = [
        (1, case.width <= 4096 && case.height <= 4096),
        (2, !call.is_frame() || (case.width >= 1 && case.height >= 1)),
        (3, !call.has_depth() || [8, 10, 12].contains(&case.depth)),
        (4, !call.is_frame() || case.format <= 3),
        (5, lengths_right(call, case, pairs)),
        (6, !call.has_depth() || samples_low(call, case, pairs)),
        (7, call != Call::FitArLag || case.argument <= 3),
    ];
    questions
        .iter()
        .find(|(_, passed)| !passed)
        .map_or(0, |(number, _)| *number)
}

fn lengths_right(call: Call, case: &Case, pairs: &[Pair]) -> bool {
    pairs.iter().enumerate().all(|(i, pair)| {
        let samples = if call.is_luma(i) {
            case.luma()
        } else {
            case.chroma()
        };
        pair.src.len() == samples && pair.den.len() == samples
    })
}

/// A destination's samples are neither source nor denoised samples.
fn samples_low(call: Call, case: &Case, pairs: &[Pair]) -> bool {
    let low = |plane: &[u16]| {
        plane
            .iter()
            .all(|&s| u64::from(s) < 1 << case.depth.min(63))
    };
    pairs
        .iter()
        .all(|pair| low(&pair.src) && (call == Call::DenoiseFrame || low(&pair.den)))
}
