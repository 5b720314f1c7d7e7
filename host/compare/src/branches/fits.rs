//! The reasons for no fit in their order, what became of chroma and of each value, and the chroma correlation.
//!
//! NaN is no branch here, though it would be compared. The correlation divides a finite sum by one above 1e-9. In a fit
//! a value would have to overflow first: sums are at most 2^48, an elimination's factors at most 1 and its pivots at least
//! 1e-9, which keeps every value at lag 1, and luma's at lag 2, below 2^1002; of the others none is known that comes near.
//! `solve_normal/quantised` and `quant_ar` meet NaN.

use super::{Branches, Taken, dot, noise, those};
use crate::input::{Input, plane_size};
use oracle::values;

pub const FIT: Branches = Branches {
    all: &[
        "lag 0",
        "width below 2 x lag",
        "width 2 x lag",
        "width 2 x lag + 1",
        "height below the lag",
        "height the lag",
        "height lag + 1",
        "no energy",
        "no solution",
        "all coefficients 0",
        "found at lag 1",
        "found at lag 2",
        "found at lag 3",
        "monochrome",
        "chroma too small",
        "chroma unsolved",
        SOLVED,
        Y[0],
        Y[1],
        Y[2],
        CB[0],
        CB[1],
        CB[2],
        CR[0],
        CR[1],
        CR[2],
        CB_TAP[0],
        CB_TAP[1],
        CB_TAP[2],
        CR_TAP[0],
        CR_TAP[1],
        CR_TAP[2],
        TRUE_ENDS[0],
        TRUE_ENDS[1],
    ],
    taken: fit,
};

const SOLVED: &str = "chroma solved";

/// Names by the marks' numbers.
type Marks = [&'static str; 3];

const Y: Marks = ["Y inside", "Y held low", "Y held high"];
const CB: Marks = ["Cb inside", "Cb held low", "Cb held high"];
const CR: Marks = ["Cr inside", "Cr held low", "Cr held high"];
const CB_TAP: Marks = ["Cb's tap inside", "Cb's tap held low", "Cb's tap held high"];
const CR_TAP: Marks = ["Cr's tap inside", "Cr's tap held low", "Cr's tap held high"];
const TRUE_ENDS: [&str; 2] = ["-128 inside", "127 inside"];

/// The names of the marks that are among these.
fn marked(names: Marks, marks: &[u64]) -> impl Iterator<Item = &'static str> {
    let met = (0..).zip(names).filter(|(mark, _)| marks.contains(mark));
    met.map(|(_, name)| name)
}

/// Which end a coefficient has that wasn't held there.
fn true_ends(coefficients: &[u64], marks: &[u64]) -> Taken {
    let inside = |&(_, &mark): &(&u64, &u64)| mark == 0;
    let ends = coefficients.iter().zip(marks).filter(inside);
    let has = |end: i64| ends.clone().any(|(&c, _)| c == end as u64);
    those([(TRUE_ENDS[0], has(-128)), (TRUE_ENDS[1], has(127))])
}

fn fit(input: &Input, words: &[u64]) -> Taken {
    let (w, h, lag) = (input.width, input.height, input.number as usize);
    if lag == 0 {
        return vec!["lag 0"];
    }
    let mut taken = those([
        ("width below 2 x lag", w < 2 * lag),
        ("width 2 x lag", w == 2 * lag),
        ("width 2 x lag + 1", w == 2 * lag + 1),
        ("height below the lag", h < lag),
        ("height the lag", h == lag),
        ("height lag + 1", h == lag + 1),
    ]);
    if words[0] == 1 {
        taken.push(["found at lag 1", "found at lag 2", "found at lag 3"][lag - 1]);
        taken.extend(planes(input, &words[2..]));
    } else if w > 2 * lag && h > lag {
        taken.push(no_fit(input, lag));
    }
    taken
}

/// What became of the planes of a fit, by the coefficients and then their marks.
fn planes(input: &Input, words: &[u64]) -> Taken {
    let lag = input.number as usize;
    let count = 2 * lag * (lag + 1);
    let (coefficients, marks) = words.split_at(words.len() / 2);
    let mut taken = true_ends(coefficients, marks);
    taken.extend(marked(Y, &marks[..count]));
    for (component, neighbours, tap) in [(1, CB, CB_TAP), (2, CR, CR_TAP)] {
        let start = component * (count + 1) - 1;
        let own = start..start + count + 1;
        let finding = chroma(input, component, &coefficients[own.clone()]);
        taken.push(finding);
        if finding == SOLVED {
            let marks = &marks[own];
            taken.extend(marked(neighbours, &marks[..count]));
            taken.extend(marked(tap, &marks[count..]));
        }
    }
    taken
}

/// Why a plane that is large enough has no fit.
fn no_fit(input: &Input, lag: usize) -> &'static str {
    let w = input.width;
    let noise = noise(input, 0, 0);
    let rows = noise.chunks(w).skip(lag);
    let energy: i64 = rows.map(|row| &row[lag..w - lag]).map(|r| dot(r, r)).sum();
    match values::luma(&input.frames[0], &input.denoised[0], lag) {
        None if energy == 0 => "no energy",
        None => "no solution",
        Some(_) => "all coefficients 0",
    }
}

fn chroma(input: &Input, component: usize, coefficients: &[u64]) -> &'static str {
    let lag = input.number as usize;
    let (w, h) = plane_size(input.format, (input.width, input.height), component);
    let solved = || values::chroma(&input.frames[0], &input.denoised[0], component, lag).is_some();
    match () {
        () if input.format == 0 => "monochrome",
        () if w <= 2 * lag || h <= lag => "chroma too small",
        () if coefficients.iter().any(|&c| c != 0) || solved() => SOLVED,
        () => "chroma unsolved",
    }
}

pub const CHROMA_CORRELATION: Branches = Branches {
    all: &[
        "monochrome",
        "no average",
        CB[0],
        CB[1],
        CB[2],
        CR[0],
        CR[1],
        CR[2],
        TRUE_ENDS[0],
        TRUE_ENDS[1],
    ],
    taken: chroma_correlation,
};

fn chroma_correlation(input: &Input, words: &[u64]) -> Taken {
    if input.format == 0 {
        return vec!["monochrome"];
    }
    let averages = values::averages(&input.frames[0], &input.denoised[0]);
    if averages.iter().all(|&a| a == 0.0) {
        return vec!["no average"];
    }
    let (coefficients, marks) = words.split_at(2);
    let mut taken = true_ends(coefficients, marks);
    taken.extend(marked(CB, &marks[..1]));
    taken.extend(marked(CR, &marks[1..]));
    taken
}
