//! The branches of each call: a run counts how many of its accepted cases take each, and fails where none does.
//!
//! A case is told by its input and by the Rust's answer; sums are whole numbers here, so that each side of a threshold is
//! told exactly.

mod fits;
mod gates;
mod headers;
mod profiles;
mod rectangles;
mod root;
mod solver;

use crate::input::{Input, Plane};
pub use fits::{CHROMA_CORRELATION, FIT};
pub use gates::{CB_GATE, CR_GATE, LUMA_GATE, ROW_CORRELATION};
pub use headers::HEADER;
pub use profiles::{PROFILE, SIGMA16};
pub use rectangles::{RECTANGLES, rectangle};
pub use root::ROOT;
pub use solver::{QUANTISED_SOLUTION, QUANTISER, SOLVER};

/// The branches that a case takes.
pub type Taken = Vec<&'static str>;

pub struct Branches {
    pub all: &'static [&'static str],
    /// Those of an accepted case with this answer.
    pub taken: fn(&Input, &[u64]) -> Taken,
}

/// Which of two names.
fn either(first: bool, names: [&'static str; 2]) -> Taken {
    vec![names[usize::from(!first)]]
}

/// The names whose test is passed.
fn those<const N: usize>(tests: [(&'static str, bool); N]) -> Taken {
    let passed = tests.into_iter().filter(|(_, passed)| *passed);
    passed.map(|(name, _)| name).collect()
}

/// A component's noise in one frame.
fn noise(input: &Input, frame: usize, component: usize) -> Vec<i64> {
    let plane = |denoised| {
        input.plane(Plane {
            frame,
            denoised,
            component,
        })
    };
    let both = plane(false).iter().zip(plane(true));
    both.map(|(&s, &d)| i64::from(s) - i64::from(d)).collect()
}

fn dot(a: &[i64], b: &[i64]) -> i64 {
    a.iter().zip(b).map(|(x, y)| x * y).sum()
}

const EMPTY: [&str; 2] = ["no samples", "samples"];

pub const DENOISE_PLANE: Branches = Branches {
    all: &EMPTY,
    taken: |input, _| either(input.frames[0].y.is_empty(), EMPTY),
};

const CHROMA: [&str; 2] = ["monochrome", "with chroma"];

pub const DENOISE_FRAME: Branches = Branches {
    all: &CHROMA,
    taken: |input, _| either(input.format == 0, CHROMA),
};

const LAGS: [&str; 4] = ["lag 0", "lag 1", "lag 2", "lag 3"];

pub const POSITIONS: Branches = Branches {
    all: &LAGS,
    taken: |input, _| vec![LAGS[input.number as usize]],
};

const HINTS: [&str; 2] = ["a hint of 16 bits", "a hint above 16 bits"];

pub const SEED: Branches = Branches {
    all: &HINTS,
    taken: |input, _| either(input.number < 1 << 16, HINTS),
};

pub const REGISTER: Branches = Branches {
    all: &["0 bits", "1 to 15 bits", "16 bits"],
    taken: |input, _| {
        those([
            ("0 bits", input.number == 0),
            ("1 to 15 bits", (1..16).contains(&input.number)),
            ("16 bits", input.number == 16),
        ])
    },
};
