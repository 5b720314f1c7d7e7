//! Row correlation, and the tests of the gates in their order. That the first frame has no energy is no finding of the
//! luma gate: its sigma16 is then below 16.

use super::{Branches, Taken, dot, noise, those};
use crate::input::{Input, plane_size};
use crate::noise::Size;
use oracle::reach;

pub const ROW_CORRELATION: Branches = Branches {
    all: &[
        "lag 0",
        "width at most the lag",
        "no rows",
        "no energy",
        "positive",
        "negative",
    ],
    taken: row_correlation,
};

fn row_correlation(input: &Input, words: &[u64]) -> Taken {
    let (lag, width) = (input.number, input.width as u64);
    let noise = noise(input, 0, 0);
    let finding = match () {
        () if lag == 0 => "lag 0",
        () if width <= lag => "width at most the lag",
        () if input.height == 0 => "no rows",
        () if dot(&noise, &noise) == 0 => "no energy",
        () if f64::from_bits(words[0]).is_sign_negative() => "negative",
        () => "positive",
    };
    vec![finding]
}

/// The tests that both gates have, by whether a frame has energy, how alike its columns are and how alike the two frames.
const ROW_HIGH: &str = "row correlation 0.75 or more";
const ROW_LOW: &str = "row correlation -0.75 or less";
const ROW_LIMIT: &str = "row correlation of magnitude 0.75";
const SECOND: &str = "no energy in the second";
const TIME_HIGH: &str = "temporal correlation 0.4 or more";
const TIME_LOW: &str = "temporal correlation -0.4 or less";
const TIME_LIMIT: &str = "temporal correlation of magnitude 0.4";
const TIME_ROUNDED: &str = "temporal correlation below 0.4 that rounds to it";
const YES: &str = "yes";

pub const LUMA_GATE: Branches = Branches {
    all: &[
        "sigma16 below 16",
        "sigma16 15",
        "sigma16 16",
        ROW_HIGH,
        ROW_LOW,
        ROW_LIMIT,
        SECOND,
        TIME_HIGH,
        TIME_LOW,
        TIME_LIMIT,
        TIME_ROUNDED,
        YES,
    ],
    taken: luma,
};

fn luma(input: &Input, words: &[u64]) -> Taken {
    let (src, den) = (&input.frames[0].y, &input.denoised[0].y);
    let sigma16 = reach::plane_sigma16(src, den, input.depth);
    let mut taken = those([
        ("sigma16 below 16", sigma16 < 16),
        ("sigma16 15", sigma16 == 15),
        ("sigma16 16", sigma16 == 16),
    ]);
    if sigma16 >= 16 {
        taken.extend(row(input, 0).unwrap_or_else(|| time(input, 0, words)));
    }
    taken
}

const CHROMA: &[&str] = &[
    "sigma16 below 8",
    "sigma16 7",
    "sigma16 8",
    "an empty plane",
    ROW_HIGH,
    ROW_LOW,
    ROW_LIMIT,
    "no energy in the first",
    SECOND,
    TIME_HIGH,
    TIME_LOW,
    TIME_LIMIT,
    TIME_ROUNDED,
    YES,
];

pub const CB_GATE: Branches = Branches {
    all: CHROMA,
    taken: |input, words| chroma(input, 1, words),
};

pub const CR_GATE: Branches = Branches {
    all: CHROMA,
    taken: |input, words| chroma(input, 2, words),
};

fn chroma(input: &Input, component: usize, words: &[u64]) -> Taken {
    let first = noise(input, 0, component);
    let mut taken = those([
        ("sigma16 below 8", input.number < 8),
        ("sigma16 7", input.number == 7),
        ("sigma16 8", input.number == 8),
    ]);
    taken.extend(match () {
        () if input.number < 8 => Taken::new(),
        () if first.is_empty() => vec!["an empty plane"],
        () => row(input, component).unwrap_or_else(|| match dot(&first, &first) {
            0 => vec!["no energy in the first"],
            _ => time(input, component, words),
        }),
    });
    taken
}

fn size(input: &Input, component: usize) -> Size {
    plane_size(input.format, (input.width, input.height), component)
}

/// What the row correlation of the first frame says, if it ends the gate.
fn row(input: &Input, component: usize) -> Option<Taken> {
    let noise = noise(input, 0, component);
    let (width, _) = size(input, component);
    let rows = noise.chunks(width);
    let sum: i64 = rows.map(|row| dot(row, &row[1..])).sum();
    let energy = dot(&noise, &noise);
    let found = those([
        (ROW_HIGH, 4 * sum >= 3 * energy),
        (ROW_LOW, -4 * sum >= 3 * energy),
        (ROW_LIMIT, 4 * sum.abs() == 3 * energy),
    ]);
    (energy > 0 && !found.is_empty()).then_some(found)
}

/// What comes after the row correlation.
fn time(input: &Input, component: usize, words: &[u64]) -> Taken {
    let [first, second] = [0, 1].map(|frame| noise(input, frame, component));
    let [e0, e1] = [&first, &second].map(|noise| i128::from(dot(noise, noise)));
    if e1 == 0 {
        return vec![SECOND];
    }
    let cross = i128::from(dot(&first, &second));
    let (square, limit) = (25 * cross * cross, 4 * e0 * e1);
    let yes = words == [1];
    those([
        (TIME_HIGH, !yes && cross > 0 && square >= limit),
        (TIME_LOW, !yes && cross < 0 && square >= limit),
        (TIME_LIMIT, !yes && square == limit),
        (TIME_ROUNDED, !yes && square < limit),
        (YES, yes),
    ])
}
