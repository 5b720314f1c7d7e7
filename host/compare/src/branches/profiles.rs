//! Sigma16 of a plane, and the profile's bins.

use super::{Branches, Taken, noise, those};
use crate::input::Input;

pub const SIGMA16: Branches = Branches {
    all: &["no samples", "a half, rounded up", "no half"],
    taken: sigma16,
};

/// 16 × root(s / n) is k − 1/2 exactly if 1024 × s = (2k − 1)² × n.
fn sigma16(input: &Input, words: &[u64]) -> Taken {
    let shifted = noise(input, 0, 0)
        .into_iter()
        .map(|d| d >> (input.depth - 8));
    let (n, s) = shifted.fold((0, 0), |(n, s), d| (n + 1, s + i128::from(d * d)));
    let odd = 2 * i128::from(words[0]) - 1;
    let half = words[0] > 0 && 1024 * s == odd * odd * n;
    those([
        ("no samples", n == 0),
        ("a half, rounded up", n > 0 && half),
        ("no half", n > 0 && !half),
    ])
}

pub const PROFILE: Branches = Branches {
    all: &[
        "monochrome",
        "luma: at least 64 wanted",
        "luma: more than 64 wanted",
        "luma: a bin has just what is wanted",
        "luma: a bin has one sample less",
        "chroma: at least 32 wanted",
        "chroma: more than 32 wanted",
        "chroma: a bin has just what is wanted",
        "chroma: a bin has one sample less",
    ],
    taken: profile,
};

/// How many words the sigma16s are, before the counts and squares of each plane.
const SIGMAS: usize = 9 + 5 + 5;

fn profile(input: &Input, words: &[u64]) -> Taken {
    let [luma, chroma] = [&input.frames[0].y, &input.frames[0].u].map(|plane| plane.len() as u64);
    let (y, chromas) = words[SIGMAS..].split_at(16);
    let (cb, cr) = chromas.split_at(8);
    let mut taken = those([
        ("monochrome", chroma == 0),
        ("luma: at least 64 wanted", luma / 100 <= 64),
        ("luma: more than 64 wanted", luma / 100 > 64),
        (
            "chroma: at least 32 wanted",
            chroma > 0 && chroma / 100 <= 32,
        ),
        ("chroma: more than 32 wanted", chroma / 100 > 32),
    ]);
    let wanted = (luma / 100).max(64);
    taken.extend(those([
        (
            "luma: a bin has just what is wanted",
            y[..8].contains(&wanted),
        ),
        (
            "luma: a bin has one sample less",
            y[..8].contains(&(wanted - 1)),
        ),
    ]));
    let wanted = (chroma / 100).max(32);
    let some = |count| cb[..4].contains(&count) || cr[..4].contains(&count);
    taken.extend(those([
        ("chroma: a bin has just what is wanted", some(wanted)),
        ("chroma: a bin has one sample less", some(wanted - 1)),
    ]));
    taken
}
