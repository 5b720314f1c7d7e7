//! What a clip's figures come to, in a sentence: grain or not, at which lag, because of what. The answers are the
//! library's gates'; the lag is the command's own reading of the fits.

use crate::figures::{Planes, Profile};
use crate::summary::{ClipFit, GateCount, in_frames};
use serde::Serialize;

/// A coefficient counts from so many 64ths on, and from so many times what chance makes of none.
const COUNTS: f64 = 2.0;
const CHANCE: f64 = 4.0;

/// What is said wherever the built-in denoiser made the copy.
pub const CAUTION: &str = "The denoised copy is the built-in denoiser's, so picture detail counts as noise: \
    a picture without grain may pass. --denoised CLIP with a true copy settles it.";

#[derive(Debug, Clone, Serialize)]
pub struct Verdict {
    /// Luma's answer to the first pair, by which an encoder goes; `None` without a pair.
    pub grain: Option<bool>,
    /// The least lag that leaves no coefficient out that counts; 0 is white grain.
    pub lag: Option<u8>,
    pub sentence: String,
    /// Which planes have coefficients at that lag that were held or NaN, in a sentence.
    pub held: Option<String>,
    /// `None` where a denoised copy was given.
    pub caution: Option<&'static str>,
}

impl Verdict {
    pub fn new(
        profile: &Planes<Profile>,
        gates: Option<&Planes<GateCount>>,
        fits: &[Option<ClipFit>],
        (marked, reported): (&[Planes<usize>; 4], usize),
        copy_given: bool,
    ) -> Self {
        let caution = (!copy_given).then_some(CAUTION);
        let Some(gates) = gates else {
            return Verdict {
                grain: None,
                lag: None,
                sentence: "No verdict: no frame follows another, and the gates want two."
                    .to_string(),
                held: None,
                caution,
            };
        };
        let luma = &gates.y;
        let counts = format!("{} of {} pairs pass", luma.passed, luma.pairs);
        if let Some(why) = luma.why {
            let other = match luma.passed {
                0 => "",
                _ => "; --from N begins at another frame",
            };
            return Verdict {
                grain: Some(false),
                lag: None,
                sentence: format!("No grain, since in the first pair {why}; {counts}{other}."),
                held: None,
                caution,
            };
        }
        let most = match 2 * luma.passed < luma.pairs {
            true => ", fewer than half: --from N begins at another frame",
            false => "",
        };
        let (lag, because) = lag(profile, gates, fits);
        Verdict {
            grain: Some(true),
            lag: Some(lag),
            sentence: format!(
                "Grain, by the first pair; {counts}{most}. {because}{}",
                chroma(gates)
            ),
            held: held(lag, gates, &marked[usize::from(lag)], reported),
            caution,
        }
    }
}

/// The least lag that is enough for the planes with grain, and a sentence that says why.
fn lag(
    profile: &Planes<Profile>,
    gates: &Planes<GateCount>,
    fits: &[Option<ClipFit>],
) -> (u8, String) {
    let Some(highest) = fits.iter().rev().flatten().next() else {
        return (0, "Lag 0, since there is no fit at any lag.".to_string());
    };
    let places = grain::ar_positions(highest.lag.into()).expect("a fit has a lag of 1 to 3");
    // How far off each neighbour is, and its mean.
    let mut means: Vec<(u8, f64)> = Vec::new();
    let mut lag = 0;
    for ((name, gate), (_, profile)) in gates.named().zip(profile.named()) {
        let coefficients = highest.fit.plane(name).map_or(&[][..], |(of, _)| of);
        if !gate.first {
            continue;
        }
        let chance = 64.0 / (profile.samples() as f64).sqrt();
        let counts = COUNTS.max(CHANCE * chance);
        for (&(row, column), coefficient) in places.iter().zip(coefficients) {
            let ring = row.abs().max(column.abs()) as u8;
            let mean = coefficient.spread.mean.abs();
            means.push((ring, mean));
            if mean >= counts {
                lag = lag.max(ring);
            }
        }
    }
    let most = |rings: std::ops::RangeInclusive<u8>| {
        let there = means.iter().filter(|(ring, _)| rings.contains(ring));
        there.map(|(_, mean)| *mean).fold(0.0, f64::max)
    };
    let because = if lag == highest.lag {
        let outermost = most(lag..=lag);
        format!(
            "Lag {lag}, the highest fitted: its outermost neighbours have up to {outermost:.0}/64."
        )
    } else {
        let (all, farther) = (highest.lag, most(lag + 1..=highest.lag));
        let white = if lag == 0 { " (white)" } else { "" };
        format!(
            "Lag {lag}{white} is enough, since farther off the lag-{all} fit has at most {farther:.1}/64."
        )
    };
    (lag, because)
}

/// In how many frames a plane with grain has a coefficient at this lag that was held or NaN.
fn held(
    lag: u8,
    gates: &Planes<GateCount>,
    marked: &Planes<usize>,
    reported: usize,
) -> Option<String> {
    let planes = gates.named().zip(marked.named());
    let with_grain = planes.filter(|((_, gate), _)| gate.first);
    let words = in_frames(with_grain.map(|(_, marked)| marked), reported)?;
    Some(format!(
        "At lag {lag} the header can't hold every value: {words}."
    ))
}

/// Chroma's own answers.
fn chroma(gates: &Planes<GateCount>) -> String {
    let named = gates.named().filter(|(name, _)| *name != "Y");
    let words: Vec<_> = named
        .map(|(name, gate)| {
            let answer = if gate.first { "grain" } else { "no grain" };
            format!("{name}: {answer}, {} of {}", gate.passed, gate.pairs)
        })
        .collect();
    match words.is_empty() {
        true => String::new(),
        false => format!(" {}.", words.join("; ")),
    }
}
