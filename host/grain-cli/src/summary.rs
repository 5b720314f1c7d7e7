//! The figures of a clip: its frames' figures taken together. Field names are those of the JSON report.

use crate::active::Active;
use crate::figures::{ChromaTaps, Fit, MarkCount, Planes, Profile};
use crate::verdict::Verdict;
use serde::Serialize;

#[derive(Debug, Clone, Serialize)]
pub struct ClipFigures {
    pub name: String,
    /// The denoised copy's name; `None` where the library's denoiser made it.
    pub denoised: Option<String>,
    pub width: usize,
    pub height: usize,
    pub depth: u8,
    pub format: &'static str,
    /// What every figure is of.
    pub active: Active,
    /// The first frame taken, how many were taken, and how many of those have figures.
    pub from: usize,
    pub frames: usize,
    pub reported: usize,
    /// Of all reported frames' samples together.
    pub profile: Planes<Profile>,
    /// Of all reported pairs; a clip of one frame has none.
    pub gates: Option<Planes<GateCount>>,
    /// At lags 1, 2 and 3; `None` where no frame has a fit.
    pub fits: Vec<Option<ClipFit>>,
    pub chroma_taps: Option<ChromaTaps<ClipCoefficient>>,
    /// By lag from 0, the number of frames in which a plane's coefficients are not all inside; lag 0 has chroma's taps
    /// without neighbours.
    pub marked: [Planes<usize>; 4],
    pub verdict: Verdict,
}

impl ClipFigures {
    /// Size, depth, format and frames, in words.
    pub fn about(&self) -> String {
        let (w, h, depth, format) = (self.width, self.height, self.depth, self.format);
        let mut words = match self.frames {
            1 => format!("{w}×{h}, {depth} bits, {format}, 1 frame"),
            n => format!("{w}×{h}, {depth} bits, {format}, {n} frames"),
        };
        if self.from > 0 {
            words += &format!(" from {}", self.from);
        }
        if self.reported != self.frames {
            words += &format!(", {} reported", self.reported);
        }
        words
    }
}

#[derive(Debug, Clone, Serialize)]
pub struct GateCount {
    /// The answer to the first pair, by which an encoder goes.
    pub first: bool,
    pub why: Option<&'static str>,
    /// Pairs that were asked about, and those that passed.
    pub pairs: usize,
    pub passed: usize,
    pub row_correlation: Option<Spread>,
    /// Of the pairs that have one.
    pub frame_correlation: Option<Spread>,
}

/// A figure over the frames.
#[derive(Debug, Clone, Copy, Serialize)]
pub struct Spread {
    pub mean: f64,
    pub least: f64,
    pub most: f64,
}

/// A coefficient over the frames, and in how many of them it was held or NaN.
#[derive(Debug, Clone, Copy, Serialize)]
pub struct ClipCoefficient {
    #[serde(flatten)]
    pub spread: Spread,
    #[serde(flatten)]
    pub marks: MarkCount,
}

#[derive(Debug, Clone, Serialize)]
pub struct ClipFit {
    pub lag: u8,
    /// Frames that have a fit at this lag.
    pub fitted: usize,
    #[serde(flatten)]
    pub fit: Fit<ClipCoefficient>,
}

/// In how many of all frames each plane is counted, in words; `None` where none is.
pub fn in_frames<'a>(
    planes: impl Iterator<Item = (&'static str, &'a usize)>,
    all: usize,
) -> Option<String> {
    let counted = planes.filter(|(_, frames)| **frames > 0);
    let words = counted.map(|(name, frames)| format!("{name} in {frames}"));
    let words: Vec<_> = words.collect();
    (!words.is_empty()).then(|| format!("{} of {all} frames", words.join(", ")))
}
