//! The gates of a frame and the next, with the figures behind their answers.

use super::Planes;
use crate::noise::correlation;
use crate::still::Still;
use crate::window::Window;
use anyhow::Result;
use grain::{Chroma, Format, NoiseEstimate, Refusal, TwoFrames};
use serde::Serialize;

/// A gate's answer, and the figures that it looks at.
#[derive(Debug, Clone, Serialize)]
pub struct Gate {
    pub grain: bool,
    /// The first test that fails, where the answer is no.
    pub why: Option<&'static str>,
    /// Of the first frame's plane.
    pub sigma: f64,
    /// Of the first frame's noise with itself one column on.
    pub row_correlation: f64,
    /// Of the two frames' noises; `None` where one has no noise.
    pub frame_correlation: Option<f64>,
}

/// The gates' limits: sigma is at least this (luma, chroma), and the correlations' magnitudes are below these.
pub const LEAST_SIGMA: [f64; 2] = [1.0, 0.5];
pub const ROW_LIMIT: f64 = 0.75;
pub const FRAME_LIMIT: f64 = 0.4;

impl Gate {
    /// The figures behind an answer. The planes are the first frame's source and denoised, then the second's.
    fn new(
        grain: bool,
        least_sigma: f64,
        sigma16: u64,
        planes: [&[u16]; 4],
        window: Window,
        depth: u8,
    ) -> Result<Self, Refusal> {
        let sigma = sigma16 as f64 / 16.0;
        let planes = planes.map(|plane| window.cut(plane));
        let [src0, den0, src1, den1] = planes.each_ref().map(|plane| &**plane);
        let row = grain::lag_h_rho(src0, den0, window.width, window.height, 1, depth)?;
        let between = correlation([src0, den0], [src1, den1]);
        let failed = if sigma < least_sigma {
            "sigma is too low"
        } else if row.abs() >= ROW_LIMIT {
            "the correlation along a row is too strong"
        } else if between.is_none() {
            "a frame has no noise"
        } else {
            "the correlation from frame to frame is too strong"
        };
        Ok(Gate {
            grain,
            why: (!grain).then_some(failed),
            sigma,
            row_correlation: row,
            frame_correlation: between,
        })
    }
}

/// The gates' answers to a frame and the next.
pub fn gates(first: &Still, second: &Still, estimate: &NoiseEstimate) -> Result<Planes<Gate>> {
    let frames = TwoFrames::new(first.pair()?, second.pair()?)?;
    let shape = frames.shape();
    let luma = || {
        let sigma16 = estimate.luma.sigma16;
        let grain = grain::film_grain_probe(&frames)?;
        let planes = frames.frames().map(|frame| frame.y);
        let window = Window::luma(shape);
        Gate::new(grain, LEAST_SIGMA[0], sigma16, planes, window, shape.depth)
    };
    let chroma = |plane, sigma16| {
        let grain = grain::chroma_noise_gate(&frames, plane, sigma16)?;
        let planes = frames.frames().map(|frame| frame.chroma(plane));
        let window = Window::chroma(shape);
        Gate::new(grain, LEAST_SIGMA[1], sigma16, planes, window, shape.depth)
    };
    let colour = shape.format != Format::Monochrome;
    let asked = |refusal| second.refused(refusal);
    let chroma = |plane, sigma16| colour.then(|| chroma(plane, sigma16)).transpose();
    Ok(Planes {
        y: luma().map_err(asked)?,
        cb: chroma(Chroma::Cb, estimate.cb.sigma16).map_err(asked)?,
        cr: chroma(Chroma::Cr, estimate.cr.sigma16).map_err(asked)?,
    })
}
