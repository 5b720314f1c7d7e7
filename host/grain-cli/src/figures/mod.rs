//! The figures of one frame, and of it and the next. Field names are those of the JSON report (docs/REPORT.md).

mod coefficient;
mod fit;
mod gate;
mod planes;
mod profile;
mod taps;

pub use coefficient::{Coefficient, MarkCount};
pub use fit::{Fit, FrameFit};
pub use gate::{FRAME_LIMIT, Gate, LEAST_SIGMA, ROW_LIMIT};
pub use planes::Planes;
pub use profile::{Bin, Profile};
pub use taps::ChromaTaps;

use crate::noise::{Autocorrelation, noise};
use crate::still::{Still, Task};
use crate::window::Window;
use anyhow::Result;
use grain::Format;
use serde::Serialize;
use std::sync::Arc;

#[derive(Debug, Clone, Serialize)]
pub struct FrameFigures {
    /// From 0.
    pub frame: usize,
    /// The grain seed, the frame's number taken as its order hint.
    pub seed: u16,
    pub profile: Planes<Profile>,
    /// Against the next frame; the last has none.
    pub gates: Option<Planes<Gate>>,
    /// At lags 1, 2 and 3; `None` is "no fit".
    pub fits: Vec<Option<FrameFit>>,
    pub chroma_taps: Option<ChromaTaps<Coefficient>>,
}

impl FrameFigures {
    /// By lag from 0, the planes in which a coefficient is held or NaN; lag 0 has chroma's taps without neighbours.
    pub fn marked(&self) -> [Option<Planes<bool>>; 4] {
        let taps = self.chroma_taps.as_ref().map(ChromaTaps::marked);
        let [first, second, third] =
            [0, 1, 2].map(|at| self.fits[at].as_ref().map(FrameFit::marked));
        [taps, first, second, third]
    }
}

/// The figures of a task's frame.
pub fn figures(task: &Task) -> Result<FrameFigures> {
    let still = &*task.first;
    let pair = still.pair()?;
    let asked = |refusal| still.refused(refusal);
    let estimate = grain::noise_estimate(&pair).map_err(asked)?;
    let taps = grain::fit_chroma_corr(&pair).map_err(asked)?;
    let colour = pair.shape().format != Format::Monochrome;
    let fit = |lag| {
        let found = grain::fit_ar_lag(&pair, lag).map_err(asked)?;
        Ok(found.map(|found| FrameFit::new(found, colour)))
    };
    let gates = |second: &Arc<Still>| gate::gates(still, second, &estimate);
    let (source, denoised, depth) = (pair.frame(), pair.denoised(), pair.shape().depth);
    let (luma, chroma) = (Window::luma(pair.shape()), Window::chroma(pair.shape()));
    let of_chroma = |found, source, denoised| {
        colour.then(|| Profile::of::<4>(found, [source, denoised], chroma, depth))
    };
    Ok(FrameFigures {
        frame: still.index,
        seed: grain::grain_seed_for(still.index as u32),
        profile: Planes {
            y: Profile::of(&estimate.luma, [source.y, denoised.y], luma, depth),
            cb: of_chroma(&estimate.cb, source.cb, denoised.cb),
            cr: of_chroma(&estimate.cr, source.cr, denoised.cr),
        },
        gates: task.second.as_ref().map(gates).transpose()?,
        fits: (1..=3).map(fit).collect::<Result<_>>()?,
        chroma_taps: colour.then(|| ChromaTaps::new(taps)),
    })
}

/// The autocorrelation of each plane's noise.
pub fn autocorrelation(still: &Still) -> Result<Planes<Autocorrelation>> {
    let pair = still.pair()?;
    let (source, denoised, shape) = (pair.frame(), pair.denoised(), pair.shape());
    let of = |source, denoised, window: Window| {
        let noise = noise(&window.cut(source), &window.cut(denoised));
        Autocorrelation::of(&noise, window.width)
    };
    let (luma, chroma) = (Window::luma(shape), Window::chroma(shape));
    let colour = shape.format != Format::Monochrome;
    Ok(Planes {
        y: of(source.y, denoised.y, luma),
        cb: colour.then(|| of(source.cb, denoised.cb, chroma)),
        cr: colour.then(|| of(source.cr, denoised.cr, chroma)),
    })
}
