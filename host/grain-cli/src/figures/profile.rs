//! The noise of a plane, whole and by intensity.

use crate::noise::energy;
use crate::window::Window;
use serde::Serialize;

/// Noise by intensity. Sigma is the root mean square in 8-bit steps.
#[derive(Debug, Clone, Serialize)]
pub struct Profile {
    /// Of noise cut to whole 8-bit steps, as the library has it.
    pub sigma: f64,
    /// Of noise as it is; the command's own.
    pub sigma_unshifted: f64,
    /// The sum of squares behind that, in steps of the depth.
    #[serde(skip)]
    pub energy: u128,
    pub bins: Vec<Bin>,
}

#[derive(Debug, Clone, Serialize)]
pub struct Bin {
    /// The lowest and the highest intensity, in 8-bit steps.
    pub from: i32,
    pub to: i32,
    pub sigma: f64,
    pub count: u64,
    pub squares: u64,
    /// False where the bin has too few samples, and sigma is the plane's.
    pub own: bool,
}

impl Profile {
    /// Of each bin its sigma, count and squares; of the plane besides its energy in steps of the depth. For a sigma of its own a bin wants a hundredth of the samples, and no
    /// fewer than 64 of luma's eight bins or 32 of chroma's four.
    pub fn new(
        sigma: f64,
        energy: u128,
        depth: u8,
        bins: impl IntoIterator<Item = (f64, u64, u64)>,
    ) -> Self {
        let bins: Vec<_> = bins.into_iter().collect();
        let samples: u64 = bins.iter().map(|(_, count, _)| count).sum();
        let step = 256 / bins.len() as i32;
        let least = (samples / 100).max(if bins.len() == 8 { 64 } else { 32 });
        let bin = |(at, (sigma, count, squares))| Bin {
            from: at as i32 * step,
            to: (at as i32 + 1) * step - 1,
            sigma,
            count,
            squares,
            own: count >= least,
        };
        let mean = energy as f64 / samples.max(1) as f64;
        Profile {
            sigma,
            sigma_unshifted: mean.sqrt() / f64::from(1u32 << (depth - 8)),
            energy,
            bins: bins.into_iter().enumerate().map(bin).collect(),
        }
    }

    pub fn samples(&self) -> u64 {
        self.bins.iter().map(|bin| bin.count).sum()
    }

    /// The library's figures of a plane, and the sigma of its noise before that is cut to 8-bit steps.
    pub(super) fn of<const BINS: usize>(
        found: &grain::Profile<BINS>,
        [source, denoised]: [&[u16]; 2],
        window: Window,
        depth: u8,
    ) -> Self {
        let steps = |sigma16: u64| sigma16 as f64 / 16.0;
        let bins = found
            .bins
            .iter()
            .map(|bin| (steps(bin.sigma16), bin.count, bin.squares));
        let energy = energy(&window.cut(source), &window.cut(denoised)).into();
        Profile::new(steps(found.sigma16), energy, depth, bins)
    }
}
