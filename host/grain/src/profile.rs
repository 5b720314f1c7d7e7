use crate::pair::of_pair;
use crate::refusal::accepted;
use crate::{Pair, Refusal, sys};

/// Sixteen times the noise's root mean square, in 8-bit steps, to the nearest whole number; 0 of an empty plane.
///
/// ```
/// assert_eq!(grain::plane_sigma16(&[1, 0, 0, 0], &[0; 4], 2, 2, 8)?, 8);
/// # Ok::<(), grain::Refusal>(())
/// ```
pub fn plane_sigma16(
    src: &[u16],
    den: &[u16],
    w: usize,
    h: usize,
    depth: u8,
) -> Result<u64, Refusal> {
    // SAFETY: the slices are borrowed, and none is written.
    let found = unsafe { sys::call!(grain_plane_sigma16, [], [src, den], [w, h, depth]) };
    accepted(found.refusal).map(|()| found.sigma16)
}

/// The noise of the samples of one range of intensities.
#[derive(Debug, Clone, Copy, PartialEq, Eq)]
#[non_exhaustive]
pub struct Bin {
    /// The bin's own sigma16, or the plane's where the bin has too few samples.
    pub sigma16: u64,
    /// Samples in the bin.
    pub count: u64,
    /// The sum of their squared noises.
    pub squares: u64,
}

/// The noise of a plane, whole and by intensity.
#[derive(Debug, Clone, Copy, PartialEq, Eq)]
#[non_exhaustive]
pub struct Profile<const BINS: usize> {
    /// Sixteen times the root mean square of all its noise, in 8-bit steps.
    pub sigma16: u64,
    /// From the darkest samples to the brightest.
    pub bins: [Bin; BINS],
}

/// The noise profile of a frame: eight luma bins, four of each chroma plane.
#[derive(Debug, Clone, Copy, PartialEq, Eq)]
#[non_exhaustive]
pub struct NoiseEstimate {
    /// Of Y.
    pub luma: Profile<8>,
    /// Of Cb; all zeros of a monochrome frame.
    pub cb: Profile<4>,
    /// Of Cr; all zeros of a monochrome frame.
    pub cr: Profile<4>,
}

impl<const BINS: usize> From<sys::Profile<BINS>> for Profile<BINS> {
    fn from(found: sys::Profile<BINS>) -> Self {
        Profile {
            sigma16: found.sigma16,
            bins: std::array::from_fn(|i| Bin {
                sigma16: found.bin_sigma16[i],
                count: found.bin_count[i],
                squares: found.bin_squares[i],
            }),
        }
    }
}

/// The noise profile of a frame against its denoised copy.
///
/// ```
/// use grain::{Format, Frame, Pair, Shape};
///
/// let shape = Shape::new(16, 8, 8, Format::Monochrome);
/// let frame = Frame::new(shape, &[33; 128], &[], &[]);
/// let denoised = Frame::new(shape, &[31; 128], &[], &[]);
/// let found = grain::noise_estimate(&Pair::new(frame, denoised)?)?;
/// assert_eq!(found.luma.sigma16, 32);
/// assert_eq!((found.luma.bins[1].count, found.luma.bins[1].squares), (128, 512));
/// assert_eq!(found.cb.sigma16, 0);
/// # Ok::<(), Box<dyn std::error::Error>>(())
/// ```
pub fn noise_estimate(pair: &Pair) -> Result<NoiseEstimate, Refusal> {
    let found = of_pair!(grain_noise_estimate, pair);
    accepted(found.refusal).map(|()| NoiseEstimate {
        luma: found.luma.into(),
        cb: found.cb.into(),
        cr: found.cr.into(),
    })
}
