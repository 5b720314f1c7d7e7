use crate::refusal::accepted;
use crate::{Chroma, Refusal, TwoFrames, sys};

/// The correlation of a plane's noise with itself `lag` columns on, from −1 to 1.
///
/// Plus zero where there is nothing to divide: at lag 0, at a width of at most the lag, without rows, without energy.
///
/// ```
/// assert_eq!(grain::lag_h_rho(&[1; 4], &[0; 4], 4, 1, 1, 8)?, 0.75);
/// # Ok::<(), grain::Refusal>(())
/// ```
pub fn lag_h_rho(
    src: &[u16],
    den: &[u16],
    w: usize,
    h: usize,
    lag: usize,
    depth: u8,
) -> Result<f64, Refusal> {
    // SAFETY: the slices are borrowed, and none is written.
    let found = unsafe { sys::call!(grain_lag_h_rho, [], [src, den], [w, h, lag, depth]) };
    accepted(found.refusal).map(|()| found.value)
}

/// Whether the luma noise of the first two frames looks like grain: strong enough, not too alike along a row, and not
/// repeated from frame to frame.
///
/// ```
/// use grain::{Format, Frame, Pair, Shape, TwoFrames};
///
/// let shape = Shape::new(4, 1, 8, Format::Monochrome);
/// let flat = Frame::new(shape, &[9; 4], &[], &[]);
/// let first = Pair::new(Frame::new(shape, &[10, 10, 10, 8], &[], &[]), flat)?;
/// let second = Pair::new(Frame::new(shape, &[10, 8, 10, 10], &[], &[]), flat)?;
/// assert!(grain::film_grain_probe(&TwoFrames::new(first, second)?)?);
/// assert!(!grain::film_grain_probe(&TwoFrames::new(first, first)?)?);
/// # Ok::<(), Box<dyn std::error::Error>>(())
/// ```
pub fn film_grain_probe(frames: &TwoFrames) -> Result<bool, Refusal> {
    let shape = frames.shape().into();
    let [src0, den0, src1, den1] = frames.frames().map(|frame| frame.y);
    // SAFETY: the slices are borrowed, and none is written.
    let found = unsafe {
        sys::call!(
            grain_film_grain_probe,
            [shape],
            [src0, den0, src1, den1],
            []
        )
    };
    accepted(found.refusal).map(|()| found.yes)
}

/// [`film_grain_probe`] for one chroma plane, whose sigma16 the caller hands in: below 8 is no.
///
/// ```
/// use grain::{Chroma, Format, Frame, Pair, Shape, TwoFrames};
///
/// let shape = Shape::new(4, 1, 8, Format::Yuv444);
/// let flat = Frame::new(shape, &[9; 4], &[9; 4], &[9; 4]);
/// let first = Pair::new(Frame::new(shape, &[9; 4], &[10, 10, 10, 8], &[9; 4]), flat)?;
/// let second = Pair::new(Frame::new(shape, &[9; 4], &[10, 8, 10, 10], &[9; 4]), flat)?;
/// let frames = TwoFrames::new(first, second)?;
/// assert!(grain::chroma_noise_gate(&frames, Chroma::Cb, 16)?);
/// assert!(!grain::chroma_noise_gate(&frames, Chroma::Cr, 16)?);
/// # Ok::<(), Box<dyn std::error::Error>>(())
/// ```
pub fn chroma_noise_gate(frames: &TwoFrames, plane: Chroma, sigma16: u64) -> Result<bool, Refusal> {
    let shape = frames.shape().into();
    let [src0, den0, src1, den1] = frames.frames().map(|frame| frame.chroma(plane));
    // SAFETY: the slices are borrowed, and none is written.
    let found = unsafe {
        sys::call!(
            grain_chroma_noise_gate,
            [shape],
            [src0, den0, src1, den1],
            [sigma16]
        )
    };
    accepted(found.refusal).map(|()| found.yes)
}
