use crate::refusal::accepted;
use crate::{Frame, Refusal, sys};

/// Writes the denoised plane: weights 1 2 1 / 2 4 2 / 1 2 1 over the 3×3 neighbours, held at the edge, (sum + 8) >> 4.
///
/// ```
/// let mut dst = [0; 9];
/// grain::denoise_plane(&[0, 0, 0, 0, 16, 0, 0, 0, 0], &mut dst, 3, 3)?;
/// assert_eq!(dst, [1, 2, 1, 2, 4, 2, 1, 2, 1]);
/// # Ok::<(), grain::Refusal>(())
/// ```
pub fn denoise_plane(src: &[u16], dst: &mut [u16], w: usize, h: usize) -> Result<(), Refusal> {
    // SAFETY: `dst` is borrowed alone.
    accepted(unsafe { sys::call!(grain_denoise_plane, [], [src], mut [dst], [w, h]) })
}

/// Writes the denoised planes of a frame.
///
/// ```
/// use grain::{Format, Frame, Shape};
///
/// let shape = Shape::new(2, 1, 8, Format::Monochrome);
/// let frame = Frame::new(shape, &[0, 16], &[], &[]);
/// let mut y = [0; 2];
/// grain::denoise_frame(&frame, &mut y, &mut [], &mut [])?;
/// assert_eq!(y, [4, 12]);
/// # Ok::<(), grain::Refusal>(())
/// ```
pub fn denoise_frame(
    frame: &Frame,
    y: &mut [u16],
    cb: &mut [u16],
    cr: &mut [u16],
) -> Result<(), Refusal> {
    let shape = frame.shape.into();
    // SAFETY: each destination is borrowed alone.
    accepted(unsafe {
        sys::call!(grain_denoise_frame, [shape], [frame.y, frame.cb, frame.cr], mut [y, cb, cr], [])
    })
}
