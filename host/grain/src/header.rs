use crate::refusal::accepted;
use crate::{Format, Refusal, sys};

/// `film_grain_params` of a frame header (AV1 5.9.30), by the syntax's names. Of each list the first so many places are
/// used; every place, and every field, that the syntax skips is as after a reset.
///
/// `grain_scaling` is `grain_scaling_minus_8 + 8`, and `ar_coeff_shift` is `ar_coeff_shift_minus_6 + 6`. `predicted` is
/// neither written nor looked at.
pub use crate::sys::FilmGrainParams;

/// The bytes of the largest header: a destination of so many is never refused for its room.
pub const MAX_HEADER_BYTES: usize = 154;

impl FilmGrainParams {
    /// Every field 0 or false: grain is not applied.
    pub const fn reset() -> Self {
        Self {
            apply_grain: false,
            grain_seed: 0,
            update_grain: false,
            film_grain_params_ref_idx: 0,
            num_y_points: 0,
            point_y_value: [0; 14],
            point_y_scaling: [0; 14],
            chroma_scaling_from_luma: false,
            num_cb_points: 0,
            point_cb_value: [0; 10],
            point_cb_scaling: [0; 10],
            num_cr_points: 0,
            point_cr_value: [0; 10],
            point_cr_scaling: [0; 10],
            grain_scaling: 0,
            ar_coeff_lag: 0,
            ar_coeffs_y_plus_128: [0; 24],
            ar_coeffs_cb_plus_128: [0; 25],
            ar_coeffs_cr_plus_128: [0; 25],
            ar_coeff_shift: 0,
            grain_scale_shift: 0,
            cb_mult: 0,
            cb_luma_mult: 0,
            cb_offset: 0,
            cr_mult: 0,
            cr_luma_mult: 0,
            cr_offset: 0,
            overlap_flag: false,
            clip_to_restricted_range: false,
            predicted: false,
        }
    }
}

impl Default for FilmGrainParams {
    fn default() -> Self {
        Self::reset()
    }
}

/// What the header says of its frame: the bit of `update_grain` is there on an `INTER_FRAME` alone.
#[derive(Debug, Clone, Copy, PartialEq, Eq, Hash)]
pub enum FrameType {
    /// `INTER_FRAME`
    Inter,
    /// Any other.
    Other,
}

/// Writes the bits of `film_grain_params` after its presence test to `dst`, from the highest of its first byte on, and
/// gives their number. The last byte is filled with zeros, which aren't counted; bytes past it stay.
///
/// Whether the slot `film_grain_params_ref_idx` is among the frame's references isn't looked at.
///
/// ```
/// use grain::{FilmGrainParams, Format, FrameType, Refusal, write_film_grain_params};
///
/// let mut bytes = [0xff; 4];
/// let repeated = FilmGrainParams {
///     apply_grain: true,
///     grain_seed: 0x1234,
///     film_grain_params_ref_idx: 5,
///     ..FilmGrainParams::reset()
/// };
/// let bits = write_film_grain_params(&repeated, FrameType::Inter, Format::Yuv420, &mut bytes)?;
/// assert_eq!((bits, bytes), (21, [0x89, 0x1a, 0x28, 0xff]));
///
/// let refused = write_film_grain_params(&repeated, FrameType::Other, Format::Yuv420, &mut bytes);
/// assert_eq!(refused, Err(Refusal::HeaderField)); // such a frame can't repeat another's grain
/// # Ok::<(), Refusal>(())
/// ```
pub fn write_film_grain_params(
    params: &FilmGrainParams,
    frame: FrameType,
    format: Format,
    dst: &mut [u8],
) -> Result<usize, Refusal> {
    let inter = frame == FrameType::Inter;
    // SAFETY: record and destination are alive, and nothing else holds the destination.
    let written = unsafe {
        sys::call!(grain_write_film_grain_params, [params, inter, format as u8], [], mut [dst], [])
    };
    accepted(written.refusal).map(|()| written.bits)
}
