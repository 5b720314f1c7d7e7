//! The Rust's reader of `film_grain_params`.

use super::bits;
use grain::FilmGrainParams;
use oracle::FilmGrainContext;

/// Of a frame that is shown, in a sequence that has grain.
pub fn context(inter: bool, format: u8) -> FilmGrainContext {
    FilmGrainContext {
        film_grain_params_present: true,
        show_frame: true,
        showable_frame: false,
        is_inter_frame: inter,
        mono_chrome: format == 0,
        subsampling_x: format <= 2,
        subsampling_y: format <= 1,
    }
}

/// The record, and how many bits it takes; none where the Rust refuses them.
pub fn read(bits: &[bool], inter: bool, format: u8) -> Option<(FilmGrainParams, usize)> {
    let found = oracle::parse_film_grain_params(&bits::packed(bits), context(inter, format));
    found.ok().map(|(params, count)| (ours(&params), count))
}

/// A record of these fields, which are those of another.
macro_rules! same {
    ($other:expr, $($field:ident)*) => {
        FilmGrainParams { $($field: $other.$field),* }
    };
}

fn ours(params: &oracle::FilmGrainParams) -> FilmGrainParams {
    same!(params,
        apply_grain grain_seed update_grain film_grain_params_ref_idx num_y_points point_y_value point_y_scaling
        chroma_scaling_from_luma num_cb_points point_cb_value point_cb_scaling num_cr_points point_cr_value
        point_cr_scaling grain_scaling ar_coeff_lag ar_coeffs_y_plus_128 ar_coeffs_cb_plus_128 ar_coeffs_cr_plus_128
        ar_coeff_shift grain_scale_shift cb_mult cb_luma_mult cb_offset cr_mult cr_luma_mult cr_offset overlap_flag
        clip_to_restricted_range predicted)
}
