//! What the syntax skips: each field, and each place of a list, as after a reset.

use super::{Rule, rule};
use crate::headers::Header;
use grain::FilmGrainParams;

const RESET: FilmGrainParams = FilmGrainParams::reset();

/// A rule for each of the fields that are skipped where a test of the header passes.
macro_rules! skipped {
    ($words:literal, $skips:expr, $($field:ident)*) => {
        &[$(rule(concat!(stringify!($field), " ", $words), |h| {
            let skips: fn(&Header) -> bool = $skips;
            skips(h) && h.params.$field != RESET.$field
        })),*]
    };
}

pub const NOT_APPLIED: &[Rule] = skipped!(
    "where grain is not applied", Header::is_not_applied,
    grain_seed update_grain film_grain_params_ref_idx num_y_points point_y_value point_y_scaling chroma_scaling_from_luma
    num_cb_points point_cb_value point_cb_scaling num_cr_points point_cr_value point_cr_scaling grain_scaling ar_coeff_lag
    ar_coeffs_y_plus_128 ar_coeffs_cb_plus_128 ar_coeffs_cr_plus_128 ar_coeff_shift grain_scale_shift cb_mult cb_luma_mult
    cb_offset cr_mult cr_luma_mult cr_offset overlap_flag clip_to_restricted_range
);

pub const SLOT: &[Rule] = skipped!(
    "where a slot is named", Header::names_a_slot,
    num_y_points point_y_value point_y_scaling chroma_scaling_from_luma num_cb_points point_cb_value point_cb_scaling
    num_cr_points point_cr_value point_cr_scaling grain_scaling ar_coeff_lag ar_coeffs_y_plus_128 ar_coeffs_cb_plus_128
    ar_coeffs_cr_plus_128 ar_coeff_shift grain_scale_shift cb_mult cb_luma_mult cb_offset cr_mult cr_luma_mult cr_offset
    overlap_flag clip_to_restricted_range
);

pub const UPDATED: &[Rule] = skipped!(
    "where grain is updated",
    Header::is_updated,
    film_grain_params_ref_idx
);

pub const MONOCHROME: &[Rule] = skipped!(
    "in monochrome", Header::is_monochrome,
    chroma_scaling_from_luma num_cb_points point_cb_value point_cb_scaling num_cr_points point_cr_value point_cr_scaling
    ar_coeffs_cb_plus_128 ar_coeffs_cr_plus_128 cb_mult cb_luma_mult cb_offset cr_mult cr_luma_mult cr_offset
);

pub const FROM_LUMA: &[Rule] = skipped!(
    "with chroma from luma", Header::is_from_luma,
    num_cb_points point_cb_value point_cb_scaling num_cr_points point_cr_value point_cr_scaling cb_mult cb_luma_mult
    cb_offset cr_mult cr_luma_mult cr_offset
);

pub const BARE: &[Rule] = skipped!(
    "in 4:2:0 without luma points", Header::is_bare,
    num_cb_points point_cb_value point_cb_scaling num_cr_points point_cr_value point_cr_scaling ar_coeffs_cb_plus_128
    ar_coeffs_cr_plus_128 cb_mult cb_luma_mult cb_offset cr_mult cr_luma_mult cr_offset
);

pub const POINTLESS_LUMA: &[Rule] = skipped!(
    "without luma points",
    |h| h.is_updated() && h.params.num_y_points == 0,
    ar_coeffs_y_plus_128
);

pub const POINTLESS_CB: &[Rule] = skipped!(
    "without Cb points", |h| h.has_chroma_counts() && h.params.num_cb_points == 0,
    ar_coeffs_cb_plus_128 cb_mult cb_luma_mult cb_offset
);

pub const POINTLESS_CR: &[Rule] = skipped!(
    "without Cr points", |h| h.has_chroma_counts() && h.params.num_cr_points == 0,
    ar_coeffs_cr_plus_128 cr_mult cr_luma_mult cr_offset
);

/// Something stands past the first so many places.
fn past(count: impl Into<usize>, list: &[u8]) -> bool {
    list.iter().skip(count.into()).any(|&number| number != 0)
}

/// Places that a list's count, or the lag, leaves over.
pub const PAST: &[Rule] = &[
    rule("point_y_value past its count", |h| {
        h.is_updated() && past(h.params.num_y_points, &h.params.point_y_value)
    }),
    rule("point_y_scaling past its count", |h| {
        h.is_updated() && past(h.params.num_y_points, &h.params.point_y_scaling)
    }),
    rule("point_cb_value past its count", |h| {
        h.has_chroma_counts() && past(h.params.num_cb_points, &h.params.point_cb_value)
    }),
    rule("point_cb_scaling past its count", |h| {
        h.has_chroma_counts() && past(h.params.num_cb_points, &h.params.point_cb_scaling)
    }),
    rule("point_cr_value past its count", |h| {
        h.has_chroma_counts() && past(h.params.num_cr_points, &h.params.point_cr_value)
    }),
    rule("point_cr_scaling past its count", |h| {
        h.has_chroma_counts() && past(h.params.num_cr_points, &h.params.point_cr_scaling)
    }),
    rule("ar_coeffs_y_plus_128 past their number", |h| {
        let coded = h.is_updated() && h.params.num_y_points > 0;
        coded && past(h.luma_neighbours(), &h.params.ar_coeffs_y_plus_128)
    }),
    rule("ar_coeffs_cb_plus_128 past their number", |h| {
        let coded = h.is_from_luma() || h.has_chroma_counts() && h.params.num_cb_points > 0;
        coded && past(h.chroma_neighbours(), &h.params.ar_coeffs_cb_plus_128)
    }),
    rule("ar_coeffs_cr_plus_128 past their number", |h| {
        let coded = h.is_from_luma() || h.has_chroma_counts() && h.params.num_cr_points > 0;
        coded && past(h.chroma_neighbours(), &h.params.ar_coeffs_cr_plus_128)
    }),
];
