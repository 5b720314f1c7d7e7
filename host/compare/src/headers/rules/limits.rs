//! Limits of fields that the syntax comes to.

use super::{Rule, rule};
use crate::headers::Header;

/// The first so many values of a list, as far as it goes, don't rise.
fn falls(count: u8, values: &[u8]) -> bool {
    let used = &values[..values.len().min(count.into())];
    !used.is_sorted_by(|a, b| a < b)
}

fn alone_in_420(h: &Header, points: u8, others: u8) -> bool {
    h.has_chroma_counts() && h.format == 1 && points > 0 && others == 0
}

/// Those that the Rust's reader doesn't test.
pub const UNREAD: &[Rule] = &[
    rule("point_y_value doesn't rise", |h| {
        h.is_updated() && falls(h.params.num_y_points, &h.params.point_y_value)
    }),
    rule("point_cb_value doesn't rise", |h| {
        h.has_chroma_counts() && falls(h.params.num_cb_points, &h.params.point_cb_value)
    }),
    rule("point_cr_value doesn't rise", |h| {
        h.has_chroma_counts() && falls(h.params.num_cr_points, &h.params.point_cr_value)
    }),
    rule("Cb alone has points in 4:2:0", |h| {
        alone_in_420(h, h.params.num_cb_points, h.params.num_cr_points)
    }),
    rule("Cr alone has points in 4:2:0", |h| {
        alone_in_420(h, h.params.num_cr_points, h.params.num_cb_points)
    }),
];

/// Those that it tests, or that no bits can break.
pub const OTHERS: &[Rule] = &[
    rule("update_grain false on a frame that isn't inter", |h| {
        h.names_a_slot() && !h.inter
    }),
    rule("film_grain_params_ref_idx above 7", |h| {
        h.names_a_slot() && h.params.film_grain_params_ref_idx > 7
    }),
    rule("num_y_points above 14", |h| {
        h.is_updated() && h.params.num_y_points > 14
    }),
    rule("num_cb_points above 10", |h| {
        h.has_chroma_counts() && h.params.num_cb_points > 10
    }),
    rule("num_cr_points above 10", |h| {
        h.has_chroma_counts() && h.params.num_cr_points > 10
    }),
    rule("grain_scaling below 8", |h| {
        h.is_updated() && h.params.grain_scaling < 8
    }),
    rule("grain_scaling above 11", |h| {
        h.is_updated() && h.params.grain_scaling > 11
    }),
    rule("ar_coeff_lag above 3", |h| {
        h.is_updated() && h.params.ar_coeff_lag > 3
    }),
    rule("ar_coeff_shift below 6", |h| {
        h.is_updated() && h.params.ar_coeff_shift < 6
    }),
    rule("ar_coeff_shift above 9", |h| {
        h.is_updated() && h.params.ar_coeff_shift > 9
    }),
    rule("grain_scale_shift above 3", |h| {
        h.is_updated() && h.params.grain_scale_shift > 3
    }),
    rule("cb_offset above 511", |h| {
        h.has_chroma_counts() && h.params.num_cb_points > 0 && h.params.cb_offset > 511
    }),
    rule("cr_offset above 511", |h| {
        h.has_chroma_counts() && h.params.num_cr_points > 0 && h.params.cr_offset > 511
    }),
];
