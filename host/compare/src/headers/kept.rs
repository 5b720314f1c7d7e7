//! Records that keep every rule, of every kind.

use super::Header;
use crate::random::Random;
use grain::FilmGrainParams;
use std::collections::BTreeSet;

/// One in twelve has as much as a header can.
pub fn record(random: &mut Random, inter: bool, format: u8) -> FilmGrainParams {
    let full = random.once_in(12);
    let mut h = Header {
        inter,
        format,
        ..Header::default()
    };
    h.params.predicted = random.once_in(2);
    h.params.apply_grain = full || !random.once_in(8);
    if h.is_not_applied() {
        return h.params;
    }
    h.params.grain_seed = random.bits() as u16;
    h.params.update_grain = full || !inter || !random.once_in(5);
    if h.names_a_slot() {
        h.params.film_grain_params_ref_idx = random.below(8) as u8;
        return h.params;
    }
    scaling(random, &mut h, full);
    coefficients(random, &mut h, full);
    let p = &mut h.params;
    p.overlap_flag = random.once_in(2);
    p.clip_to_restricted_range = random.once_in(2);
    h.params
}

/// The points of each plane, and what scales them.
fn scaling(random: &mut Random, h: &mut Header, full: bool) {
    let p = &mut h.params;
    p.num_y_points = count(random, 0, 14, full);
    points(
        random,
        p.num_y_points,
        &mut p.point_y_value,
        &mut p.point_y_scaling,
    );
    p.chroma_scaling_from_luma = h.format != 0 && !full && random.once_in(4);
    p.grain_scaling = 8 + random.below(4) as u8;
    p.grain_scale_shift = random.below(4) as u8;
    // In 4:2:0 both chroma planes have points, or neither.
    let (both, neither) = (h.format == 1, h.format == 1 && !full && random.once_in(3));
    if !h.has_chroma_counts() || neither {
        return;
    }
    let p = &mut h.params;
    p.num_cb_points = count(random, both.into(), 10, full);
    points(
        random,
        p.num_cb_points,
        &mut p.point_cb_value,
        &mut p.point_cb_scaling,
    );
    p.num_cr_points = count(random, both.into(), 10, full);
    points(
        random,
        p.num_cr_points,
        &mut p.point_cr_value,
        &mut p.point_cr_scaling,
    );
    if p.num_cb_points > 0 {
        (p.cb_mult, p.cb_luma_mult) = (random.bits() as u8, random.bits() as u8);
        p.cb_offset = random.below(512) as u16;
    }
    if p.num_cr_points > 0 {
        (p.cr_mult, p.cr_luma_mult) = (random.bits() as u8, random.bits() as u8);
        p.cr_offset = random.below(512) as u16;
    }
}

/// The lag, and the coefficients of each plane that has points.
fn coefficients(random: &mut Random, h: &mut Header, full: bool) {
    h.params.ar_coeff_lag = if full { 3 } else { random.below(4) as u8 };
    h.params.ar_coeff_shift = 6 + random.below(4) as u8;
    let (luma, chroma) = (h.luma_neighbours(), h.chroma_neighbours());
    let p = &mut h.params;
    let all = p.chroma_scaling_from_luma;
    if p.num_y_points > 0 {
        any(random, &mut p.ar_coeffs_y_plus_128[..luma]);
    }
    if all || p.num_cb_points > 0 {
        any(random, &mut p.ar_coeffs_cb_plus_128[..chroma]);
    }
    if all || p.num_cr_points > 0 {
        any(random, &mut p.ar_coeffs_cr_plus_128[..chroma]);
    }
}

/// How many points: often as few, or as many, as there may be.
fn count(random: &mut Random, least: u8, most: u8, full: bool) -> u8 {
    let some = random.between(least.into(), most.into()) as u8;
    match full {
        true => most,
        false => random.pick(&[least, most, some, some]),
    }
}

/// So many values that rise, and scalings beside them.
fn points(random: &mut Random, count: u8, values: &mut [u8], scalings: &mut [u8]) {
    let mut rising = BTreeSet::new();
    while rising.len() < count.into() {
        rising.insert(random.bits() as u8);
    }
    for (value, risen) in values.iter_mut().zip(rising) {
        *value = risen;
    }
    any(random, &mut scalings[..count.into()]);
}

fn any(random: &mut Random, list: &mut [u8]) {
    list.fill_with(|| random.bits() as u8);
}
