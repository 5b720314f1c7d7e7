//! The bits of a record, put together as the syntax table has them. The Rust has no writer: its reader is what they are
//! held to.

use super::Header;

/// Of a record that keeps the rules.
pub fn of(header: &Header) -> Vec<bool> {
    let p = &header.params;
    let mut bits = Vec::new();
    f(&mut bits, 1, p.apply_grain);
    if header.is_not_applied() {
        return bits;
    }
    f(&mut bits, 16, p.grain_seed);
    if header.inter {
        f(&mut bits, 1, p.update_grain);
    }
    if header.names_a_slot() {
        f(&mut bits, 3, p.film_grain_params_ref_idx);
        return bits;
    }
    let (y, cb, cr) = (p.num_y_points, p.num_cb_points, p.num_cr_points);
    points(&mut bits, y, &p.point_y_value, &p.point_y_scaling);
    if header.format != 0 {
        f(&mut bits, 1, p.chroma_scaling_from_luma);
    }
    if header.has_chroma_counts() {
        points(&mut bits, cb, &p.point_cb_value, &p.point_cb_scaling);
        points(&mut bits, cr, &p.point_cr_value, &p.point_cr_scaling);
    }
    f(&mut bits, 2, p.grain_scaling - 8);
    f(&mut bits, 2, p.ar_coeff_lag);
    let (luma, chroma) = (header.luma_neighbours(), header.chroma_neighbours());
    let all = p.chroma_scaling_from_luma;
    for (present, list) in [
        (y > 0, &p.ar_coeffs_y_plus_128[..luma]),
        (all || cb > 0, &p.ar_coeffs_cb_plus_128[..chroma]),
        (all || cr > 0, &p.ar_coeffs_cr_plus_128[..chroma]),
    ] {
        for &coefficient in list.iter().filter(|_| present) {
            f(&mut bits, 8, coefficient);
        }
    }
    f(&mut bits, 2, p.ar_coeff_shift - 6);
    f(&mut bits, 2, p.grain_scale_shift);
    for (count, mult, luma_mult, offset) in [
        (cb, p.cb_mult, p.cb_luma_mult, p.cb_offset),
        (cr, p.cr_mult, p.cr_luma_mult, p.cr_offset),
    ] {
        if count > 0 {
            f(&mut bits, 8, mult);
            f(&mut bits, 8, luma_mult);
            f(&mut bits, 9, offset);
        }
    }
    f(&mut bits, 1, p.overlap_flag);
    f(&mut bits, 1, p.clip_to_restricted_range);
    bits
}

/// n bits, the highest first.
fn f(bits: &mut Vec<bool>, n: u32, value: impl Into<u16>) {
    let value = value.into();
    bits.extend((0..n).rev().map(|bit| value >> bit & 1 == 1));
}

/// A count and its pairs.
fn points(bits: &mut Vec<bool>, count: u8, values: &[u8], scalings: &[u8]) {
    f(bits, 4, count);
    for (&value, &scaling) in values.iter().zip(scalings).take(count.into()) {
        f(bits, 8, value);
        f(bits, 8, scaling);
    }
}

/// As bytes, the last filled with zeros.
pub fn packed(bits: &[bool]) -> Vec<u8> {
    let mut bytes = vec![0; bits.len().div_ceil(8)];
    for (at, &bit) in bits.iter().enumerate() {
        bytes[at / 8] |= u8::from(bit) << (7 - at % 8);
    }
    bytes
}
