//! The fields of a record as numbers, to put others in their place.

use grain::FilmGrainParams;

/// A number, or one for each place of a list.
pub trait Field {
    fn places(&self) -> usize {
        1
    }
    fn get(&self, place: usize) -> u16;
    /// As much of the number as the field's type holds.
    fn put(&mut self, place: usize, number: u16);
}

impl Field for bool {
    fn get(&self, _: usize) -> u16 {
        u16::from(*self)
    }
    fn put(&mut self, _: usize, number: u16) {
        *self = number % 2 == 1;
    }
}

impl Field for u8 {
    fn get(&self, _: usize) -> u16 {
        u16::from(*self)
    }
    fn put(&mut self, _: usize, number: u16) {
        *self = number as u8;
    }
}

impl Field for u16 {
    fn get(&self, _: usize) -> u16 {
        *self
    }
    fn put(&mut self, _: usize, number: u16) {
        *self = number;
    }
}

impl<const N: usize> Field for [u8; N] {
    fn places(&self) -> usize {
        N
    }
    fn get(&self, place: usize) -> u16 {
        u16::from(self[place])
    }
    fn put(&mut self, place: usize, number: u16) {
        self[place] = number as u8;
    }
}

/// All but `predicted`, which is no field of the syntax.
pub fn all(p: &mut FilmGrainParams) -> [&mut dyn Field; 29] {
    [
        &mut p.apply_grain,
        &mut p.grain_seed,
        &mut p.update_grain,
        &mut p.film_grain_params_ref_idx,
        &mut p.num_y_points,
        &mut p.point_y_value,
        &mut p.point_y_scaling,
        &mut p.chroma_scaling_from_luma,
        &mut p.num_cb_points,
        &mut p.point_cb_value,
        &mut p.point_cb_scaling,
        &mut p.num_cr_points,
        &mut p.point_cr_value,
        &mut p.point_cr_scaling,
        &mut p.grain_scaling,
        &mut p.ar_coeff_lag,
        &mut p.ar_coeffs_y_plus_128,
        &mut p.ar_coeffs_cb_plus_128,
        &mut p.ar_coeffs_cr_plus_128,
        &mut p.ar_coeff_shift,
        &mut p.grain_scale_shift,
        &mut p.cb_mult,
        &mut p.cb_luma_mult,
        &mut p.cb_offset,
        &mut p.cr_mult,
        &mut p.cr_luma_mult,
        &mut p.cr_offset,
        &mut p.overlap_flag,
        &mut p.clip_to_restricted_range,
    ]
}
