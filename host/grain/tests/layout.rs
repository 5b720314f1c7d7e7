//! Sizes and places of the answers, as include/grain.h lays them out.

use grain::sys::*;
use std::mem::{offset_of, size_of};

#[test]
fn sizes() {
    assert_eq!(size_of::<Rectangle>(), 32);
    assert_eq!(size_of::<Shape>(), 56);
    assert_eq!(size_of::<Sigma>(), 16);
    assert_eq!(size_of::<Profile<8>>(), 200);
    assert_eq!(size_of::<Profile<4>>(), 104);
    assert_eq!(size_of::<Estimate>(), 416);
    assert_eq!(size_of::<Rho>(), 16);
    assert_eq!(size_of::<Gate>(), 8);
    assert_eq!(size_of::<ChromaCorr>(), 16);
    assert_eq!(size_of::<Quantised>(), 8);
    assert_eq!(size_of::<Solved>(), 216);
    assert_eq!(size_of::<Positions>(), 208);
    assert_eq!(size_of::<Fit>(), 392);
    assert_eq!(size_of::<Root>(), 16);
    assert_eq!(size_of::<Random>(), 2);
    assert_eq!(size_of::<Draw>(), 8);
    assert_eq!(size_of::<Stepped>(), 12);
    assert_eq!(size_of::<FilmGrainParams>(), 168);
    assert_eq!(size_of::<Written>(), 16);
}

#[test]
fn places() {
    assert_eq!(offset_of!(Rectangle, top), 8);
    assert_eq!(offset_of!(Rectangle, width), 16);
    assert_eq!(offset_of!(Rectangle, height), 24);
    assert_eq!(offset_of!(Shape, format), 17);
    assert_eq!(offset_of!(Shape, active), 24);
    assert_eq!(offset_of!(Estimate, luma), 8);
    assert_eq!(offset_of!(Estimate, cb), 208);
    assert_eq!(offset_of!(Estimate, cr), 312);
    assert_eq!(offset_of!(ChromaCorr, cb_mark), 12);
    assert_eq!(offset_of!(ChromaCorr, cr_mark), 13);
    assert_eq!(offset_of!(Quantised, mark), 4);
    assert_eq!(offset_of!(Solved, found), 4);
    assert_eq!(offset_of!(Solved, solution), 8);
    assert_eq!(offset_of!(Positions, columns), 112);
    assert_eq!(offset_of!(Fit, count), 8);
    assert_eq!(offset_of!(Fit, luma), 16);
    assert_eq!(offset_of!(Fit, cb), 112);
    assert_eq!(offset_of!(Fit, cr), 212);
    assert_eq!(offset_of!(Fit, luma_marks), 312);
    assert_eq!(offset_of!(Fit, cb_marks), 336);
    assert_eq!(offset_of!(Fit, cr_marks), 361);
    assert_eq!(offset_of!(Root, digits), 8);
    assert_eq!(offset_of!(Stepped, after), 8);
    assert_eq!(offset_of!(Written, bits), 8);
}

#[test]
fn places_of_a_header() {
    assert_eq!(offset_of!(FilmGrainParams, apply_grain), 0);
    assert_eq!(offset_of!(FilmGrainParams, grain_seed), 2);
    assert_eq!(offset_of!(FilmGrainParams, update_grain), 4);
    assert_eq!(offset_of!(FilmGrainParams, film_grain_params_ref_idx), 5);
    assert_eq!(offset_of!(FilmGrainParams, num_y_points), 6);
    assert_eq!(offset_of!(FilmGrainParams, point_y_value), 7);
    assert_eq!(offset_of!(FilmGrainParams, point_y_scaling), 21);
    assert_eq!(offset_of!(FilmGrainParams, chroma_scaling_from_luma), 35);
    assert_eq!(offset_of!(FilmGrainParams, num_cb_points), 36);
    assert_eq!(offset_of!(FilmGrainParams, point_cb_value), 37);
    assert_eq!(offset_of!(FilmGrainParams, point_cb_scaling), 47);
    assert_eq!(offset_of!(FilmGrainParams, num_cr_points), 57);
    assert_eq!(offset_of!(FilmGrainParams, point_cr_value), 58);
    assert_eq!(offset_of!(FilmGrainParams, point_cr_scaling), 68);
    assert_eq!(offset_of!(FilmGrainParams, grain_scaling), 78);
    assert_eq!(offset_of!(FilmGrainParams, ar_coeff_lag), 79);
    assert_eq!(offset_of!(FilmGrainParams, ar_coeffs_y_plus_128), 80);
    assert_eq!(offset_of!(FilmGrainParams, ar_coeffs_cb_plus_128), 104);
    assert_eq!(offset_of!(FilmGrainParams, ar_coeffs_cr_plus_128), 129);
    assert_eq!(offset_of!(FilmGrainParams, ar_coeff_shift), 154);
    assert_eq!(offset_of!(FilmGrainParams, grain_scale_shift), 155);
    assert_eq!(offset_of!(FilmGrainParams, cb_mult), 156);
    assert_eq!(offset_of!(FilmGrainParams, cb_luma_mult), 157);
    assert_eq!(offset_of!(FilmGrainParams, cb_offset), 158);
    assert_eq!(offset_of!(FilmGrainParams, cr_mult), 160);
    assert_eq!(offset_of!(FilmGrainParams, cr_luma_mult), 161);
    assert_eq!(offset_of!(FilmGrainParams, cr_offset), 162);
    assert_eq!(offset_of!(FilmGrainParams, overlap_flag), 164);
    assert_eq!(offset_of!(FilmGrainParams, clip_to_restricted_range), 165);
    assert_eq!(offset_of!(FilmGrainParams, predicted), 166);
}
