//! Records for the tests of the header.
#![allow(dead_code)] // each test file uses a part

use grain::FilmGrainParams;
use serde_json::{Value, json};
use std::fs;
use std::path::Path;

/// The words of a run on params.json.
pub fn words<'a>(more: &[&'a str]) -> Vec<&'a str> {
    [&["header", "params.json"], more].concat()
}

pub fn put(folder: &Path, record: impl AsRef<[u8]>) {
    fs::write(folder.join("params.json"), record).unwrap();
}

/// Grain of another frame.
pub fn slot() -> Value {
    json!({"apply_grain": true, "grain_seed": 0x1234, "film_grain_params_ref_idx": 5})
}

/// Grain of its own in luma alone, at lag 0.
pub fn luma() -> Value {
    json!({
        "apply_grain": true,
        "grain_seed": 0xabcd,
        "update_grain": true,
        "num_y_points": 2,
        "point_y_value": [16, 235],
        "point_y_scaling": [40, 80],
        "grain_scaling": 10,
        "ar_coeff_shift": 7,
        "grain_scale_shift": 1,
        "overlap_flag": true,
    })
}

/// A record with another value in one field.
pub fn with(mut record: Value, name: &str, value: impl Into<Value>) -> Value {
    record[name] = value.into();
    record
}

/// Everything that a header can have at once, no two numbers alike.
pub fn full() -> FilmGrainParams {
    let list = |from: u8| move |at: usize| from + at as u8;
    FilmGrainParams {
        apply_grain: true,
        grain_seed: 0xabcd,
        update_grain: true,
        film_grain_params_ref_idx: 0,
        num_y_points: 14,
        point_y_value: std::array::from_fn(list(1)),
        point_y_scaling: std::array::from_fn(list(20)),
        chroma_scaling_from_luma: false,
        num_cb_points: 9,
        point_cb_value: std::array::from_fn(|at| if at < 9 { 40 + at as u8 } else { 0 }),
        point_cb_scaling: std::array::from_fn(|at| if at < 9 { 50 + at as u8 } else { 0 }),
        num_cr_points: 10,
        point_cr_value: std::array::from_fn(list(60)),
        point_cr_scaling: std::array::from_fn(list(70)),
        grain_scaling: 11,
        ar_coeff_lag: 3,
        ar_coeffs_y_plus_128: std::array::from_fn(list(80)),
        ar_coeffs_cb_plus_128: std::array::from_fn(list(110)),
        ar_coeffs_cr_plus_128: std::array::from_fn(list(140)),
        ar_coeff_shift: 8,
        grain_scale_shift: 2,
        cb_mult: 170,
        cb_luma_mult: 171,
        cb_offset: 300,
        cr_mult: 172,
        cr_luma_mult: 173,
        cr_offset: 301,
        overlap_flag: true,
        clip_to_restricted_range: false,
        predicted: false,
    }
}

/// The same as JSON.
pub fn full_json() -> Value {
    macro_rules! fields {
        ($($name:ident)*) => {
            json!({$((stringify!($name)): full().$name),*})
        };
    }
    fields! {
        apply_grain grain_seed update_grain film_grain_params_ref_idx
        num_y_points point_y_value point_y_scaling chroma_scaling_from_luma
        num_cb_points point_cb_value point_cb_scaling
        num_cr_points point_cr_value point_cr_scaling
        grain_scaling ar_coeff_lag ar_coeffs_y_plus_128 ar_coeffs_cb_plus_128 ar_coeffs_cr_plus_128
        ar_coeff_shift grain_scale_shift cb_mult cb_luma_mult cb_offset cr_mult cr_luma_mult cr_offset
        overlap_flag clip_to_restricted_range predicted
    }
}
