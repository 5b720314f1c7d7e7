//! Every ported function of film_grain_elect.rs, its private ones included, by its own name and with its own arguments.
//! The two records that the file keeps to its crate come out as records of the same fields.

use super::YuvFrame;

/// `NoiseEstimate`, field for field.
#[derive(Debug, Clone, Copy, PartialEq, Eq)]
pub struct NoiseEstimate {
    pub sigma16: u64,
    pub bin_sigma16: [u64; 8],
    pub cb_sigma16: u64,
    pub cb_bin_sigma16: [u64; 4],
    pub cr_sigma16: u64,
    pub cr_bin_sigma16: [u64; 4],
}

/// `ArFit`, field for field.
#[derive(Debug, Clone, PartialEq, Eq)]
pub struct ArFit {
    pub lag: u8,
    pub y: Vec<i32>,
    pub cb: Vec<i32>,
    pub cr: Vec<i32>,
}

impl From<super::ArFit> for ArFit {
    fn from(fit: super::ArFit) -> Self {
        let super::ArFit { lag, y, cb, cr } = fit;
        Self { lag, y, cb, cr }
    }
}

pub fn denoise_plane(src: &[u16], dst: &mut [u16], w: usize, h: usize) {
    super::denoise_plane(src, dst, w, h)
}

pub fn denoise_frame(input: &YuvFrame) -> YuvFrame {
    super::denoise_frame(input)
}

pub fn plane_sigma16(a: &[u16], b: &[u16], bit_depth: u8) -> u64 {
    super::plane_sigma16(a, b, bit_depth)
}

pub fn noise_estimate(input: &YuvFrame, denoised: &YuvFrame) -> NoiseEstimate {
    let super::NoiseEstimate {
        sigma16,
        bin_sigma16,
        cb_sigma16,
        cb_bin_sigma16,
        cr_sigma16,
        cr_bin_sigma16,
    } = super::noise_estimate(input, denoised);
    NoiseEstimate {
        sigma16,
        bin_sigma16,
        cb_sigma16,
        cb_bin_sigma16,
        cr_sigma16,
        cr_bin_sigma16,
    }
}

pub fn lag_h_rho(a: &[u16], b: &[u16], w: usize, h: usize, lag: usize) -> f64 {
    super::lag_h_rho(a, b, w, h, lag)
}

pub fn film_grain_probe(frames: &[YuvFrame], denoised: &[YuvFrame]) -> bool {
    super::film_grain_probe(frames, denoised)
}

/// `plane` is 1 for Cb, anything else for Cr.
pub fn chroma_noise_gate(
    frames: &[YuvFrame],
    denoised: &[YuvFrame],
    plane: usize,
    sigma16: u64,
) -> bool {
    super::chroma_noise_gate(frames, denoised, plane, sigma16)
}

pub fn fit_chroma_corr(input: &YuvFrame, denoised: &YuvFrame) -> ArFit {
    super::fit_chroma_corr(input, denoised).into()
}

pub fn ar_positions(lag: usize) -> Vec<(i32, i32)> {
    super::ar_positions(lag)
}

pub fn ls_fit_ar(noise: &[f64], w: usize, h: usize, lag: usize) -> Option<(Vec<f64>, f64)> {
    super::ls_fit_ar(noise, w, h, lag)
}

pub fn fit_ar_lag(input: &YuvFrame, denoised: &YuvFrame, lag: usize) -> Option<ArFit> {
    super::fit_ar_lag(input, denoised, lag).map(ArFit::from)
}

pub fn solve_normal(a: Vec<Vec<f64>>, b: Vec<f64>) -> Option<Vec<f64>> {
    super::solve_normal(a, b)
}

pub fn quant_ar(c: f64) -> i32 {
    super::quant_ar(c)
}

pub fn grain_seed_for(order_hint: u32) -> u16 {
    super::grain_seed_for(order_hint)
}
