//! What became of each value on its way to a coefficient. The Rust doesn't say, so it is reckoned from the values that
//! the Rust quantises; the coefficients that follow from the same reckoning have to be the Rust's.

use crate::{YuvFrame, reach, values};

/// By its number in the library's records.
#[derive(Debug, Clone, Copy, PartialEq, Eq)]
pub enum Mark {
    Inside,
    HeldLow,
    HeldHigh,
    NotANumber,
}

/// A value's coefficient, and its mark.
fn quantised(value: f64) -> (i32, Mark) {
    let rounded = (64.0 * value).round();
    match () {
        () if rounded.is_nan() => (0, Mark::NotANumber),
        () if rounded < -128.0 => (-128, Mark::HeldLow),
        () if rounded > 127.0 => (127, Mark::HeldHigh),
        () => (rounded as i32, Mark::Inside),
    }
}

/// The marks of values that the Rust made these coefficients of. Without values nothing was quantised: the coefficients
/// are 0, and inside.
fn of_values(values: Option<Vec<f64>>, coefficients: &[i32]) -> Vec<Mark> {
    let values = values.unwrap_or(vec![0.0; coefficients.len()]);
    let (reckoned, marks): (Vec<i32>, Vec<Mark>) = values.into_iter().map(quantised).unzip();
    assert_eq!(reckoned, coefficients, "the Rust's coefficients");
    marks
}

/// `quant_ar`'s.
pub fn quant_ar(value: f64) -> Mark {
    of_values(Some(vec![value]), &[reach::quant_ar(value)])[0]
}

/// `fit_chroma_corr`'s, of Cb and Cr.
pub fn fit_chroma_corr(frame: &YuvFrame, denoised: &YuvFrame) -> [Mark; 2] {
    let found = reach::fit_chroma_corr(frame, denoised);
    [(1, found.cb), (2, found.cr)].map(|(component, coefficients)| {
        let value = values::correlation(frame, denoised, component);
        of_values(value.map(|x| vec![x]), &coefficients)[0]
    })
}

/// `fit_ar_lag`'s, of Y, Cb and Cr, where there is a fit.
pub fn fit_ar_lag(frame: &YuvFrame, denoised: &YuvFrame, lag: usize) -> Option<[Vec<Mark>; 3]> {
    let found = reach::fit_ar_lag(frame, denoised, lag)?;
    let chroma = |component| values::chroma(frame, denoised, component, lag);
    Some([
        of_values(values::luma(frame, denoised, lag), &found.y),
        of_values(chroma(1), &found.cb),
        of_values(chroma(2), &found.cr),
    ])
}
