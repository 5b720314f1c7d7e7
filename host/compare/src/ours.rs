//! The library's side of the table, by its safe functions.

use crate::calls::Words;
use crate::headers::lent_bytes;
use crate::input::{Input, Planes};
use crate::rust::STEPS;
use crate::words::{coefficients, float, positions, quantised, solution, whole};
use grain::{
    ArFit, Chroma, Format, Frame, Pair, Profile, RandomRegister, Refusal, Shape, TwoFrames,
};
use oracle::YuvFrame;

fn lent<'a>(input: &Input, planes: &'a YuvFrame) -> Result<Frame<'a>, Refusal> {
    let format = Format::try_from(input.format)?;
    let whole = Shape::new(input.width, input.height, input.depth, format);
    let shape = whole.with_active(input.active);
    Ok(Frame::new(shape, &planes.y, &planes.u, &planes.v))
}

/// A frame and its denoised copy.
fn pair(input: &Input, at: usize) -> Result<Pair<'_>, Refusal> {
    let frame = lent(input, &input.frames[at])?;
    let denoised = lent(input, &input.denoised[at])?;
    Ok(Pair::new(frame, denoised).expect("an input has one shape"))
}

fn two_frames(input: &Input) -> Result<TwoFrames<'_>, Refusal> {
    let frames = TwoFrames::new(pair(input, 0)?, pair(input, 1)?);
    Ok(frames.expect("an input has one shape"))
}

pub fn denoise_plane(input: &Input, out: &mut Planes) -> Result<Words, Refusal> {
    grain::denoise_plane(&input.frames[0].y, &mut out[0], input.width, input.height)?;
    Ok(Words::new())
}

pub fn denoise_frame(input: &Input, out: &mut Planes) -> Result<Words, Refusal> {
    let [y, cb, cr] = out;
    grain::denoise_frame(&lent(input, &input.frames[0])?, y, cb, cr)?;
    Ok(Words::new())
}

pub fn plane_sigma16(input: &Input, _: &mut Planes) -> Result<Words, Refusal> {
    let (src, den) = (&input.frames[0].y, &input.denoised[0].y);
    let sigma16 = grain::plane_sigma16(src, den, input.width, input.height, input.depth)?;
    Ok(vec![sigma16])
}

fn sigmas<const N: usize>(p: &Profile<N>) -> impl Iterator<Item = u64> {
    [p.sigma16].into_iter().chain(p.bins.map(|b| b.sigma16))
}

fn counts<const N: usize>(p: &Profile<N>) -> impl Iterator<Item = u64> {
    let squares = p.bins.map(|b| b.squares);
    p.bins.map(|b| b.count).into_iter().chain(squares)
}

pub fn noise_estimate(input: &Input, _: &mut Planes) -> Result<Words, Refusal> {
    let found = grain::noise_estimate(&pair(input, 0)?)?;
    let sigmas = sigmas(&found.luma).chain(sigmas(&found.cb).chain(sigmas(&found.cr)));
    let counts = counts(&found.luma).chain(counts(&found.cb).chain(counts(&found.cr)));
    Ok(sigmas.chain(counts).collect())
}

pub fn lag_h_rho(input: &Input, _: &mut Planes) -> Result<Words, Refusal> {
    let (src, den) = (&input.frames[0].y, &input.denoised[0].y);
    let lag = input.number as usize;
    let rho = grain::lag_h_rho(src, den, input.width, input.height, lag, input.depth)?;
    Ok(vec![float(rho)])
}

pub fn film_grain_probe(input: &Input, _: &mut Planes) -> Result<Words, Refusal> {
    Ok(vec![grain::film_grain_probe(&two_frames(input)?)?.into()])
}

pub fn chroma_noise_gate(input: &Input, plane: Chroma) -> Result<Words, Refusal> {
    let yes = grain::chroma_noise_gate(&two_frames(input)?, plane, input.number)?;
    Ok(vec![yes.into()])
}

pub fn fit_chroma_corr(input: &Input, _: &mut Planes) -> Result<Words, Refusal> {
    let found = grain::fit_chroma_corr(&pair(input, 0)?)?;
    let (cb_mark, cr_mark) = (found.cb_mark as u64, found.cr_mark as u64);
    Ok(vec![whole(found.cb), whole(found.cr), cb_mark, cr_mark])
}

pub fn ar_positions(input: &Input, _: &mut Planes) -> Result<Words, Refusal> {
    Ok(positions(grain::ar_positions(input.number as usize)?))
}

pub fn fit_ar_lag(input: &Input, _: &mut Planes) -> Result<Words, Refusal> {
    let found = grain::fit_ar_lag(&pair(input, 0)?, input.number as usize)?;
    let marks = found.iter().flat_map(marks).collect();
    let words = coefficients(found.map(|f| (f.lag, [f.y, f.cb, f.cr])));
    Ok([words, marks].concat())
}

fn marks(fit: &ArFit) -> impl Iterator<Item = u64> {
    let planes = [&fit.y_marks, &fit.cb_marks, &fit.cr_marks];
    planes.into_iter().flatten().map(|&mark| mark as u64)
}

pub fn solve_normal(input: &Input, _: &mut Planes) -> Result<Words, Refusal> {
    let system = &input.system;
    let found = grain::solve_normal(&system.a, &system.b, input.number as usize)?;
    Ok(solution(found))
}

pub fn solve_and_quantise(input: &Input, _: &mut Planes) -> Result<Words, Refusal> {
    let system = &input.system;
    let found = grain::solve_normal(&system.a, &system.b, input.number as usize)?;
    Ok(quantised(found, quantiser))
}

fn quantiser(x: f64) -> [u64; 2] {
    let found = grain::quant_ar(x);
    [whole(found.coefficient), found.mark as u64]
}

pub fn quant_ar(input: &Input, _: &mut Planes) -> Result<Words, Refusal> {
    Ok(quantiser(input.float).into())
}

pub fn sqrt_digits(input: &Input, _: &mut Planes) -> Result<Words, Refusal> {
    let found = grain::sqrt_digits(input.float);
    Ok(vec![float(found.value), found.digits.into()])
}

pub fn grain_seed_for(input: &Input, _: &mut Planes) -> Result<Words, Refusal> {
    Ok(vec![grain::grain_seed_for(input.number as u32).into()])
}

pub fn register_next(input: &Input, out: &mut Planes) -> Result<Words, Refusal> {
    let mut register = RandomRegister::new(out[0][0]);
    let drawn: Result<Words, Refusal> = (0..STEPS)
        .map(|_| register.next(input.number as u32).map(u64::from))
        .collect();
    out[0][0] = register.state;
    drawn
}

pub fn write_film_grain_params(input: &Input, out: &mut Planes) -> Result<Words, Refusal> {
    let (header, format) = (&input.header, Format::try_from(input.format)?);
    let bits = lent_bytes(&mut out[0], |dst| {
        grain::write_film_grain_params(&header.params, header.frame(), format, dst)
    })?;
    Ok(vec![bits as u64])
}
