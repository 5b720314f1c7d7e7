//! The values that the Rust quantises, which it keeps inside: what its solver finds, and the quotient of the correlation.
//! Sums of noise products are exact in any order, so the equations are the Rust's to the bit.

use crate::{YuvFrame, reach};

fn noise(source: &[u16], denoised: &[u16]) -> Vec<f64> {
    let both = source.iter().zip(denoised);
    both.map(|(&s, &d)| f64::from(s) - f64::from(d)).collect()
}

/// Of a chroma plane: 1 for Cb, 2 for Cr.
fn chroma_noise(frame: &YuvFrame, denoised: &YuvFrame, component: usize) -> Vec<f64> {
    match component {
        1 => noise(&frame.u, &denoised.u),
        _ => noise(&frame.v, &denoised.v),
    }
}

fn chroma_size(frame: &YuvFrame) -> (usize, usize) {
    let (w, h) = (frame.chroma_width(), frame.chroma_height());
    (w as usize, h as usize)
}

/// Luma's average noise at each place of a chroma plane, the last row and column repeated.
pub fn averages(frame: &YuvFrame, denoised: &YuvFrame) -> Vec<f64> {
    let noise = noise(&frame.y, &denoised.y);
    let (width, height) = (frame.width as usize, frame.height as usize);
    let (along, down) = frame.format.subsampling();
    let (along, down) = (usize::from(along), usize::from(down));
    let at = |r: usize, c: usize| noise[r.min(height - 1) * width + c.min(width - 1)];
    let average = |r: usize, c: usize| {
        let (y, x) = (r << down, c << along);
        (at(y, x) + at(y + down, x) + at(y, x + along) + at(y + down, x + along)) / 4.0
    };
    let (w, h) = chroma_size(frame);
    (0..w * h).map(|i| average(i / w, i % w)).collect()
}

/// Of luma's fit, where there is a solution.
pub fn luma(frame: &YuvFrame, denoised: &YuvFrame, lag: usize) -> Option<Vec<f64>> {
    let noise = noise(&frame.y, &denoised.y);
    let found = reach::ls_fit_ar(&noise, frame.width as usize, frame.height as usize, lag);
    found.map(|(solution, _gain)| solution)
}

/// Of a chroma plane's fit, the luma tap last, where the plane is large enough and there is a solution.
pub fn chroma(
    frame: &YuvFrame,
    denoised: &YuvFrame,
    component: usize,
    lag: usize,
) -> Option<Vec<f64>> {
    let (w, h) = chroma_size(frame);
    if w <= 2 * lag || h <= lag {
        return None;
    }
    let noise = chroma_noise(frame, denoised, component);
    let averages = averages(frame, denoised);
    let places = reach::ar_positions(lag);
    let order = places.len() + 1;
    let (mut a, mut b) = (vec![vec![0.0; order]; order], vec![0.0; order]);
    for r in lag..h {
        for c in lag..w - lag {
            let neighbour = |&(dr, dc): &(i32, i32)| {
                noise[(r as i32 + dr) as usize * w + (c as i32 + dc) as usize]
            };
            let tap = averages[r * w + c];
            let row: Vec<f64> = places.iter().map(neighbour).chain([tap]).collect();
            for (i, &x) in row.iter().enumerate() {
                for (sum, &y) in a[i].iter_mut().zip(&row) {
                    *sum += x * y;
                }
                b[i] += x * noise[r * w + c];
            }
        }
    }
    reach::solve_normal(a, b)
}

/// Of a chroma plane's correlation, where luma's averages have squares above 1e-9.
pub fn correlation(frame: &YuvFrame, denoised: &YuvFrame, component: usize) -> Option<f64> {
    let noise = chroma_noise(frame, denoised, component);
    let averages = averages(frame, denoised);
    let dot = |x: &[f64]| -> f64 { averages.iter().zip(x).map(|(a, b)| a * b).sum() };
    let squares = dot(&averages);
    (squares > 1e-9).then(|| dot(&noise) / squares)
}
