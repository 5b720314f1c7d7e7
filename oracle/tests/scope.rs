//! The scope's worked figures, asked of the Rust: they are its answers, and every ported function is in reach.

use oracle::reach::*;
use oracle::{ChromaFormat, RandomRegister, YuvFrame};

/// A frame whose planes are 100 and these noises.
fn noisy(width: u32, height: u32, format: ChromaFormat, noise: [&[i32]; 3]) -> YuvFrame {
    let plane = |n: &[i32]| n.iter().map(|&d| (100 + d) as u16).collect();
    YuvFrame {
        width,
        height,
        bit_depth: 8,
        format,
        y: plane(noise[0]),
        u: plane(noise[1]),
        v: plane(noise[2]),
    }
}

fn denoised(src: &[u16], w: usize, h: usize) -> Vec<u16> {
    let mut dst = vec![0; src.len()];
    denoise_plane(src, &mut dst, w, h);
    dst
}

#[test]
fn denoiser() {
    assert_eq!(denoised(&[7], 1, 1), [7]);
    assert_eq!(denoised(&[0, 16], 2, 1), [4, 12]);
    assert_eq!(
        denoised(&[0, 0, 0, 0, 16, 0, 0, 0, 0], 3, 3),
        [1, 2, 1, 2, 4, 2, 1, 2, 1]
    );
    let frame = noisy(2, 1, ChromaFormat::Monochrome, [&[0, 16], &[], &[]]);
    assert_eq!(denoise_frame(&frame).y, [104, 112]);
}

#[test]
fn sigmas() {
    assert_eq!(plane_sigma16(&[1, 0, 0, 0], &[0; 4], 8), 8);
    let mut src = vec![0; 1024];
    src[0] = 1;
    assert_eq!(plane_sigma16(&src, &[0; 1024], 8), 1);
    src.push(0);
    assert_eq!(plane_sigma16(&src, &[0; 1025], 8), 0);
    assert_eq!(plane_sigma16(&[4; 9], &[5; 9], 10), 16);
    assert_eq!(plane_sigma16(&[6; 9], &[5; 9], 10), 0);
}

#[test]
fn profile() {
    let ones = noisy(3, 1, ChromaFormat::Yuv444, [&[1; 3], &[2; 3], &[-3; 3]]);
    let flat = noisy(3, 1, ChromaFormat::Yuv444, [&[0; 3]; 3]);
    let found = noise_estimate(&ones, &flat);
    assert_eq!(
        (found.sigma16, found.cb_sigma16, found.cr_sigma16),
        (16, 32, 48)
    );
}

#[test]
fn coefficients() {
    let given = [
        0.0078125,
        -0.0078125,
        1.9921875,
        -2.0078125,
        f64::NAN,
        f64::INFINITY,
        f64::NEG_INFINITY,
    ];
    assert_eq!(given.map(quant_ar), [1, -1, 127, -128, 0, 127, -128]);
}

#[test]
fn solver() {
    let rows = vec![vec![0.0, 1.0], vec![1.0, 0.0]];
    assert_eq!(solve_normal(rows, vec![3.0, 4.0]), Some(vec![4.0, 3.0]));
    assert!(solve_normal(vec![vec![1e-9]], vec![1.0]).is_some());
    assert!(solve_normal(vec![vec![0.99e-9]], vec![1.0]).is_none());
    assert!(solve_normal(vec![vec![f64::NAN]], vec![1.0]).is_some());
}

#[test]
fn fits() {
    assert_eq!(ar_positions(1), [(-1, -1), (-1, 0), (-1, 1), (0, -1)]);
    assert_eq!([1, 2, 3].map(|lag| ar_positions(lag).len()), [4, 12, 24]);
    let narrow = noisy(
        2,
        3,
        ChromaFormat::Monochrome,
        [&[1, 5, 2, 4, 3, 3], &[], &[]],
    );
    let flat = noisy(2, 3, ChromaFormat::Monochrome, [&[0; 6], &[], &[]]);
    assert_eq!(fit_ar_lag(&narrow, &flat, 1), None);
    assert_eq!(ls_fit_ar(&[0.0; 30], 6, 5, 1), None);
}

#[test]
fn chroma_correlation() {
    let frame = noisy(3, 1, ChromaFormat::Yuv420, [&[0, 4, 8], &[1, 1], &[0, 0]]);
    let flat = noisy(3, 1, ChromaFormat::Yuv420, [&[0; 3], &[0; 2], &[0; 2]]);
    let found = fit_chroma_corr(&frame, &flat);
    assert_eq!((found.cb, found.cr), (vec![9], vec![0]));
}

/// The noise 1,1,−1,−1,… of ten columns, with the first `turned` signs turned.
fn ten(turned: usize) -> [i32; 10] {
    let mut noise = [1, 1, -1, -1, 1, 1, -1, -1, 1, 1];
    noise[..turned].iter_mut().for_each(|d| *d = -*d);
    noise
}

#[test]
fn gates() {
    let luma = |first: &[i32], second: &[i32]| {
        let w = first.len() as u32;
        let frame = |n: &[i32]| noisy(w, 1, ChromaFormat::Monochrome, [n, &[], &[]]);
        let flat = frame(&vec![0; first.len()]);
        film_grain_probe(&[frame(first), frame(second)], &[flat.clone(), flat])
    };
    assert!(!luma(&[1, 1, 1, 1], &[1, -1, 1, 1]));
    assert!(luma(&[1, 1, 1, -1], &[1, -1, 1, 1]));
    assert!(!luma(&ten(0), &ten(3)));
    assert!(luma(&ten(0), &ten(4)));

    let frame = |n: [&[i32]; 3]| noisy(10, 1, ChromaFormat::Yuv444, n);
    let frames = [frame([&ten(0); 3]), frame([&ten(0), &ten(4), &ten(3)])];
    let flat = frame([&[0; 10]; 3]);
    let flats = [flat.clone(), flat];
    assert!(chroma_noise_gate(&frames, &flats, 1, 8));
    assert!(!chroma_noise_gate(&frames, &flats, 2, 8));
    assert!(!chroma_noise_gate(&frames, &flats, 1, 7));
    assert_eq!(lag_h_rho(&[1; 4], &[0; 4], 4, 1, 1), 0.75);
}

#[test]
fn seeds_and_register() {
    assert_eq!([0, 1, 2].map(grain_seed_for), [20973, 61476, 36443]);
    let mut register = RandomRegister::new(1);
    assert_eq!((register.next(11), register.state), (1024, 32768));
}
