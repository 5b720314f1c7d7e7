//! Marks of values and of frames for which it is plain what becomes of them.

use oracle::marks::Mark::{self, *};
use oracle::marks::{fit_ar_lag, fit_chroma_corr, quant_ar};
use oracle::{ChromaFormat, YuvFrame};

#[test]
fn values() {
    let marks = |list: &[f64]| list.iter().map(|&x| quant_ar(x)).collect::<Vec<Mark>>();
    assert_eq!(
        marks(&[0.0, -0.0, 127.49999 / 64.0, -128.49 / 64.0]),
        [Inside; 4]
    );
    assert_eq!(marks(&[127.5 / 64.0, 3.0, f64::INFINITY]), [HeldHigh; 3]);
    assert_eq!(
        marks(&[-128.5 / 64.0, -3.0, f64::NEG_INFINITY]),
        [HeldLow; 3]
    );
    assert_eq!(marks(&[f64::NAN, -f64::NAN]), [NotANumber; 2]);
}

/// A frame of this width whose planes are 1,000 and these noises.
fn noisy(width: u32, format: ChromaFormat, noise: [&[i32]; 3]) -> YuvFrame {
    let plane = |n: &[i32]| n.iter().map(|&d| (1000 + d) as u16).collect();
    YuvFrame {
        width,
        height: noise[0].len() as u32 / width,
        bit_depth: 12,
        format,
        y: plane(noise[0]),
        u: plane(noise[1]),
        v: plane(noise[2]),
    }
}

const FLAT: [i32; 20] = [0; 20];

#[test]
fn correlations() {
    let marks = |y: &[i32]| {
        let of = |noise| noisy(2, ChromaFormat::Yuv444, noise);
        fit_chroma_corr(&of([y, &[3, -3], &[-3, 3]]), &of([&[0; 2]; 3]))
    };
    assert_eq!(marks(&[1, -1]), [HeldHigh, HeldLow]);
    assert_eq!(marks(&[2, -2]), [Inside; 2]);
    assert_eq!(marks(&[0, 0]), [Inside; 2]);
}

/// Each about three times its left neighbour.
const GROWING: [i32; 20] = [
    1, 3, 9, 27, 81, -2, -6, -19, -56, -168, 3, 8, 25, 75, 225, 0, -1, -3, -9, -28,
];

/// Any, from −9 to 9.
const MIXED: [i32; 20] = [
    4, -7, 2, 9, -3, 5, 1, -8, 6, -2, -9, 3, 7, -5, 8, -1, -6, 2, 4, -4,
];

#[test]
fn fits() {
    use ChromaFormat::{Monochrome, Yuv444};
    let marks = |format, noise: [&[i32]; 3]| {
        let of = |noise| noisy(5, format, noise);
        fit_ar_lag(&of(noise), &of(noise.map(|n| &FLAT[..n.len()])), 1)
    };
    let inside = |count| vec![Inside; count];
    let last = |count, mark| [inside(count), vec![mark]].concat();

    let found = marks(Yuv444, [&GROWING, &FLAT, &FLAT]);
    assert_eq!(found, Some([last(3, HeldHigh), inside(5), inside(5)]));
    let found = marks(Monochrome, [&GROWING, &[], &[]]);
    assert_eq!(found, Some([last(3, HeldHigh), inside(5), inside(5)]));
    let [thrice, less] = [3, -3].map(|factor| MIXED.map(|d| factor * d));
    let found = marks(Yuv444, [&MIXED, &thrice, &less]);
    assert_eq!(
        found,
        Some([inside(4), last(4, HeldHigh), last(4, HeldLow)])
    );
    assert_eq!(marks(Yuv444, [&FLAT; 3]), None);
}
