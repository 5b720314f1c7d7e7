//! Frames that are compared have one shape, whatever their planes' lengths. Every call on more than one frame takes a
//! [`Pair`] or [`TwoFrames`], so that what these refuse no call sees.

use grain::*;

const SHAPE: Shape = Shape::new(4, 2, 8, Format::Yuv422);

/// Shapes that differ from [`SHAPE`] in one number, one of as many samples, and one with another active rectangle.
const OTHERS: [Shape; 6] = [
    Shape::new(5, 2, 8, Format::Yuv422),
    Shape::new(4, 1, 8, Format::Yuv422),
    Shape::new(4, 2, 10, Format::Yuv422),
    Shape::new(4, 2, 8, Format::Monochrome),
    Shape::new(2, 4, 8, Format::Yuv422),
    SHAPE.with_active(Rectangle::whole(4, 1)),
];

fn frame(shape: Shape) -> Frame<'static> {
    Frame::new(shape, &[9; 8], &[9; 4], &[9; 4])
}

fn pair(shape: Shape, denoised: Shape) -> Result<Pair<'static>, ShapeMismatch> {
    Pair::new(frame(shape), frame(denoised))
}

/// The answers of the calls on a frame and its copy, or that their shapes differ.
fn of_pair(shape: Shape, denoised: Shape) -> Result<[bool; 3], ShapeMismatch> {
    let pair = pair(shape, denoised)?;
    Ok([
        noise_estimate(&pair).is_ok(),
        fit_chroma_corr(&pair).is_ok(),
        fit_ar_lag(&pair, 1).is_ok(),
    ])
}

/// The answers of the calls on two frames and their copies, or that two of the shapes differ.
fn of_two_frames([a, b, c, d]: [Shape; 4]) -> Result<[bool; 3], ShapeMismatch> {
    let frames = TwoFrames::new(pair(a, b)?, pair(c, d)?)?;
    Ok([
        film_grain_probe(&frames).is_ok(),
        chroma_noise_gate(&frames, Chroma::Cb, 16).is_ok(),
        chroma_noise_gate(&frames, Chroma::Cr, 16).is_ok(),
    ])
}

#[test]
fn one_shape_is_accepted() {
    assert_eq!(of_pair(SHAPE, SHAPE), Ok([true; 3]));
    assert_eq!(of_two_frames([SHAPE; 4]), Ok([true; 3]));
}

#[test]
fn another_shape_in_any_place_is_an_error() {
    for other in OTHERS {
        let found = of_pair(SHAPE, other).unwrap_err();
        assert_eq!((found.first, found.other), (SHAPE, other));
        assert!(of_pair(other, SHAPE).is_err());
        for place in 0..4 {
            let mut shapes = [SHAPE; 4];
            shapes[place] = other;
            assert!(of_two_frames(shapes).is_err());
        }
        let found = of_two_frames([SHAPE, SHAPE, other, other]).unwrap_err();
        assert_eq!((found.first, found.other), (SHAPE, other));
    }
}

#[test]
fn a_pair_has_the_frames_it_was_made_of() {
    let (y, den) = ([1; 8], [2; 8]);
    let [frame, denoised] = [&y, &den].map(|plane| Frame::new(SHAPE, plane, &[9; 4], &[9; 4]));
    let first = Pair::new(frame, denoised).expect("one shape");
    let second = Pair::new(denoised, frame).expect("one shape");
    assert_eq!((first.frame().y, first.denoised().y), (&y[..], &den[..]));
    let frames = TwoFrames::new(first, second).expect("one shape");
    assert_eq!(frames.frames().map(|frame| frame.y), [y, den, den, y]);
    assert_eq!((first.shape(), frames.shape()), (SHAPE, SHAPE));
}
