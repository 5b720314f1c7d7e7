//! Each question once, through the safe functions: the refusal that answers it, and destinations left as they were.

use grain::*;
use std::num::NonZeroU32;

const SHAPE: Shape = Shape::new(3, 2, 8, Format::Yuv420);
const FRAME: Frame = frame(SHAPE);

/// The planes of [`SHAPE`], said to be of this shape.
const fn frame(shape: Shape) -> Frame<'static> {
    Frame::new(shape, &[9; 6], &[9; 2], &[9; 2])
}

fn pair<'a>(frame: Frame<'a>, denoised: Frame<'a>) -> Pair<'a> {
    Pair::new(frame, denoised).expect("one shape")
}

fn twice(pair: Pair) -> TwoFrames {
    TwoFrames::new(pair, pair).expect("one shape")
}

/// A frame of [`SHAPE`], denoised; what the destinations hold afterwards stands beside the answer.
fn denoised(frame: &Frame) -> (Result<(), Refusal>, [u16; 10]) {
    let mut planes = [7; 10];
    let (y, rest) = planes.split_at_mut(6);
    let (cb, cr) = rest.split_at_mut(2);
    let answer = denoise_frame(frame, y, cb, cr);
    (answer, planes)
}

fn refused(shape: Shape, refusal: Refusal) {
    let frame = frame(shape);
    let pair = pair(frame, frame);
    assert_eq!(denoised(&frame), (Err(refusal), [7; 10]));
    assert_eq!(noise_estimate(&pair), Err(refusal));
    assert_eq!(fit_chroma_corr(&pair), Err(refusal));
    assert_eq!(fit_ar_lag(&pair, 4), Err(refusal));
    assert_eq!(film_grain_probe(&twice(pair)), Err(refusal));
    for plane in [Chroma::Cb, Chroma::Cr] {
        assert_eq!(chroma_noise_gate(&twice(pair), plane, 8), Err(refusal));
    }
}

#[test]
fn accepted() {
    assert_eq!(denoised(&FRAME), (Ok(()), [9; 10]));
}

#[test]
fn numbers_of_a_shape() {
    let of = |width, height, depth| Shape::new(width, height, depth, Format::Yuv420);
    for width in [SIDE_LIMIT + 1, usize::MAX] {
        refused(of(width, 2, 8), Refusal::SideAbove4096);
    }
    refused(of(3, 0, 8), Refusal::EmptyFrame);
    for depth in [0, 9, 16, 255] {
        refused(of(3, 2, depth), Refusal::Depth);
    }
    refused(of(3, 3, 8), Refusal::PlaneLength);
}

/// Rectangles that are empty, leave the frame of [`SHAPE`], by sums that would wrap as well, or start at an odd place.
#[test]
fn active_rectangles() {
    const MAX: usize = usize::MAX;
    for (left, top, width, height) in [
        (0, 0, 0, 2),
        (0, 0, 3, 0),
        (0, 0, 0, 0),
        (2, 0, 2, 2),
        (0, 0, 3, 3),
        (4, 0, 1, 2),
        (0, 2, 3, 1),
        (MAX - 1, 0, 3, 2),
        (2, 0, MAX, 2),
        (0, MAX - 1, 3, 3),
        (0, 2, 3, MAX),
        (MAX, MAX, MAX, MAX),
        (1, 0, 2, 2),
        (0, 1, 3, 1),
    ] {
        let active = Rectangle {
            left,
            top,
            width,
            height,
        };
        refused(SHAPE.with_active(active), Refusal::ActiveRectangle);
    }
}

/// The first question that fails is the one that is named.
#[test]
fn order_of_questions() {
    let of = |width, height| Shape::new(width, height, 9, Format::Yuv420);
    refused(of(SIDE_LIMIT + 1, 0), Refusal::SideAbove4096);
    refused(of(1, 0), Refusal::EmptyFrame);
    let none = Rectangle::whole(0, 0);
    refused(of(1, 1).with_active(none), Refusal::Depth);
    let longer = Shape::new(3, 3, 8, Format::Yuv420);
    refused(longer.with_active(none), Refusal::ActiveRectangle);
}

#[test]
fn planes() {
    let mut planes = [7; 5];
    let short = denoise_plane(&[9; 6], &mut planes, 3, 2);
    assert_eq!((short, planes), (Err(Refusal::PlaneLength), [7; 5]));
    assert_eq!(denoise_plane(&[], &mut [], 0, SIDE_LIMIT), Ok(()));

    let high = Frame::new(SHAPE, FRAME.y, FRAME.cb, &[9, 256]);
    let pair = pair(FRAME, high);
    assert_eq!(denoised(&high), (Err(Refusal::SampleAboveDepth), [7; 10]));
    assert_eq!(noise_estimate(&pair), Err(Refusal::SampleAboveDepth));
    assert_eq!(film_grain_probe(&twice(pair)), Ok(false));
    assert_eq!(fit_ar_lag(&pair, 4), Err(Refusal::SampleAboveDepth));
}

/// A frame's samples are asked about wherever they stand.
#[test]
fn a_sample_outside_the_active_rectangle() {
    let shape = SHAPE.with_active(Rectangle::whole(1, 1));
    let low = frame(shape);
    let high = Frame::new(shape, &[9, 9, 9, 9, 9, 256], low.cb, low.cr);
    assert!(noise_estimate(&pair(low, low)).is_ok());
    let refused = Refusal::SampleAboveDepth;
    assert_eq!(denoised(&high), (Err(refused), [7; 10]));
    assert_eq!(noise_estimate(&pair(low, high)), Err(refused));
    assert_eq!(fit_chroma_corr(&pair(high, low)), Err(refused));
    assert_eq!(fit_ar_lag(&pair(high, low), 1), Err(refused));
    assert_eq!(film_grain_probe(&twice(pair(low, high))), Err(refused));
}

#[test]
fn lag_order_and_bits() {
    assert_eq!(fit_ar_lag(&pair(FRAME, FRAME), 4), Err(Refusal::LagAbove3));
    assert_eq!(ar_positions(4), Err(Refusal::LagAbove3));
    assert_eq!(lag_h_rho(&[1; 6], &[0; 6], 3, 2, usize::MAX, 8), Ok(0.0));
    for order in [0, 26] {
        let refusal = solve_normal(&[[0.0; 25]; 25], &[0.0; 25], order);
        assert_eq!(refusal, Err(Refusal::SolverOrder));
    }
    let mut register = RandomRegister::new(1);
    assert_eq!(register.next(17), Err(Refusal::RegisterBits));
    assert_eq!(register.next(16), Ok(32768));
}

/// Writes a header of an inter frame in 4:2:0 to so many bytes; what they hold afterwards stands beside the answer.
fn written(params: &FilmGrainParams, room: usize) -> (Result<usize, Refusal>, Vec<u8>) {
    let mut dst = vec![7; room];
    let answer = write_film_grain_params(params, FrameType::Inter, Format::Yuv420, &mut dst);
    (answer, dst)
}

#[test]
fn a_header_and_its_room() {
    let none = FilmGrainParams::reset();
    assert_eq!(written(&none, 2), (Ok(1), vec![0, 7]));
    assert_eq!(written(&none, 0), (Err(Refusal::HeaderRoom), vec![]));

    let seeded = FilmGrainParams {
        grain_seed: 1,
        ..none
    };
    for room in [0, MAX_HEADER_BYTES] {
        let refused = (Err(Refusal::HeaderField), vec![7; room]);
        assert_eq!(written(&seeded, room), refused);
    }
    let slot = FilmGrainParams {
        apply_grain: true,
        film_grain_params_ref_idx: 7,
        ..none
    };
    assert_eq!(written(&slot, 3), (Ok(21), vec![0x80, 0, 0x38]));
    assert_eq!(written(&slot, 2), (Err(Refusal::HeaderRoom), vec![7; 2]));
    let mut dst = [7; 3];
    let other = write_film_grain_params(&slot, FrameType::Other, Format::Yuv420, &mut dst);
    assert_eq!((other, dst), (Err(Refusal::HeaderField), [7; 3]));
}

/// A count is refused before anything is taken from its list.
#[test]
fn a_count_above_its_limit() {
    let updated = FilmGrainParams {
        apply_grain: true,
        update_grain: true,
        grain_scaling: 8,
        ar_coeff_shift: 6,
        ..FilmGrainParams::reset()
    };
    assert_eq!(written(&updated, 5).0, Ok(33));
    for count in [15, 200, 255] {
        let many = FilmGrainParams {
            num_y_points: count,
            point_y_value: std::array::from_fn(|i| i as u8),
            ..updated
        };
        let refused = (Err(Refusal::HeaderField), vec![7; MAX_HEADER_BYTES]);
        assert_eq!(written(&many, MAX_HEADER_BYTES), refused);
    }
}

fn of_number(number: u32) -> Refusal {
    NonZeroU32::new(number).expect("a refusal's number").into()
}

#[test]
fn numbers_and_words() {
    for &refusal in Refusal::ALL {
        let number = refusal.number();
        assert_eq!(of_number(number), refusal);
        assert!(refusal.question().ends_with('?'));
        let words = refusal.to_string();
        assert!(words.ends_with(&format!(" (question {number})")), "{words}");
        assert!(!words.contains('?'), "{words}");
    }
}

#[test]
fn a_number_without_a_name() {
    for number in [23, 1000, u32::MAX] {
        let refusal = of_number(number);
        assert_eq!(refusal, Refusal::Unknown(number));
        assert_eq!(refusal.number(), number);
        assert_eq!(
            refusal.to_string(),
            format!(
                "libgrain.a refuses the call for a reason that this crate has no words for (question {number})"
            )
        );
    }
}
