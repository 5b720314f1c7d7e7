//! Headers put down bit by bit, read by the Rust: its own reader, over the bits that `missing` hands it.

use oracle::bitreader::BitReader;
use oracle::{Error, FilmGrainContext, FilmGrainParams, parse_film_grain_params};

/// A shown 4:2:0 frame.
fn context(is_inter_frame: bool) -> FilmGrainContext {
    FilmGrainContext {
        film_grain_params_present: true,
        show_frame: true,
        showable_frame: false,
        is_inter_frame,
        mono_chrome: false,
        subsampling_x: true,
        subsampling_y: true,
    }
}

/// The bytes of bits written as digits, spaces between fields, the last byte filled with zeros.
fn bytes(digits: &str) -> Vec<u8> {
    let bits: Vec<u8> = digits.bytes().filter(|&c| c != b' ').collect();
    let byte = |bits: &[u8]| (0..8).fold(0, |x, i| 2 * x + u8::from(bits.get(i) == Some(&b'1')));
    bits.chunks(8).map(byte).collect()
}

#[test]
fn bits_are_read_highest_first() {
    let mut bits = BitReader::new(&[0b1010_0000, 0b0100_0001]);
    assert_eq!([3, 0, 7].map(|n| bits.f(n)), [Ok(5), Ok(0), Ok(1)]);
    assert_eq!(bits.position(), 10);
    assert_eq!(bits.f(6), Ok(1));
    assert_eq!(bits.f(1), Err(Error::UnexpectedEnd));
}

#[test]
fn not_applied_and_a_slot() {
    let none = parse_film_grain_params(&[0x7f], context(true));
    assert_eq!(none, Ok((FilmGrainParams::reset(), 1)));
    let slot = FilmGrainParams {
        apply_grain: true,
        grain_seed: 0x1234,
        film_grain_params_ref_idx: 5,
        predicted: true,
        ..FilmGrainParams::reset()
    };
    let read = parse_film_grain_params(&[0x89, 0x1a, 0x28], context(true));
    assert_eq!(read, Ok((slot, 21)));
    let cut = parse_film_grain_params(&[0x89, 0x1a], context(true));
    assert_eq!(cut, Err(Error::UnexpectedEnd));
}

/// On a frame that isn't inter: a seed of 1, one luma point (9, 100), no chroma, scaling 11, lag 0, shift 7, overlap.
const LUMA: &str = "1 0000000000000001 0001 00001001 01100100 0 0000 0000 11 00 01 00 1 0";

#[test]
fn luma_alone() {
    let (read, bits) = parse_film_grain_params(&bytes(LUMA), context(false)).expect("a record");
    let mut due = FilmGrainParams {
        apply_grain: true,
        grain_seed: 1,
        update_grain: true,
        num_y_points: 1,
        grain_scaling: 11,
        ar_coeff_shift: 7,
        overlap_flag: true,
        ..FilmGrainParams::reset()
    };
    (due.point_y_value[0], due.point_y_scaling[0]) = (9, 100);
    assert_eq!((read, bits), (due, 56));
}

/// What the reader tests of a record: its counts.
#[test]
fn counts() {
    let many = bytes("1 0000000000000001 1111");
    let read = parse_film_grain_params(&many, context(false));
    assert_eq!(read, Err(Error::FilmGrainPointCountOverflow));
}
