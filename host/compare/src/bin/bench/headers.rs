//! The table of headers.

use compare::headers::read;
use grain::{FilmGrainParams, Format, FrameType, MAX_HEADER_BYTES, write_film_grain_params};
use oracle::parse_film_grain_params;
use std::array::from_fn;
use std::hint::black_box;

const RESET: FilmGrainParams = FilmGrainParams::reset();

fn slot() -> FilmGrainParams {
    FilmGrainParams {
        apply_grain: true,
        grain_seed: 0x1234,
        film_grain_params_ref_idx: 5,
        ..RESET
    }
}

/// Six luma points and lag 2.
fn luma() -> FilmGrainParams {
    FilmGrainParams {
        apply_grain: true,
        grain_seed: 0x1234,
        update_grain: true,
        num_y_points: 6,
        point_y_value: from_fn(|i| if i < 6 { 50 * i as u8 } else { 0 }),
        point_y_scaling: from_fn(|i| if i < 6 { 40 + i as u8 } else { 0 }),
        grain_scaling: 11,
        ar_coeff_lag: 2,
        ar_coeffs_y_plus_128: from_fn(|i| if i < 12 { 122 + i as u8 } else { 0 }),
        ar_coeff_shift: 6,
        overlap_flag: true,
        ..RESET
    }
}

fn largest() -> FilmGrainParams {
    FilmGrainParams {
        num_y_points: 14,
        point_y_value: from_fn(|i| 18 * i as u8),
        point_y_scaling: [40; 14],
        num_cb_points: 10,
        point_cb_value: from_fn(|i| 25 * i as u8),
        point_cb_scaling: [30; 10],
        num_cr_points: 10,
        point_cr_value: from_fn(|i| 25 * i as u8),
        point_cr_scaling: [20; 10],
        ar_coeff_lag: 3,
        ar_coeffs_y_plus_128: [130; 24],
        ar_coeffs_cb_plus_128: [127; 25],
        ar_coeffs_cr_plus_128: [128; 25],
        cb_mult: 128,
        cb_luma_mult: 192,
        cb_offset: 256,
        cr_mult: 128,
        cr_luma_mult: 192,
        cr_offset: 256,
        ..luma()
    }
}

/// Headers of an inter frame in 4:2:0: ours writes each, and the Rust, which has no writer, reads what was written.
pub fn table() {
    println!("\n## Headers\n");
    println!(
        "Of an inter frame in 4:2:0. Ours writes the header; the Rust, which has no writer, reads it, by a bit reader \
         that is oracle's own: a comparison of scale, not of like with like.\n"
    );
    println!("| header | bits | ours writes, ns | the Rust reads, ns | times as fast |");
    println!("|---|---:|---:|---:|---:|");
    for (name, params) in [
        ("not applied", RESET),
        ("a slot", slot()),
        ("luma alone, 6 points, lag 2", luma()),
        ("the largest: 14, 10 and 10 points, lag 3", largest()),
    ] {
        let (frame, format) = (FrameType::Inter, Format::Yuv420);
        let mut bytes = [0; MAX_HEADER_BYTES];
        let write = |bytes: &mut [u8]| {
            let bits = write_film_grain_params(black_box(&params), frame, format, bytes);
            bits.expect("an accepted call")
        };
        let bits = write(&mut bytes);
        let context = read::context(true, format as u8);
        let (_, count) = parse_film_grain_params(&bytes, context).expect("a record");
        assert_eq!(count, bits, "the Rust reads the header whole");
        let mut written = bytes;
        let [ours, rust] = super::best(&mut [
            &mut || _ = black_box(write(black_box(&mut written))),
            &mut || _ = black_box(parse_film_grain_params(black_box(&bytes), context)),
        ]);
        let ratio = rust.as_secs_f64() / ours.as_secs_f64();
        let (ours, rust) = (ours.as_nanos(), rust.as_nanos());
        println!("| {name} | {bits} | {ours} | {rust} | {ratio:.1} |");
    }
}
