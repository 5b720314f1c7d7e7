//! The Rust's side of the table, by the oracle. It knows no rectangle: it is given the frame that one cuts out.

use crate::calls::Words;
use crate::headers::{bits, read};
use crate::input::{Input, Planes};
use crate::words::{coefficients, float, positions, quantised, solution, whole};
use grain::FilmGrainParams;
use oracle::{RandomRegister, digits, marks, reach};

/// How often a register is stepped in one case.
pub const STEPS: usize = 5;

pub fn denoise_plane(input: &Input, out: &mut Planes) -> Words {
    reach::denoise_plane(&input.frames[0].y, &mut out[0], input.width, input.height);
    Words::new()
}

pub fn denoise_frame(input: &Input, out: &mut Planes) -> Words {
    let frame = reach::denoise_frame(&input.frames[0]);
    *out = [frame.y, frame.u, frame.v];
    Words::new()
}

pub fn plane_sigma16(input: &Input, _: &mut Planes) -> Words {
    let (src, den) = (&input.frames[0].y, &input.denoised[0].y);
    vec![reach::plane_sigma16(src, den, input.depth)]
}

pub fn noise_estimate(input: &Input, _: &mut Planes) -> Words {
    let found = reach::noise_estimate(&input.frames[0], &input.denoised[0]);
    let luma = [found.sigma16].into_iter().chain(found.bin_sigma16);
    let cb = [found.cb_sigma16].into_iter().chain(found.cb_bin_sigma16);
    let cr = [found.cr_sigma16].into_iter().chain(found.cr_bin_sigma16);
    luma.chain(cb).chain(cr).collect()
}

/// Counts and squares of the bins, which the Rust keeps inside.
pub fn bins(input: &Input) -> Words {
    let shift = input.depth - 8;
    let (frame, copy) = (&input.frames[0], &input.denoised[0]);
    let planes = [
        (8, &frame.y, &copy.y),
        (4, &frame.u, &copy.u),
        (4, &frame.v, &copy.v),
    ];
    let mut words = Words::new();
    for (bins, src, den) in planes {
        let (mut counts, mut squares) = (vec![0; bins], vec![0; bins]);
        for (&s, &d) in src.iter().zip(den) {
            let bin = usize::from(s >> shift) / (256 / bins);
            let noise = (i64::from(s) - i64::from(d)) >> shift;
            counts[bin] += 1;
            squares[bin] += (noise * noise) as u64;
        }
        words.extend(counts.into_iter().chain(squares));
    }
    words
}

pub fn lag_h_rho(input: &Input, _: &mut Planes) -> Words {
    let (src, den) = (&input.frames[0].y, &input.denoised[0].y);
    let lag = input.number as usize;
    vec![float(reach::lag_h_rho(
        src,
        den,
        input.width,
        input.height,
        lag,
    ))]
}

pub fn film_grain_probe(input: &Input, _: &mut Planes) -> Words {
    vec![reach::film_grain_probe(&input.frames, &input.denoised).into()]
}

pub fn chroma_noise_gate(input: &Input, plane: usize) -> Words {
    let (frames, denoised) = (&input.frames, &input.denoised);
    vec![reach::chroma_noise_gate(frames, denoised, plane, input.number).into()]
}

pub fn fit_chroma_corr(input: &Input, _: &mut Planes) -> Words {
    let found = reach::fit_chroma_corr(&input.frames[0], &input.denoised[0]);
    found.cb.into_iter().chain(found.cr).map(whole).collect()
}

pub fn correlation_marks(input: &Input) -> Words {
    let marks = marks::fit_chroma_corr(&input.frames[0], &input.denoised[0]);
    marks.map(|mark| mark as u64).into()
}

pub fn ar_positions(input: &Input, _: &mut Planes) -> Words {
    positions(reach::ar_positions(input.number as usize))
}

pub fn fit_ar_lag(input: &Input, _: &mut Planes) -> Words {
    let found = reach::fit_ar_lag(&input.frames[0], &input.denoised[0], input.number as usize);
    coefficients(found.map(|f| (f.lag, [f.y, f.cb, f.cr])))
}

pub fn fit_marks(input: &Input) -> Words {
    let lag = input.number as usize;
    let found = marks::fit_ar_lag(&input.frames[0], &input.denoised[0], lag);
    let planes = found.into_iter().flatten();
    planes.flatten().map(|mark| mark as u64).collect()
}

fn solved(input: &Input) -> Option<Vec<f64>> {
    let order = input.number as usize;
    let rows = input.system.a[..order].iter();
    let a = rows.map(|row| row[..order].to_vec()).collect();
    reach::solve_normal(a, input.system.b[..order].to_vec())
}

pub fn solve_normal(input: &Input, _: &mut Planes) -> Words {
    solution(solved(input))
}

pub fn solve_and_quantise(input: &Input, _: &mut Planes) -> Words {
    quantised(solved(input), |x| {
        [whole(reach::quant_ar(x)), marks::quant_ar(x) as u64]
    })
}

pub fn quant_ar(input: &Input, _: &mut Planes) -> Words {
    vec![whole(reach::quant_ar(input.float))]
}

pub fn quantiser_mark(input: &Input) -> Words {
    vec![marks::quant_ar(input.float) as u64]
}

pub fn sqrt_digits(input: &Input, _: &mut Planes) -> Words {
    vec![float(input.float.sqrt())]
}

pub fn root_digits(input: &Input) -> Words {
    vec![digits::sqrt(input.float).into()]
}

pub fn grain_seed_for(input: &Input, _: &mut Planes) -> Words {
    vec![reach::grain_seed_for(input.number as u32).into()]
}

pub fn register_next(input: &Input, out: &mut Planes) -> Words {
    let mut register = RandomRegister::new(out[0][0]);
    let bits = input.number as u32;
    let drawn = (0..STEPS).map(|_| register.next(bits).into()).collect();
    out[0][0] = register.state;
    drawn
}

/// The Rust has no writer. What it reads from the header's bits has to be the record, and to take all of them.
pub fn write_film_grain_params(input: &Input, out: &mut Planes) -> Words {
    let header = &input.header;
    let (read, count) = read::read(&header.bits, header.inter, header.format).expect("a record");
    let due = FilmGrainParams {
        predicted: read.predicted,
        ..header.params
    };
    assert_eq!((read, count), (due, header.bits.len()), "the Rust's record");
    for (to, byte) in out[0].iter_mut().zip(bits::packed(&header.bits)) {
        *to = byte.into();
    }
    vec![count as u64]
}
