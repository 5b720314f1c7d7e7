//! The library's side of the table by the C interface itself: whole records, refused or accepted, and whatever number a
//! case has for its format.
#![allow(unsafe_code)]

use crate::calls::Words;
use crate::headers::{Header, lent_bytes};
use crate::input::{Input, Planes};
use crate::rust::STEPS;
use crate::words::{coefficients, float, positions, quantised, solution, whole};
use grain::sys::{self, call};
use oracle::YuvFrame;

/// What a function of the C interface answers.
pub struct Record {
    pub refusal: u32,
    /// As the table has them.
    pub words: Words,
    /// The fields that an accepted answer leaves 0. A refused one leaves the words 0 as well.
    pub unused: Words,
}

impl Record {
    /// One whose every field is in use.
    pub fn full(refusal: u32, words: Words) -> Self {
        Record {
            refusal,
            words,
            unused: Words::new(),
        }
    }

    /// The words that ought to be 0 and aren't.
    pub fn stray(&self) -> Words {
        let words = self.words.iter().filter(|_| self.refusal != 0);
        let nonzero = words.chain(&self.unused).filter(|&&word| word != 0);
        nonzero.copied().collect()
    }
}

fn shape(input: &Input) -> sys::Shape {
    sys::Shape {
        width: input.width,
        height: input.height,
        depth: input.depth,
        format: input.format,
        active: input.active.into(),
    }
}

fn planes(frame: &YuvFrame) -> [&[u16]; 3] {
    [&frame.y, &frame.u, &frame.v]
}

/// What an interface function answers of six planes, a frame's and its copy's.
macro_rules! of_pair {
    ($name:ident, $input:expr $(, $number:expr)*) => {{
        let [y, cb, cr] = planes(&$input.frames[0]);
        let [y_den, cb_den, cr_den] = planes(&$input.denoised[0]);
        // SAFETY: the slices are borrowed, and none is written.
        unsafe { call!($name, [shape($input)], [y, cb, cr, y_den, cb_den, cr_den], [$($number),*]) }
    }};
}

/// What an interface function answers of one component of two frames and of their copies.
macro_rules! of_two_frames {
    ($name:ident, $input:expr, $component:expr $(, $number:expr)*) => {{
        let ([first, second], [copy, other]) = (&$input.frames, &$input.denoised);
        let [src0, den0, src1, den1] = [first, copy, second, other].map(|f| planes(f)[$component]);
        // SAFETY: the slices are borrowed, and none is written.
        let found = unsafe { call!($name, [shape($input)], [src0, den0, src1, den1], [$($number),*]) };
        Record::full(found.refusal, vec![found.yes.into()])
    }};
}

pub fn denoise_plane(input: &Input, [dst, ..]: &mut Planes) -> Record {
    let (src, w, h) = (&input.frames[0].y, input.width, input.height);
    // SAFETY: the destination is borrowed alone.
    let refusal = unsafe { call!(grain_denoise_plane, [], [src], mut [dst], [w, h]) };
    Record::full(refusal, Words::new())
}

pub fn denoise_frame(input: &Input, [to_y, to_cb, to_cr]: &mut Planes) -> Record {
    let [y, cb, cr] = planes(&input.frames[0]);
    // SAFETY: each destination is borrowed alone.
    let refusal = unsafe {
        call!(grain_denoise_frame, [shape(input)], [y, cb, cr], mut [to_y, to_cb, to_cr], [])
    };
    Record::full(refusal, Words::new())
}

pub fn plane_sigma16(input: &Input, _: &mut Planes) -> Record {
    let (src, den) = (&input.frames[0].y, &input.denoised[0].y);
    let (w, h, depth) = (input.width, input.height, input.depth);
    // SAFETY: the slices are borrowed, and none is written.
    let found = unsafe { call!(grain_plane_sigma16, [], [src, den], [w, h, depth]) };
    Record::full(found.refusal, vec![found.sigma16])
}

fn sigmas<const N: usize>(p: &sys::Profile<N>) -> impl Iterator<Item = u64> {
    [p.sigma16].into_iter().chain(p.bin_sigma16)
}

fn counts<const N: usize>(p: &sys::Profile<N>) -> impl Iterator<Item = u64> {
    p.bin_count.into_iter().chain(p.bin_squares)
}

pub fn noise_estimate(input: &Input, _: &mut Planes) -> Record {
    let found = of_pair!(grain_noise_estimate, input);
    let sigmas = sigmas(&found.luma).chain(sigmas(&found.cb).chain(sigmas(&found.cr)));
    let counts = counts(&found.luma).chain(counts(&found.cb).chain(counts(&found.cr)));
    Record::full(found.refusal, sigmas.chain(counts).collect())
}

pub fn lag_h_rho(input: &Input, _: &mut Planes) -> Record {
    let (src, den) = (&input.frames[0].y, &input.denoised[0].y);
    let (w, h, depth) = (input.width, input.height, input.depth);
    let lag = input.number as usize;
    // SAFETY: the slices are borrowed, and none is written.
    let found = unsafe { call!(grain_lag_h_rho, [], [src, den], [w, h, lag, depth]) };
    Record::full(found.refusal, vec![float(found.value)])
}

pub fn film_grain_probe(input: &Input, _: &mut Planes) -> Record {
    of_two_frames!(grain_film_grain_probe, input, 0)
}

pub fn chroma_noise_gate(input: &Input, component: usize) -> Record {
    of_two_frames!(grain_chroma_noise_gate, input, component, input.number)
}

pub fn fit_chroma_corr(input: &Input, _: &mut Planes) -> Record {
    let found = of_pair!(grain_fit_chroma_corr, input);
    let (cb_mark, cr_mark) = (found.cb_mark.into(), found.cr_mark.into());
    let words = vec![whole(found.cb), whole(found.cr), cb_mark, cr_mark];
    Record::full(found.refusal, words)
}

pub fn ar_positions(input: &Input, _: &mut Planes) -> Record {
    // SAFETY: a number alone is passed.
    let found = unsafe { sys::grain_ar_positions(input.number as usize) };
    let (rows, unused_rows) = found.rows.split_at(found.count);
    let (columns, unused_columns) = found.columns.split_at(found.count);
    let places = rows.iter().copied().zip(columns.iter().copied());
    let unused = unused_rows.iter().chain(unused_columns);
    Record {
        refusal: found.refusal,
        words: positions(places.collect()),
        unused: unused.copied().map(whole).collect(),
    }
}

pub fn fit_ar_lag(input: &Input, _: &mut Planes) -> Record {
    let lag = input.number as usize;
    let found = of_pair!(grain_fit_ar_lag, input, lag);
    let count = if found.found { found.count } else { 0 };
    let taps = if found.found { count + 1 } else { 0 };
    let used = [count, taps, taps];
    let planes = [&found.luma[..], &found.cb, &found.cr];
    let marks = [&found.luma_marks[..], &found.cb_marks, &found.cr_marks];
    let (planes, rest) = parted(planes, used);
    let (marks, marks_rest) = parted(marks, used);
    let words = coefficients(found.found.then_some((lag as u8, planes)));
    let marks = marks.into_iter().flatten().map(u64::from);
    let rest = rest.map(whole).chain(marks_rest.map(u64::from));
    Record {
        refusal: found.refusal,
        words: words.into_iter().chain(marks).collect(),
        unused: rest.chain([(found.count - count) as u64]).collect(),
    }
}

/// The elements in use of the lists of Y, Cb and Cr, and the others.
fn parted<T: Copy>(lists: [&[T]; 3], used: [usize; 3]) -> ([Vec<T>; 3], impl Iterator<Item = T>) {
    let parts = [0, 1, 2].map(|i| lists[i].split_at(used[i]));
    let others = parts.into_iter().flat_map(|(_, others)| others);
    (parts.map(|(used, _)| used.to_vec()), others.copied())
}

pub fn solve_normal(input: &Input, _: &mut Planes) -> Record {
    let (a, b) = (input.system.a.as_flattened(), &input.system.b);
    // SAFETY: the pointers are to 25 rows of 25 and to 25 values.
    let found = unsafe { sys::grain_solve_normal(a.as_ptr(), b.as_ptr(), input.number as usize) };
    let order = found.solution.order;
    let used = if found.found { order } else { 0 };
    let (values, rest) = found.solution.values.split_at(used);
    let unused = rest.iter().map(|x| x.to_bits());
    Record {
        refusal: found.refusal,
        words: solution(found.found.then(|| values.to_vec())),
        unused: unused.chain([(order - used) as u64]).collect(),
    }
}

pub fn solve_and_quantise(input: &Input, planes: &mut Planes) -> Record {
    let solved = solve_normal(input, planes);
    let (&found, values) = solved.words.split_first().expect("whether there is one");
    let values = values.iter().map(|&bits| f64::from_bits(bits)).collect();
    Record {
        words: quantised((found == 1).then_some(values), quantiser),
        ..solved
    }
}

fn quantiser(x: f64) -> [u64; 2] {
    // SAFETY: a number alone is passed.
    let found = unsafe { sys::grain_quant_ar(x) };
    [whole(found.coefficient), found.mark.into()]
}

pub fn quant_ar(input: &Input, _: &mut Planes) -> Record {
    Record::full(0, quantiser(input.float).into())
}

pub fn sqrt_digits(input: &Input, _: &mut Planes) -> Record {
    // SAFETY: a number alone is passed.
    let found = unsafe { sys::grain_sqrt_digits(input.float) };
    Record::full(0, vec![float(found.value), found.digits.into()])
}

pub fn grain_seed_for(input: &Input, _: &mut Planes) -> Record {
    // SAFETY: a number alone is passed.
    let seed = unsafe { sys::grain_seed_for(input.number as u32) };
    Record::full(0, vec![seed.into()])
}

/// By the step of a register by value; the safe crate lends its register.
pub fn register_next(input: &Input, out: &mut Planes) -> Record {
    // SAFETY: numbers alone are passed.
    let mut register = unsafe { sys::grain_random_new(out[0][0]) };
    let mut record = Record::full(0, Words::new());
    for _ in 0..STEPS {
        // SAFETY: as above.
        let stepped = unsafe { sys::grain_random_step(register, input.number as u32) };
        record.refusal = stepped.refusal;
        record.words.push(stepped.value.into());
        register = stepped.after;
    }
    out[0][0] = register.state;
    record
}

pub fn write_film_grain_params(input: &Input, out: &mut Planes) -> Record {
    let Header { params, inter, .. } = &input.header;
    let format = input.format;
    let written = lent_bytes(&mut out[0], |dst| {
        // SAFETY: the record is borrowed, and the destination alone.
        unsafe { call!(grain_write_film_grain_params, [params, *inter, format], [], mut [dst], []) }
    });
    Record::full(written.refusal, vec![written.bits as u64])
}
