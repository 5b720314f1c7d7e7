//! The C interface as `include/grain.h` declares it. A slice crosses as a pointer and its number of elements.
//!
//! A caller of these functions answers for the pointers: each is aligned and good for as many elements as the number
//! beside it says, so that with 0 it may be null, and without a number for what the header says; what is written overlaps
//! nothing else. The safe functions of this crate see to that.

/// `grain_rectangle`
#[repr(C)]
#[derive(Debug, Clone, Copy)]
pub struct Rectangle {
    pub left: usize,
    pub top: usize,
    pub width: usize,
    pub height: usize,
}

/// `grain_shape`
#[repr(C)]
#[derive(Debug, Clone, Copy)]
pub struct Shape {
    pub width: usize,
    pub height: usize,
    pub depth: u8,
    pub format: u8,
    pub active: Rectangle,
}

/// `grain_sigma`
#[repr(C)]
#[derive(Debug, Clone, Copy)]
pub struct Sigma {
    pub refusal: u32,
    pub sigma16: u64,
}

/// `grain_luma_profile` of 8 bins, `grain_chroma_profile` of 4
#[repr(C)]
#[derive(Debug, Clone, Copy)]
pub struct Profile<const BINS: usize> {
    pub sigma16: u64,
    pub bin_sigma16: [u64; BINS],
    pub bin_count: [u64; BINS],
    pub bin_squares: [u64; BINS],
}

/// `grain_estimate`
#[repr(C)]
#[derive(Debug, Clone, Copy)]
pub struct Estimate {
    pub refusal: u32,
    pub luma: Profile<8>,
    pub cb: Profile<4>,
    pub cr: Profile<4>,
}

/// `grain_rho`
#[repr(C)]
#[derive(Debug, Clone, Copy)]
pub struct Rho {
    pub refusal: u32,
    pub value: f64,
}

/// `grain_gate`
#[repr(C)]
#[derive(Debug, Clone, Copy)]
pub struct Gate {
    pub refusal: u32,
    pub yes: bool,
}

/// `grain_chroma_corr`
#[repr(C)]
#[derive(Debug, Clone, Copy)]
pub struct ChromaCorr {
    pub refusal: u32,
    pub cb: i32,
    pub cr: i32,
    pub cb_mark: u8,
    pub cr_mark: u8,
}

/// `grain_quantised`
#[repr(C)]
#[derive(Debug, Clone, Copy)]
pub struct Quantised {
    pub coefficient: i32,
    pub mark: u8,
}

/// `grain_solution`
#[repr(C)]
#[derive(Debug, Clone, Copy)]
pub struct Solution {
    pub order: usize,
    pub values: [f64; 25],
}

/// `grain_solved`
#[repr(C)]
#[derive(Debug, Clone, Copy)]
pub struct Solved {
    pub refusal: u32,
    pub found: bool,
    pub solution: Solution,
}

/// `grain_positions`
#[repr(C)]
#[derive(Debug, Clone, Copy)]
pub struct Positions {
    pub refusal: u32,
    pub count: usize,
    pub rows: [i32; 24],
    pub columns: [i32; 24],
}

/// `grain_fit`
#[repr(C)]
#[derive(Debug, Clone, Copy)]
pub struct Fit {
    pub refusal: u32,
    pub found: bool,
    pub count: usize,
    pub luma: [i32; 24],
    pub cb: [i32; 25],
    pub cr: [i32; 25],
    pub luma_marks: [u8; 24],
    pub cb_marks: [u8; 25],
    pub cr_marks: [u8; 25],
}

/// `grain_root`
#[repr(C)]
#[derive(Debug, Clone, Copy)]
pub struct Root {
    pub value: f64,
    pub digits: u32,
}

/// `grain_random`
#[repr(C)]
#[derive(Debug, Clone, Copy)]
pub struct Random {
    pub state: u16,
}

/// `grain_draw`
#[repr(C)]
#[derive(Debug, Clone, Copy)]
pub struct Draw {
    pub refusal: u32,
    pub value: u32,
}

/// `grain_stepped`
#[repr(C)]
#[derive(Debug, Clone, Copy)]
pub struct Stepped {
    pub refusal: u32,
    pub value: u32,
    pub after: Random,
}

/// `grain_film_params`
#[repr(C)]
#[derive(Debug, Clone, Copy, PartialEq, Eq, Hash)]
pub struct FilmGrainParams {
    pub apply_grain: bool,
    pub grain_seed: u16,
    pub update_grain: bool,
    pub film_grain_params_ref_idx: u8,
    pub num_y_points: u8,
    pub point_y_value: [u8; 14],
    pub point_y_scaling: [u8; 14],
    pub chroma_scaling_from_luma: bool,
    pub num_cb_points: u8,
    pub point_cb_value: [u8; 10],
    pub point_cb_scaling: [u8; 10],
    pub num_cr_points: u8,
    pub point_cr_value: [u8; 10],
    pub point_cr_scaling: [u8; 10],
    pub grain_scaling: u8,
    pub ar_coeff_lag: u8,
    pub ar_coeffs_y_plus_128: [u8; 24],
    pub ar_coeffs_cb_plus_128: [u8; 25],
    pub ar_coeffs_cr_plus_128: [u8; 25],
    pub ar_coeff_shift: u8,
    pub grain_scale_shift: u8,
    pub cb_mult: u8,
    pub cb_luma_mult: u8,
    pub cb_offset: u16,
    pub cr_mult: u8,
    pub cr_luma_mult: u8,
    pub cr_offset: u16,
    pub overlap_flag: bool,
    pub clip_to_restricted_range: bool,
    pub predicted: bool,
}

/// `grain_written`
#[repr(C)]
#[derive(Debug, Clone, Copy)]
pub struct Written {
    pub refusal: u32,
    pub bits: usize,
}

/// Calls a function of this interface with numbers, slices and numbers. A slice goes as its pointer and its length; those
/// that are written stand in brackets of their own, after `mut`.
///
/// ```
/// use grain::sys;
///
/// let (src, mut dst) = ([0, 16], [0, 0]);
/// // SAFETY: each slice is alive, and the written one is no other.
/// let refusal = unsafe { sys::call!(grain_denoise_plane, [], [src], mut [dst], [2, 1]) };
/// assert_eq!((refusal, dst), (0, [4, 12]));
/// ```
#[doc(hidden)]
#[macro_export]
macro_rules! __call {
    ($name:ident, [$($first:expr),*], [$($read:expr),*], $(mut [$($written:expr),*],)? [$($last:expr),*]) => {
        $crate::sys::$name(
            $($first,)*
            $($read.as_ptr(), $read.len(),)*
            $($($written.as_mut_ptr(), $written.len(),)*)?
            $($last,)*
        )
    };
}
#[doc(inline)]
pub use __call as call;

unsafe extern "C" {
    pub fn grain_denoise_plane(
        src: *const u16,
        src_len: usize,
        dst: *mut u16,
        dst_len: usize,
        width: usize,
        height: usize,
    ) -> u32;

    pub fn grain_denoise_frame(
        s: Shape,
        y: *const u16,
        y_len: usize,
        cb: *const u16,
        cb_len: usize,
        cr: *const u16,
        cr_len: usize,
        y_den: *mut u16,
        y_den_len: usize,
        cb_den: *mut u16,
        cb_den_len: usize,
        cr_den: *mut u16,
        cr_den_len: usize,
    ) -> u32;

    pub fn grain_plane_sigma16(
        src: *const u16,
        src_len: usize,
        den: *const u16,
        den_len: usize,
        width: usize,
        height: usize,
        depth: u8,
    ) -> Sigma;

    pub fn grain_noise_estimate(
        s: Shape,
        y: *const u16,
        y_len: usize,
        cb: *const u16,
        cb_len: usize,
        cr: *const u16,
        cr_len: usize,
        y_den: *const u16,
        y_den_len: usize,
        cb_den: *const u16,
        cb_den_len: usize,
        cr_den: *const u16,
        cr_den_len: usize,
    ) -> Estimate;

    pub fn grain_lag_h_rho(
        src: *const u16,
        src_len: usize,
        den: *const u16,
        den_len: usize,
        width: usize,
        height: usize,
        lag: usize,
        depth: u8,
    ) -> Rho;

    pub fn grain_film_grain_probe(
        s: Shape,
        src0: *const u16,
        src0_len: usize,
        den0: *const u16,
        den0_len: usize,
        src1: *const u16,
        src1_len: usize,
        den1: *const u16,
        den1_len: usize,
    ) -> Gate;

    pub fn grain_chroma_noise_gate(
        s: Shape,
        src0: *const u16,
        src0_len: usize,
        den0: *const u16,
        den0_len: usize,
        src1: *const u16,
        src1_len: usize,
        den1: *const u16,
        den1_len: usize,
        sigma16: u64,
    ) -> Gate;

    pub fn grain_fit_chroma_corr(
        s: Shape,
        y: *const u16,
        y_len: usize,
        cb: *const u16,
        cb_len: usize,
        cr: *const u16,
        cr_len: usize,
        y_den: *const u16,
        y_den_len: usize,
        cb_den: *const u16,
        cb_den_len: usize,
        cr_den: *const u16,
        cr_den_len: usize,
    ) -> ChromaCorr;

    pub fn grain_quant_ar(x: f64) -> Quantised;

    pub fn grain_solve_normal(a: *const f64, b: *const f64, order: usize) -> Solved;

    pub fn grain_ar_positions(lag: usize) -> Positions;

    pub fn grain_fit_ar_lag(
        s: Shape,
        y: *const u16,
        y_len: usize,
        cb: *const u16,
        cb_len: usize,
        cr: *const u16,
        cr_len: usize,
        y_den: *const u16,
        y_den_len: usize,
        cb_den: *const u16,
        cb_den_len: usize,
        cr_den: *const u16,
        cr_den_len: usize,
        lag: usize,
    ) -> Fit;

    pub fn grain_sqrt_digits(x: f64) -> Root;

    pub fn grain_seed_for(order_hint: u32) -> u16;

    pub fn grain_random_new(seed: u16) -> Random;

    pub fn grain_random_next(r: *mut Random, bits: u32) -> Draw;

    pub fn grain_random_step(r: Random, bits: u32) -> Stepped;

    pub fn grain_write_film_grain_params(
        p: *const FilmGrainParams,
        inter: bool,
        format: u8,
        dst: *mut u8,
        dst_len: usize,
    ) -> Written;
}
