/* Film-grain figures for an AV1 encoder: the C interface of libgrain.a (System V ABI, x86-64).
 *
 * A plane is lent as a pointer and its number of samples: 16 bits each, in row order with no padding between rows, so
 * that row r and column c of a plane w wide stand at r * w + c. The pointer is aligned for its type; with 0 samples, as
 * monochrome's chroma has, it may be NULL. A plane that is written overlaps no other plane of the call.
 *
 * A call keeps no pointer and the library has no state, so any thread may call at any time. A call takes less than
 * 128 KiB of stack and no heap. Doubles are worked in the mode that a C program starts in: rounded to nearest, subnormal
 * numbers kept (no FTZ, no DAZ).
 *
 * Every call may be made with any numbers. It is asked those questions of grain_refusal that its comment names, in that
 * order. `refusal`, or the result where there is no other, is 0 if all pass, and else the number of the first that fails;
 * every other field is then 0, and whatever was lent is left as it was.
 *
 * Noise n is source less denoised. Halves are rounded away from zero. In grain_planes.h the calls on a frame take its
 * planes as one struct. */
#ifndef GRAIN_H
#define GRAIN_H

#include <stdbool.h>
#include <stddef.h>
#include <stdint.h>

#define GRAIN_VERSION_MAJOR 0
#define GRAIN_VERSION_MINOR 5
#define GRAIN_VERSION_PATCH 0

/* The largest width and height. */
#define GRAIN_MAX_SIDE 4096

/* The bytes of the largest header: a destination of so many is never refused for its room. */
#define GRAIN_MAX_HEADER_BYTES 154

#ifdef __cplusplus
extern "C" {
#endif

/* The questions put to a call. A later version may add to them. */
enum grain_refusal {
    GRAIN_ACCEPTED = 0,
    GRAIN_SIDE_ABOVE_4096 = 1,    /* Are width and height each at most 4,096? */
    GRAIN_EMPTY_FRAME = 2,        /* In a frame call, are both at least 1? */
    GRAIN_DEPTH = 3,              /* Is the depth 8, 10 or 12? */
    GRAIN_FORMAT = 4,             /* Is the format 0 to 3? */
    GRAIN_ACTIVE_RECTANGLE = 12,  /* In a frame call, does the active rectangle hold a sample, lie in the frame, and start
                                   * at an even place in a direction that the format halves (both in 4:2:0, across in
                                   * 4:2:2, none in monochrome and 4:4:4)? */
    GRAIN_PLANE_LENGTH = 5,       /* Has every lent plane exactly its number of samples? */
    GRAIN_SAMPLE_ABOVE_DEPTH = 6, /* In a call with a depth, is every source and denoised sample below 2^depth? */
    GRAIN_LAG_ABOVE_3 = 7,        /* Is the lag of a fit at most 3? */
    GRAIN_SOLVER_ORDER = 8,       /* Is the order of the solver 1 to 25? */
    GRAIN_REGISTER_BITS = 9,      /* Is the register asked for at most 16 bits? */
    GRAIN_HEADER_FIELD = 10,      /* Is every field of a header's record as the syntax and its semantics let it be? */
    GRAIN_HEADER_ROOM = 11        /* Has the destination a byte for every eight bits begun? */
};

enum grain_format {
    GRAIN_MONOCHROME = 0,
    GRAIN_YUV420 = 1,
    GRAIN_YUV422 = 2,
    GRAIN_YUV444 = 3
};

/* A part of a frame, in luma samples. */
typedef struct grain_rectangle {
    size_t left;
    size_t top;
    size_t width;
    size_t height;
} grain_rectangle;

/* A frame's size in luma samples, its depth in bits, its grain_format and its active rectangle. Chroma is 0x0 in
 * monochrome; (width + 1) / 2 wide in 4:2:0 and 4:2:2; (height + 1) / 2 high in 4:2:0; else as luma.
 *
 * Outside the active rectangle there is no picture: black bars have no grain. The profile, correlation, fit and gate of a
 * frame are those of the frame that the rectangle cuts out, and use no sample outside it. Of chroma it cuts out as much as
 * a frame of its size has, from left / 2 where the format halves the width and top / 2 where it halves the height. What
 * is lent is the whole planes, and the questions are about them.
 *
 * A frame is denoised as a whole: a result beside a bar has some of the bar in it, alike in every frame, which a gate takes
 * for no grain. So keep the rectangle a sample away from the bars, or two where the format halves; or denoise the planes
 * that it cuts out, each by grain_denoise_plane. */
typedef struct grain_shape {
    size_t width;
    size_t height;
    uint8_t depth;
    uint8_t format;
    grain_rectangle active;
} grain_shape;

/* A frame that is active as a whole. */
static inline grain_shape grain_whole_frame(size_t width, size_t height, uint8_t depth, uint8_t format)
{
    grain_shape s;
    s.width = width;
    s.height = height;
    s.depth = depth;
    s.format = format;
    s.active.left = 0;
    s.active.top = 0;
    s.active.width = width;
    s.active.height = height;
    return s;
}

/* ---- Denoise ---- */

/* dst(r, c) = (1 2 1 / 2 4 2 / 1 2 1 over the 3x3 neighbours of src(r, c), held at the edge, + 8) >> 4
 * Asked 1, 5. */
uint32_t grain_denoise_plane(const uint16_t *src, size_t src_len, uint16_t *dst, size_t dst_len,
                             size_t width, size_t height);

/* Each plane of a frame as grain_denoise_plane has it, at its own size; the results go to the planes to_y, to_cb, to_cr.
 * Asked 1, 2, 3, 4, 12, 5, 6. */
uint32_t grain_denoise_frame(grain_shape s, const uint16_t *y, size_t y_len, const uint16_t *cb, size_t cb_len,
                             const uint16_t *cr, size_t cr_len, uint16_t *to_y, size_t to_y_len,
                             uint16_t *to_cb, size_t to_cb_len, uint16_t *to_cr, size_t to_cr_len);

/* ---- Sigma16 and the noise profile ---- */

typedef struct grain_sigma {
    uint32_t refusal;
    uint64_t sigma16;
} grain_sigma;

/* round(16 * root(sum of d^2 / count)), d = n >> (depth - 8); 0 of an empty plane
 * Asked 1, 3, 5, 6. */
grain_sigma grain_plane_sigma16(const uint16_t *src, size_t src_len, const uint16_t *den, size_t den_len,
                                size_t width, size_t height, uint8_t depth);

/* Bin b of luma: the samples x with x >> (depth - 8) >> 5 = b. */
typedef struct grain_luma_profile {
    uint64_t sigma16;
    uint64_t bin_sigma16[8];
    uint64_t bin_count[8];
    uint64_t bin_squares[8];
} grain_luma_profile;

/* Bin b of chroma: the samples x with x >> (depth - 8) >> 6 = b. */
typedef struct grain_chroma_profile {
    uint64_t sigma16;
    uint64_t bin_sigma16[4];
    uint64_t bin_count[4];
    uint64_t bin_squares[4];
} grain_chroma_profile;

typedef struct grain_estimate {
    uint32_t refusal;
    grain_luma_profile luma;
    grain_chroma_profile cb;
    grain_chroma_profile cr;
} grain_estimate;

/* Of each plane and of each bin: its sigma16, count and sum of d^2. A bin's sigma16 is the plane's where its count is
 * below max(n / 100, 64) in luma, max(n / 100, 32) in chroma, n the plane's samples.
 * Asked 1, 2, 3, 4, 12, 5, 6. */
grain_estimate grain_noise_estimate(grain_shape s, const uint16_t *y, size_t y_len, const uint16_t *cb, size_t cb_len,
                                    const uint16_t *cr, size_t cr_len, const uint16_t *y_den, size_t y_den_len,
                                    const uint16_t *cb_den, size_t cb_den_len, const uint16_t *cr_den, size_t cr_den_len);

/* ---- Correlations and gates ---- */

typedef struct grain_rho {
    uint32_t refusal;
    double value;
} grain_rho;

/* sum of n(r, c) * n(r, c + lag) / sum of n(r, c)^2, from -1 to 1; 0.0 if lag is 0, width is at most lag, height is 0 or
 * the divisor is 0
 * Asked 1, 3, 5, 6. */
grain_rho grain_lag_h_rho(const uint16_t *src, size_t src_len, const uint16_t *den, size_t den_len,
                          size_t width, size_t height, size_t lag, uint8_t depth);

typedef struct grain_gate {
    uint32_t refusal;
    bool yes;
} grain_gate;

/* Y of two frames of one shape and of their denoised copies: sigma16 >= 16, |rho at lag 1| < 0.75, no energy 0, and
 * |cross / root(e0 * e1)| < 0.4
 * Asked 1, 2, 3, 4, 12, 5, 6. */
grain_gate grain_film_grain_probe(grain_shape s, const uint16_t *src0, size_t src0_len, const uint16_t *den0, size_t den0_len,
                                  const uint16_t *src1, size_t src1_len, const uint16_t *den1, size_t den1_len);

/* One chroma component of two frames of one shape and of their denoised copies, with its sigma16: the tests of
 * grain_film_grain_probe, but sigma16 >= 8 and no empty plane
 * Asked 1, 2, 3, 4, 12, 5, 6. */
grain_gate grain_chroma_noise_gate(grain_shape s, const uint16_t *src0, size_t src0_len, const uint16_t *den0, size_t den0_len,
                                   const uint16_t *src1, size_t src1_len, const uint16_t *den1, size_t den1_len,
                                   uint64_t sigma16);

/* What became of a value on its way to a coefficient. A coefficient that is 0 because there was no value to quantise is
 * GRAIN_INSIDE. */
enum grain_mark {
    GRAIN_INSIDE = 0,      /* The coefficient is the rounded value. */
    GRAIN_HELD_LOW = 1,    /* The rounded value is below -128, the coefficient -128. */
    GRAIN_HELD_HIGH = 2,   /* The rounded value is above 127, the coefficient 127. */
    GRAIN_NOT_A_NUMBER = 3 /* The value is NaN, the coefficient 0. */
};

/* A grain_mark for each coefficient. */
typedef struct grain_chroma_corr {
    uint32_t refusal;
    int32_t cb;
    int32_t cr;
    uint8_t cb_mark;
    uint8_t cr_mark;
} grain_chroma_corr;

/* Of Cb and of Cr: quant_ar(sum of a * n / sum of a^2), a the average of luma's noise at the chroma place; 0 where the
 * latter is at most 1e-9
 * Asked 1, 2, 3, 4, 12, 5, 6. */
grain_chroma_corr grain_fit_chroma_corr(grain_shape s, const uint16_t *y, size_t y_len,
                                        const uint16_t *cb, size_t cb_len, const uint16_t *cr, size_t cr_len,
                                        const uint16_t *y_den, size_t y_den_len, const uint16_t *cb_den, size_t cb_den_len,
                                        const uint16_t *cr_den, size_t cr_den_len);

/* ---- Fits ---- */

/* A coefficient and its grain_mark. */
typedef struct grain_quantised {
    int32_t coefficient;
    uint8_t mark;
} grain_quantised;

/* round(64 * x), held to -128..127; 0 of NaN
 * Asked nothing. */
grain_quantised grain_quant_ar(double x);

/* `order` values; the rest are 0.0. */
typedef struct grain_solution {
    size_t order;
    double values[25];
} grain_solution;

/* Not found: no solution, since a pivot's magnitude is below 1e-9; a NaN passes. */
typedef struct grain_solved {
    uint32_t refusal;
    bool found;
    grain_solution solution;
} grain_solved;

/* x with a * x = b, of the first `order` equations, by elimination with partial pivoting. a is 25 rows of 25 doubles, row
 * after row, and b 25 doubles; both are left as they were.
 * Asked 8. */
grain_solved grain_solve_normal(const double *a, const double *b, size_t order);

/* Neighbour k < count of a sample lies rows[k] rows and columns[k] columns away. */
typedef struct grain_positions {
    uint32_t refusal;
    size_t count;
    int32_t rows[24];
    int32_t columns[24];
} grain_positions;

/* Rows -lag to 0, columns -lag to lag, ending before the sample: 2 * lag * (lag + 1) neighbours
 * Asked 7. */
grain_positions grain_ar_positions(size_t lag);

/* `count` coefficients of luma; as many of Cb and of Cr, then the luma tap; the rest are 0. A grain_mark for each. Not
 * found: lag 0, a plane too small (width <= 2 * lag or height <= lag), no noise, no solution, or all coefficients of
 * luma 0. */
typedef struct grain_fit {
    uint32_t refusal;
    bool found;
    size_t count;
    int32_t luma[24];
    int32_t cb[25];
    int32_t cr[25];
    uint8_t luma_marks[24];
    uint8_t cb_marks[25];
    uint8_t cr_marks[25];
} grain_fit;

/* quant_ar of the least squares of a sample's noise by its neighbours' noises, and for chroma by luma's average as well;
 * chroma is 0 in monochrome, in too small a plane and without a solution
 * Asked 1, 2, 3, 4, 12, 5, 6, 7. */
grain_fit grain_fit_ar_lag(grain_shape s, const uint16_t *y, size_t y_len, const uint16_t *cb, size_t cb_len,
                           const uint16_t *cr, size_t cr_len, const uint16_t *y_den, size_t y_den_len,
                           const uint16_t *cb_den, size_t cb_den_len, const uint16_t *cr_den, size_t cr_den_len, size_t lag);

/* ---- The root ---- */

/* A root, and how many of its binary digits were worked. */
typedef struct grain_root {
    double value;
    uint32_t digits;
} grain_root;

/* root(x), correctly rounded; a zero as it is, NaN below 0. Digits of a finite x above 0: those from the root's first 1 to
 * its last if the root is exact, at most 27, else 53; of any other x none
 * Asked nothing. */
grain_root grain_sqrt_digits(double x);

/* ---- Seed and random register ---- */

/* (hint * 0x9e37 + 0x51ed) mod 2^16
 * Asked nothing. */
uint16_t grain_seed_for(uint32_t order_hint);

typedef struct grain_random {
    uint16_t state;
} grain_random;

/* The register that holds the seed
 * Asked nothing. */
grain_random grain_random_new(uint16_t seed);

typedef struct grain_draw {
    uint32_t refusal;
    uint32_t value;
} grain_draw;

/* Steps the register: state = state >> 1 with the xor of its bits 0, 1, 3 and 12 at bit 15, value = state >> (16 - bits)
 * Asked 9. */
grain_draw grain_random_next(grain_random *r, uint32_t bits);

typedef struct grain_stepped {
    uint32_t refusal;
    uint32_t value;
    grain_random after;
} grain_stepped;

/* The draw of grain_random_next with the register after it, for a register by value; refused, after = r
 * Asked 9. */
grain_stepped grain_random_step(grain_random r, uint32_t bits);

/* ---- The header ---- */

/* film_grain_params of a frame header (AV1 5.9.30), by the syntax's names; all zeros, as `grain_film_params p = {0}` has
 * it, is the record after a reset. Of each list the first so many places are used; every place, and every field, that
 * the syntax skips is 0. */
typedef struct grain_film_params {
    bool apply_grain;
    uint16_t grain_seed;
    bool update_grain; /* true where grain is applied on a frame that isn't inter */
    uint8_t film_grain_params_ref_idx;
    uint8_t num_y_points; /* at most 14 */
    uint8_t point_y_value[14]; /* rising, as are those of Cb and of Cr */
    uint8_t point_y_scaling[14];
    bool chroma_scaling_from_luma;
    uint8_t num_cb_points; /* at most 10; in 4:2:0, Cb and Cr both have points or neither has */
    uint8_t point_cb_value[10];
    uint8_t point_cb_scaling[10];
    uint8_t num_cr_points; /* at most 10 */
    uint8_t point_cr_value[10];
    uint8_t point_cr_scaling[10];
    uint8_t grain_scaling; /* 8 to 11: grain_scaling_minus_8 + 8 */
    uint8_t ar_coeff_lag; /* at most 3 */
    uint8_t ar_coeffs_y_plus_128[24]; /* a coefficient of grain_fit + 128 */
    uint8_t ar_coeffs_cb_plus_128[25];
    uint8_t ar_coeffs_cr_plus_128[25];
    uint8_t ar_coeff_shift; /* 6 to 9: ar_coeff_shift_minus_6 + 6; a grain_fit's coefficients are for 6 */
    uint8_t grain_scale_shift; /* at most 3 */
    uint8_t cb_mult;
    uint8_t cb_luma_mult;
    uint16_t cb_offset; /* at most 511 */
    uint8_t cr_mult;
    uint8_t cr_luma_mult;
    uint16_t cr_offset; /* at most 511 */
    bool overlap_flag;
    bool clip_to_restricted_range;
    bool predicted; /* neither written nor looked at */
} grain_film_params;

typedef struct grain_written {
    uint32_t refusal;
    size_t bits;
} grain_written;

/* The bits of film_grain_params after its presence test, from the highest of dst[0] on; the last byte is filled with
 * zeros, bytes past it stay, and `bits` doesn't count the fill. `inter`: the frame is an INTER_FRAME. Whether the slot
 * film_grain_params_ref_idx is among the frame's references isn't looked at. dst overlaps nothing of the record, of which
 * nothing is changed.
 * Asked 4, 10, 11. */
grain_written grain_write_film_grain_params(const grain_film_params *p, bool inter, uint8_t format,
                                            uint8_t *dst, size_t dst_len);

#ifdef __cplusplus
}
#endif

#endif
