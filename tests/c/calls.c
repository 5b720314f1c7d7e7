/* Makes every call that include/grain.h declares, on the worked cases of the scope and on refusals; that of the header
 * is made in headers.c. */
#include "check.h"

#include <float.h>
#include <math.h>

static uint16_t flat[4097];

/* ---- Denoise ---- */

static void denoise_plane(void)
{
    uint16_t one[1] = {7}, two[2] = {0, 16}, nine[9] = {0, 0, 0, 0, 16}, top[4] = {65535, 65535, 65535, 65535};
    uint16_t d1[1] = {1}, d2[2] = {1, 1}, d9[9], d4[4] = {1, 1, 1, 1};
    SAME(grain_denoise_plane(LENT(one), LENT(d1), 1, 1), GRAIN_ACCEPTED);
    SAME_ALL(d1, 7);
    SAME(grain_denoise_plane(LENT(two), LENT(d2), 2, 1), GRAIN_ACCEPTED);
    SAME_ALL(d2, 4, 12);
    SAME(grain_denoise_plane(LENT(nine), LENT(d9), 3, 3), GRAIN_ACCEPTED);
    SAME_ALL(d9, 1, 2, 1, 2, 4, 2, 1, 2, 1);
    SAME(grain_denoise_plane(LENT(top), LENT(d4), 2, 2), GRAIN_ACCEPTED);
    SAME_ALL(d4, 65535, 65535, 65535, 65535);

    SAME(grain_denoise_plane(NONE, NONE, 0, 5), GRAIN_ACCEPTED);
    SAME(grain_denoise_plane(NONE, LENT(d1), 0, 5), GRAIN_PLANE_LENGTH);
    SAME(grain_denoise_plane(LENT(two), LENT(d1), 2, 1), GRAIN_PLANE_LENGTH);
    SAME(grain_denoise_plane(LENT(one), LENT(d2), 2, 1), GRAIN_PLANE_LENGTH);
    SAME(grain_denoise_plane(NONE, LENT(d1), 4097, 0), GRAIN_SIDE_ABOVE_4096);
    SAME(grain_denoise_plane(NONE, LENT(d1), 0, 4097), GRAIN_SIDE_ABOVE_4096);
    SAME_ALL(d1, 7);
    SAME_ALL(d2, 4, 12);

    static uint16_t row[4097];
    fill(row, 4097, 3);
    SAME(grain_denoise_plane(flat, 4097, row, 4097, 4097, 1), GRAIN_SIDE_ABOVE_4096);
    SAME(row[0] + row[4096], 6);
    SAME(grain_denoise_plane(flat, 4096, row, 4096, 4096, 1), GRAIN_ACCEPTED);
    SAME(row[0] + row[4095] + row[4096], 3);
}

static void denoise_frame(void)
{
    uint16_t y[9] = {0, 0, 0, 0, 16}, cb[4] = {0, 16, 0, 16}, cr[4] = {0, 0, 16, 16};
    uint16_t y_den[9], cb_den[4], cr_den[4];
    fill(y_den, 9, 500);
    fill(cb_den, 4, 501);
    fill(cr_den, 4, 502);
#define FRAME LENT(y), LENT(cb), LENT(cr), LENT(y_den), LENT(cb_den), LENT(cr_den)
    SAME(grain_denoise_frame(grain_whole_frame(4097, 3, 8, 1), FRAME), GRAIN_SIDE_ABOVE_4096);
    SAME(grain_denoise_frame(grain_whole_frame(0, 3, 8, 1), FRAME), GRAIN_EMPTY_FRAME);
    SAME(grain_denoise_frame(grain_whole_frame(3, 3, 9, 1), FRAME), GRAIN_DEPTH);
    SAME(grain_denoise_frame(grain_whole_frame(3, 3, 8, 4), FRAME), GRAIN_FORMAT);
    SAME(grain_denoise_frame(grain_whole_frame(3, 3, 8, 2), FRAME), GRAIN_PLANE_LENGTH);
    SAME(grain_denoise_frame(grain_whole_frame(3, 3, 8, 1), LENT(y), LENT(cb), LENT(cr), LENT(y_den), LENT(cb_den), cr_den, 3),
         GRAIN_PLANE_LENGTH);
    cr[3] = 256;
    SAME(grain_denoise_frame(grain_whole_frame(3, 3, 8, 1), FRAME), GRAIN_SAMPLE_ABOVE_DEPTH);
    SAME_ALL(y_den, 500, 500, 500, 500, 500, 500, 500, 500, 500);
    SAME_ALL(cb_den, 501, 501, 501, 501);
    SAME_ALL(cr_den, 502, 502, 502, 502);
    cr[3] = 16;
    SAME(grain_denoise_frame(grain_whole_frame(3, 3, 8, 1), FRAME), GRAIN_ACCEPTED);
    SAME_ALL(y_den, 1, 2, 1, 2, 4, 2, 1, 2, 1);
    SAME_ALL(cb_den, 4, 12, 4, 12);
    SAME_ALL(cr_den, 4, 4, 12, 12);
#undef FRAME
    fill(y_den, 9, 500);
    SAME(grain_denoise_frame(grain_whole_frame(3, 3, 8, 0), LENT(y), NONE, NONE, LENT(y_den), NONE, NONE), GRAIN_ACCEPTED);
    SAME_ALL(y_den, 1, 2, 1, 2, 4, 2, 1, 2, 1);
}

/* ---- Sigma16 and the profile ---- */

static uint64_t sigma16(const uint16_t *src, const uint16_t *den, size_t n, uint8_t depth)
{
    grain_sigma a = grain_plane_sigma16(src, n, den, n, n, 1, depth);
    SAME(a.refusal, GRAIN_ACCEPTED);
    return a.sigma16;
}

static void plane_sigma16(void)
{
    uint16_t four[4] = {1}, fives[3] = {5, 5, 5}, sixes[3] = {6, 6, 6};
    static uint16_t one[1025];
    one[0] = 1;
    SAME(sigma16(four, flat, 4, 8), 8);
    SAME(sigma16(one, flat, 1024, 8), 1);
    SAME(sigma16(one, flat, 1025, 8), 0);
    SAME(sigma16(fives, sixes, 3, 10), 16);
    SAME(sigma16(sixes, fives, 3, 10), 0);
    SAME(sigma16(NULL, NULL, 0, 12), 0);
    SAME(sigma16(four, flat, 0, 12), 0);

    grain_sigma a = grain_plane_sigma16(flat, 4097, flat, 4097, 4097, 1, 8);
    SAME(a.refusal, GRAIN_SIDE_ABOVE_4096);
    ZERO(a.sigma16);
    SAME(grain_plane_sigma16(LENT(four), flat, 4, 4, 1, 9).refusal, GRAIN_DEPTH);
    SAME(grain_plane_sigma16(LENT(four), flat, 3, 4, 1, 8).refusal, GRAIN_PLANE_LENGTH);
    four[3] = 255;
    SAME(grain_plane_sigma16(LENT(four), flat, 4, 4, 1, 8).refusal, GRAIN_ACCEPTED);
    four[3] = 256;
    a = grain_plane_sigma16(LENT(four), flat, 4, 4, 1, 8);
    SAME(a.refusal, GRAIN_SAMPLE_ABOVE_DEPTH);
    ZERO(a.sigma16);
    a = grain_plane_sigma16(flat, 4, LENT(four), 4, 1, 8);
    SAME(a.refusal, GRAIN_SAMPLE_ABOVE_DEPTH);
    ZERO(a.sigma16);
}

/* n luma samples of which `few` have the noise 1 and lie in bin 1, the rest in bin 0 without noise: bin 1's sigma16. */
static uint64_t bin1(size_t width, size_t height, size_t few)
{
    static uint16_t y[6500], y_den[6500];
    size_t n = width * height;
    fill(y, n, 9);
    fill(y_den, n, 9);
    fill(y, few, 33);
    fill(y_den, few, 32);
    grain_estimate a = grain_noise_estimate(grain_whole_frame(width, height, 8, 0), y, n, NONE, NONE, y_den, n, NONE, NONE);
    SAME(a.refusal, GRAIN_ACCEPTED);
    SAME(a.luma.sigma16, 2);
    SAME(a.luma.bin_count[0], n - few);
    SAME(a.luma.bin_count[1], few);
    SAME(a.luma.bin_squares[1], few);
    ZERO(a.cb);
    ZERO(a.cr);
    return a.luma.bin_sigma16[1];
}

static void noise_estimate(void)
{
    uint16_t y[4] = {31, 32, 31, 255}, cb[4] = {63, 64, 63, 255}, cr[4] = {0, 0, 64, 64};
    uint16_t y_den[4] = {30, 32, 31, 255}, cb_den[4] = {63, 62, 63, 255}, cr_den[4] = {0, 0, 64, 61};
#define FRAME LENT(y), LENT(cb), LENT(cr), LENT(y_den), LENT(cb_den), LENT(cr_den)
    grain_estimate a = grain_noise_estimate(grain_whole_frame(2, 2, 8, 3), FRAME);
    SAME(a.refusal, GRAIN_ACCEPTED);
    SAME(a.luma.sigma16, 8);
    SAME_ALL(a.luma.bin_sigma16, 8, 8, 8, 8, 8, 8, 8, 8);
    SAME_ALL(a.luma.bin_count, 2, 1, 0, 0, 0, 0, 0, 1);
    SAME_ALL(a.luma.bin_squares, 1, 0, 0, 0, 0, 0, 0, 0);
    SAME(a.cb.sigma16, 16);
    SAME_ALL(a.cb.bin_sigma16, 16, 16, 16, 16);
    SAME_ALL(a.cb.bin_count, 2, 1, 0, 1);
    SAME_ALL(a.cb.bin_squares, 0, 4, 0, 0);
    SAME(a.cr.sigma16, 24);
    SAME_ALL(a.cr.bin_sigma16, 24, 24, 24, 24);
    SAME_ALL(a.cr.bin_count, 2, 2, 0, 0);
    SAME_ALL(a.cr.bin_squares, 0, 9, 0, 0);

    uint16_t ten[1] = {1023};
    a = grain_noise_estimate(grain_whole_frame(1, 1, 10, 0), LENT(ten), NONE, NONE, LENT(ten), NONE, NONE);
    SAME(a.refusal, GRAIN_ACCEPTED);
    SAME(a.luma.bin_count[7], 1);

    SAME(bin1(80, 80, 64), 16);
    SAME(bin1(80, 80, 63), 2);
    SAME(bin1(100, 65, 65), 16);
    SAME(bin1(100, 65, 64), 2);

    SAME(grain_noise_estimate(grain_whole_frame(2, 4097, 8, 3), FRAME).refusal, GRAIN_SIDE_ABOVE_4096);
    SAME(grain_noise_estimate(grain_whole_frame(2, 0, 8, 3), FRAME).refusal, GRAIN_EMPTY_FRAME);
    SAME(grain_noise_estimate(grain_whole_frame(2, 2, 0, 3), FRAME).refusal, GRAIN_DEPTH);
    SAME(grain_noise_estimate(grain_whole_frame(2, 2, 8, 4), FRAME).refusal, GRAIN_FORMAT);
    SAME(grain_noise_estimate(grain_whole_frame(2, 2, 8, 1), FRAME).refusal, GRAIN_PLANE_LENGTH);
    cr_den[0] = 256;
    a = grain_noise_estimate(grain_whole_frame(2, 2, 8, 3), FRAME);
    SAME(a.refusal, GRAIN_SAMPLE_ABOVE_DEPTH);
    ZERO(a.luma);
    ZERO(a.cb);
    ZERO(a.cr);
#undef FRAME
}

/* ---- Correlations and gates ---- */

static double rho(const int *noise, size_t width, size_t height, size_t lag)
{
    uint16_t src[16], den[16];
    size_t n = width * height;
    samples(noise, n, src, den);
    grain_rho a = grain_lag_h_rho(src, n, den, n, width, height, lag, 10);
    SAME(a.refusal, GRAIN_ACCEPTED);
    return a.value;
}

static void lag_h_rho(void)
{
    SAME_F64(rho((int[]){1, 1, 1, 1}, 4, 1, 1), 0.75);
    SAME_F64(rho((int[]){1, 1, 1, -1}, 4, 1, 1), 0.25);
    SAME_F64(rho((int[]){1, -1, 1, -1}, 4, 1, 1), -0.75);
    SAME_F64(rho((int[]){1, -1, 1, -1}, 2, 2, 1), -0.5);
    SAME_F64(rho((int[]){1, 1, 1, 1}, 4, 1, 0), 0.0);
    SAME_F64(rho((int[]){1, 1, 1, 1}, 4, 1, 4), 0.0);
    SAME_F64(rho((int[]){1, 1, 1, 1}, 4, 1, SIZE_MAX), 0.0);
    SAME_F64(rho((int[]){0, 0, 0, 0}, 4, 1, 1), 0.0);

    uint16_t high[1] = {1024};
    grain_rho a = grain_lag_h_rho(LENT(high), LENT(high), 1, 1, 1, 10);
    SAME(a.refusal, GRAIN_SAMPLE_ABOVE_DEPTH);
    SAME_F64(a.value, 0.0);
    SAME(grain_lag_h_rho(LENT(high), LENT(high), 4097, 1, 1, 10).refusal, GRAIN_SIDE_ABOVE_4096);
    SAME(grain_lag_h_rho(LENT(high), LENT(high), 1, 1, 1, 11).refusal, GRAIN_DEPTH);
    SAME(grain_lag_h_rho(LENT(high), NONE, 1, 1, 1, 10).refusal, GRAIN_PLANE_LENGTH);
    SAME(grain_lag_h_rho(LENT(high), LENT(high), 1, 1, 1, 12).refusal, GRAIN_ACCEPTED);
}

/* The gates of two frames of one row; chroma is handed the sigma16. At 8 bits the noise shows unshifted. */
static bool luma(const int *first, const int *second, size_t n)
{
    uint16_t src0[10], den0[10], src1[10], den1[10];
    for (size_t i = 0; i < n; i++) {
        src0[i] = (uint16_t)(100 + first[i]);
        src1[i] = (uint16_t)(100 + second[i]);
        den0[i] = den1[i] = 100;
    }
    grain_gate a = grain_film_grain_probe(grain_whole_frame(n, 1, 8, 0), src0, n, den0, n, src1, n, den1, n);
    SAME(a.refusal, GRAIN_ACCEPTED);
    return a.yes;
}

static bool chroma(const int *first, const int *second, size_t n, uint64_t sigma)
{
    uint16_t src0[10], den0[10], src1[10], den1[10];
    samples(first, n, src0, den0);
    samples(second, n, src1, den1);
    grain_gate a = grain_chroma_noise_gate(grain_whole_frame(2 * n, 1, 10, 1), src0, n, den0, n, src1, n, den1, n, sigma);
    SAME(a.refusal, GRAIN_ACCEPTED);
    return a.yes;
}

static void gates(void)
{
    int ones[4] = {1, 1, 1, 1}, a[4] = {1, 1, 1, -1}, b[4] = {1, -1, 1, 1}, zero[4] = {0};
    int ten[10] = {1, 1, -1, -1, 1, 1, -1, -1, 1, 1};
    int three[10] = {-1, -1, 1, -1, 1, 1, -1, -1, 1, 1};
    int four[10] = {-1, -1, 1, 1, 1, 1, -1, -1, 1, 1};
    SAME(luma(ones, ones, 4), false);
    SAME(luma(a, b, 4), true);
    SAME(luma(a, zero, 4), false);
    SAME(luma(zero, a, 4), false);
    SAME(luma(ten, three, 10), false);
    SAME(luma(ten, four, 10), true);
    SAME(chroma(a, b, 4, 8), true);
    SAME(chroma(a, b, 4, 7), false);
    SAME(chroma(ones, b, 4, 8), false);
    SAME(chroma(ten, three, 10, UINT64_MAX), false);
    SAME(chroma(ten, four, 10, UINT64_MAX), true);

    uint16_t low[4] = {0}, high[4] = {256};
#define FOUR LENT(low), LENT(low), LENT(low), LENT(high)
    grain_gate g = grain_film_grain_probe(grain_whole_frame(4, 1, 8, 0), FOUR);
    SAME(g.refusal, GRAIN_SAMPLE_ABOVE_DEPTH);
    ZERO(g.yes);
    SAME(grain_film_grain_probe(grain_whole_frame(4097, 1, 8, 0), FOUR).refusal, GRAIN_SIDE_ABOVE_4096);
    SAME(grain_film_grain_probe(grain_whole_frame(4, 0, 8, 0), FOUR).refusal, GRAIN_EMPTY_FRAME);
    SAME(grain_film_grain_probe(grain_whole_frame(4, 1, 7, 0), FOUR).refusal, GRAIN_DEPTH);
    SAME(grain_film_grain_probe(grain_whole_frame(4, 1, 8, 9), FOUR).refusal, GRAIN_FORMAT);
    SAME(grain_film_grain_probe(grain_whole_frame(3, 1, 8, 0), FOUR).refusal, GRAIN_PLANE_LENGTH);
    g = grain_chroma_noise_gate(grain_whole_frame(4, 1, 8, 3), FOUR, 8);
    SAME(g.refusal, GRAIN_SAMPLE_ABOVE_DEPTH);
    ZERO(g.yes);
    SAME(grain_chroma_noise_gate(grain_whole_frame(4, 4097, 8, 3), FOUR, 8).refusal, GRAIN_SIDE_ABOVE_4096);
    SAME(grain_chroma_noise_gate(grain_whole_frame(0, 1, 8, 3), FOUR, 8).refusal, GRAIN_EMPTY_FRAME);
    SAME(grain_chroma_noise_gate(grain_whole_frame(4, 1, 16, 3), FOUR, 8).refusal, GRAIN_DEPTH);
    SAME(grain_chroma_noise_gate(grain_whole_frame(4, 1, 8, 4), FOUR, 8).refusal, GRAIN_FORMAT);
    SAME(grain_chroma_noise_gate(grain_whole_frame(4, 1, 8, 1), FOUR, 8).refusal, GRAIN_PLANE_LENGTH);
#undef FOUR
    g = grain_chroma_noise_gate(grain_whole_frame(4, 1, 8, 0), NONE, NONE, NONE, NONE, 8);
    SAME(g.refusal, GRAIN_ACCEPTED);
    SAME(g.yes, false);
}

static void fit_chroma_corr(void)
{
    uint16_t y[3] = {0, 4, 8}, cb[2] = {1, 1}, cr[2] = {0, 0}, y_den[3] = {0}, cb_den[2] = {0}, cr_den[2] = {2, 2};
#define FRAME LENT(y), LENT(cb), LENT(cr), LENT(y_den), LENT(cb_den), LENT(cr_den)
    grain_chroma_corr a = grain_fit_chroma_corr(grain_whole_frame(3, 1, 8, 1), FRAME);
    SAME(a.refusal, GRAIN_ACCEPTED);
    SAME(a.cb, 9);
    SAME(a.cr, -19);
    SAME(a.cb_mark, GRAIN_INSIDE);
    SAME(a.cr_mark, GRAIN_INSIDE);
    for (int i = 0; i < 2; i++)
        cb[i] = cr_den[i] = (uint16_t)(i == 0 ? 6 : 24); /* three times luma's averages, and as much below 0 */
    a = grain_fit_chroma_corr(grain_whole_frame(3, 1, 8, 1), FRAME);
    SAME(a.cb, 127);
    SAME(a.cr, -128);
    SAME(a.cb_mark, GRAIN_HELD_HIGH);
    SAME(a.cr_mark, GRAIN_HELD_LOW);
    SAME(grain_fit_chroma_corr(grain_whole_frame(4097, 1, 8, 1), FRAME).refusal, GRAIN_SIDE_ABOVE_4096);
    SAME(grain_fit_chroma_corr(grain_whole_frame(3, 0, 8, 1), FRAME).refusal, GRAIN_EMPTY_FRAME);
    SAME(grain_fit_chroma_corr(grain_whole_frame(3, 1, 255, 1), FRAME).refusal, GRAIN_DEPTH);
    SAME(grain_fit_chroma_corr(grain_whole_frame(3, 1, 8, 255), FRAME).refusal, GRAIN_FORMAT);
    SAME(grain_fit_chroma_corr(grain_whole_frame(3, 1, 8, 3), FRAME).refusal, GRAIN_PLANE_LENGTH);
    cb_den[1] = 256;
    a = grain_fit_chroma_corr(grain_whole_frame(3, 1, 8, 1), FRAME);
    SAME(a.refusal, GRAIN_SAMPLE_ABOVE_DEPTH);
    ZERO(a.cb);
    ZERO(a.cr);
    ZERO(a.cb_mark);
    ZERO(a.cr_mark);
#undef FRAME
    a = grain_fit_chroma_corr(grain_whole_frame(3, 1, 8, 0), LENT(y), NONE, NONE, LENT(y_den), NONE, NONE);
    SAME(a.refusal, GRAIN_ACCEPTED);
    SAME(a.cb, 0);
    SAME(a.cr, 0);
    SAME(a.cb_mark, GRAIN_INSIDE);
    SAME(a.cr_mark, GRAIN_INSIDE);
}

/* ---- Fits ---- */

#define QUANTISED(value, number, kind) \
    do { \
        grain_quantised q_ = grain_quant_ar(value); \
        SAME(q_.coefficient, number); \
        SAME(q_.mark, kind); \
    } while (0)

static void quant_ar(void)
{
    QUANTISED(0.0078125, 1, GRAIN_INSIDE);
    QUANTISED(-0.0078125, -1, GRAIN_INSIDE);
    QUANTISED(0.0, 0, GRAIN_INSIDE);
    QUANTISED(-0.0, 0, GRAIN_INSIDE);
    QUANTISED(127.49999 / 64, 127, GRAIN_INSIDE);
    QUANTISED(127.5 / 64, 127, GRAIN_HELD_HIGH);
    QUANTISED(-128.49 / 64, -128, GRAIN_INSIDE);
    QUANTISED(-128.5 / 64, -128, GRAIN_HELD_LOW);
    QUANTISED(INFINITY, 127, GRAIN_HELD_HIGH);
    QUANTISED(-INFINITY, -128, GRAIN_HELD_LOW);
    QUANTISED(NAN, 0, GRAIN_NOT_A_NUMBER);
}

static void solve_normal(void)
{
    static double a[25][25];
    double b[25] = {3, 4, 5};
    a[0][1] = a[1][0] = 1;
    grain_solved x = grain_solve_normal(a[0], b, 2);
    SAME(x.refusal, GRAIN_ACCEPTED);
    SAME(x.found, true);
    SAME(x.solution.order, 2);
    SAME_ALL(x.solution.values, 4, 3, 0, 0, 0, 0, 0, 0, 0, 0, 0, 0, 0, 0, 0, 0, 0, 0, 0, 0, 0, 0, 0, 0, 0);
    SAME_F64(a[0][0], 0);
    SAME_F64(a[0][1], 1);
    SAME_F64(b[0], 3);

    for (int i = 0; i < 25; i++) {
        for (int j = 0; j < 25; j++)
            a[i][j] = i == j ? 2 : 0;
        b[i] = i;
    }
    x = grain_solve_normal(a[0], b, 25);
    SAME(x.solution.order, 25);
    SAME_F64(x.solution.values[24], 12);

    size_t refused[2] = {0, 26};
    for (int i = 0; i < 2; i++) {
        x = grain_solve_normal(a[0], b, refused[i]);
        SAME(x.refusal, GRAIN_SOLVER_ORDER);
        ZERO(x.found);
        ZERO(x.solution);
    }
    a[0][0] = b[0] = 1e-9;
    x = grain_solve_normal(a[0], b, 1);
    SAME(x.found, true);
    SAME_F64(x.solution.values[0], 1);
    a[0][0] = 0.999e-9;
    x = grain_solve_normal(a[0], b, 1);
    SAME(x.refusal, GRAIN_ACCEPTED);
    ZERO(x.found);
    ZERO(x.solution);
    a[0][0] = NAN;
    x = grain_solve_normal(a[0], b, 1);
    SAME(x.found, true);
    SAME(isnan(x.solution.values[0]) != 0, true);
}

static void ar_positions(void)
{
    grain_positions p = grain_ar_positions(1);
    SAME(p.refusal, GRAIN_ACCEPTED);
    SAME(p.count, 4);
    SAME_ALL(p.rows, -1, -1, -1, 0, 0, 0, 0, 0, 0, 0, 0, 0, 0, 0, 0, 0, 0, 0, 0, 0, 0, 0, 0, 0);
    SAME_ALL(p.columns, -1, 0, 1, -1, 0, 0, 0, 0, 0, 0, 0, 0, 0, 0, 0, 0, 0, 0, 0, 0, 0, 0, 0, 0);
    p = grain_ar_positions(3);
    SAME(p.count, 24);
    SAME(p.rows[0], -3);
    SAME(p.columns[6], 3);
    SAME(p.rows[23], 0);
    SAME(p.columns[23], -1);
    SAME(grain_ar_positions(0).count, 0);
    p = grain_ar_positions(4);
    SAME(p.refusal, GRAIN_LAG_ABOVE_3);
    ZERO(p.count);
    ZERO(p.rows);
    ZERO(p.columns);
}

enum { W = 10, H = 4 };

/* Noise that follows its neighbours exactly, so that least squares has one answer: luma is k times its neighbour at
 * (-1,-1), Cb its neighbour at (-1,1) less k times luma, and Cr k times luma less its neighbour at (0,-1). */
static void follow(int k, uint16_t src[3][H * W], uint16_t den[3][H * W])
{
    static const int free_noise[W + H] = {3, -5, 2, 7, -1, 4, -6, 1, 5, -2, -7, 6, 0, 3};
    int n[3][H * W];
    for (int r = 0; r < H; r++)
        for (int c = 0; c < W; c++) {
            int i = r * W + c;
            n[0][i] = r == 0 || c == 0 ? free_noise[c - r + H] : k * n[0][i - W - 1];
            n[1][i] = r == 0 || c == 0 || c == W - 1 ? free_noise[r + c] : n[1][i - W + 1] - k * n[0][i];
            n[2][i] = c == 0 ? free_noise[2 * r] : k * n[0][i] - n[2][i - 1];
        }
    for (int p = 0; p < 3; p++)
        for (int i = 0; i < H * W; i++) {
            src[p][i] = (uint16_t)(2048 + n[p][i]);
            den[p][i] = 2048;
        }
}

/* Coefficients are 64ths: where k is 3 they would be 192. */
static void fit_ar_lag(void)
{
    uint16_t src[3][H * W], den[3][H * W];
#define FRAME LENT(src[0]), LENT(src[1]), LENT(src[2]), LENT(den[0]), LENT(den[1]), LENT(den[2])
    follow(1, src, den);
    grain_fit a = grain_fit_ar_lag(grain_whole_frame(W, H, 12, 3), FRAME, 1);
    SAME(a.refusal, GRAIN_ACCEPTED);
    SAME(a.found, true);
    SAME(a.count, 4);
    SAME_ALL(a.luma, 64, 0, 0, 0, 0, 0, 0, 0, 0, 0, 0, 0, 0, 0, 0, 0, 0, 0, 0, 0, 0, 0, 0, 0);
    SAME_ALL(a.cb, 0, 0, 64, 0, -64, 0, 0, 0, 0, 0, 0, 0, 0, 0, 0, 0, 0, 0, 0, 0, 0, 0, 0, 0, 0);
    SAME_ALL(a.cr, 0, 0, 0, -64, 64, 0, 0, 0, 0, 0, 0, 0, 0, 0, 0, 0, 0, 0, 0, 0, 0, 0, 0, 0, 0);
    ZERO(a.luma_marks);
    ZERO(a.cb_marks);
    ZERO(a.cr_marks);
    follow(3, src, den);
    a = grain_fit_ar_lag(grain_whole_frame(W, H, 12, 3), FRAME, 1);
    SAME_ALL(a.luma, 127, 0, 0, 0);
    SAME_ALL(a.cb, 0, 0, 64, 0, -128);
    SAME_ALL(a.cr, 0, 0, 0, -64, 127);
    SAME_ALL(a.luma_marks, GRAIN_HELD_HIGH, 0, 0, 0, 0, 0, 0, 0, 0, 0, 0, 0, 0, 0, 0, 0, 0, 0, 0, 0, 0, 0, 0, 0);
    SAME_ALL(a.cb_marks, 0, 0, 0, 0, GRAIN_HELD_LOW, 0, 0, 0, 0, 0, 0, 0, 0, 0, 0, 0, 0, 0, 0, 0, 0, 0, 0, 0, 0);
    SAME_ALL(a.cr_marks, 0, 0, 0, 0, GRAIN_HELD_HIGH, 0, 0, 0, 0, 0, 0, 0, 0, 0, 0, 0, 0, 0, 0, 0, 0, 0, 0, 0, 0);
    follow(-3, src, den);
    a = grain_fit_ar_lag(grain_whole_frame(W, H, 12, 3), FRAME, 1);
    SAME_ALL(a.luma, -128, 0, 0, 0);
    SAME_ALL(a.luma_marks, GRAIN_HELD_LOW, GRAIN_INSIDE, GRAIN_INSIDE, GRAIN_INSIDE);
    SAME(a.cb_marks[4], GRAIN_HELD_HIGH);
    SAME(a.cr_marks[4], GRAIN_HELD_LOW);
    follow(-2, src, den); /* -128 is inside, 128 is not */
    a = grain_fit_ar_lag(grain_whole_frame(W, H, 12, 3), FRAME, 1);
    SAME(a.luma[0], -128);
    SAME(a.luma_marks[0], GRAIN_INSIDE);
    SAME(a.cb[4], 127);
    SAME(a.cb_marks[4], GRAIN_HELD_HIGH);
    SAME(a.cr[4], -128);
    SAME(a.cr_marks[4], GRAIN_INSIDE);

    a = grain_fit_ar_lag(grain_whole_frame(2, 2, 12, 0), src[0], 4, NONE, NONE, den[0], 4, NONE, NONE, 1);
    SAME(a.refusal, GRAIN_ACCEPTED);
    SAME(a.found, false);
    ZERO(a.luma_marks);
    ZERO(a.cb_marks);
    ZERO(a.cr_marks);
    SAME(grain_fit_ar_lag(grain_whole_frame(W, H, 12, 3), FRAME, 0).found, false);
    SAME(grain_fit_ar_lag(grain_whole_frame(W, 4097, 12, 3), FRAME, 1).refusal, GRAIN_SIDE_ABOVE_4096);
    SAME(grain_fit_ar_lag(grain_whole_frame(W, 0, 12, 3), FRAME, 1).refusal, GRAIN_EMPTY_FRAME);
    SAME(grain_fit_ar_lag(grain_whole_frame(W, H, 14, 3), FRAME, 1).refusal, GRAIN_DEPTH);
    SAME(grain_fit_ar_lag(grain_whole_frame(W, H, 12, 4), FRAME, 1).refusal, GRAIN_FORMAT);
    SAME(grain_fit_ar_lag(grain_whole_frame(W, H, 12, 1), FRAME, 1).refusal, GRAIN_PLANE_LENGTH);
    SAME(grain_fit_ar_lag(grain_whole_frame(W, H, 8, 3), FRAME, 4).refusal, GRAIN_SAMPLE_ABOVE_DEPTH);
    a = grain_fit_ar_lag(grain_whole_frame(W, H, 12, 3), FRAME, 4);
    SAME(a.refusal, GRAIN_LAG_ABOVE_3);
    ZERO(a.found);
    ZERO(a.count);
    ZERO(a.luma);
    ZERO(a.cb);
    ZERO(a.cr);
    ZERO(a.luma_marks);
    ZERO(a.cb_marks);
    ZERO(a.cr_marks);
#undef FRAME
}

/* ---- The root ---- */

#define WORKED(x, root, count) \
    do { \
        grain_root r_ = grain_sqrt_digits(x); \
        SAME_F64(r_.value, root); \
        SAME(r_.digits, count); \
    } while (0)

static void sqrt_digits(void)
{
    WORKED(1.0, 1.0, 1);
    WORKED(4.0, 2.0, 1);
    WORKED(2.25, 1.5, 2);
    WORKED(9.0, 3.0, 2);
    WORKED(65025.0, 255.0, 8);
    WORKED(67108865.0 * 67108865.0, 67108865.0, 27); /* (2^26 + 1)^2, below 2^53 */
    WORKED(2.0, 0x1.6a09e667f3bcdp0, 53);
    WORKED(0x1p-1074, 0x1p-537, 1);
    WORKED(0x1p-1073, 0x1.6a09e667f3bcdp-537, 53);
    WORKED(0x9p-1074, 0x3p-537, 2);
    WORKED(DBL_MAX, 0x1.fffffffffffffp511, 53);
    WORKED(0.0, 0.0, 0);
    WORKED(-0.0, -0.0, 0);
    WORKED(INFINITY, INFINITY, 0);

    double unrooted[4] = {-1.0, -0x1p-1074, -INFINITY, NAN};
    for (int i = 0; i < 4; i++) {
        grain_root r = grain_sqrt_digits(unrooted[i]);
        SAME(isnan(r.value) != 0, true);
        SAME(r.digits, 0);
    }
}

/* ---- Seed and random register ---- */

static void draws(void)
{
    SAME(grain_seed_for(0), 20973);
    SAME(grain_seed_for(1), 61476);
    SAME(grain_seed_for(2), 36443);
    SAME(grain_seed_for(65536), 20973);

    SAME(grain_random_new(65535).state, 65535);
    grain_stepped s = grain_random_step(grain_random_new(1), 11);
    SAME(s.refusal, GRAIN_ACCEPTED);
    SAME(s.value, 1024);
    SAME(s.after.state, 32768);
    SAME(grain_random_step(grain_random_new(1), 16).value, 32768);
    SAME(grain_random_step(grain_random_new(1), 0).value, 0);
    SAME(grain_random_step(grain_random_new(1), 0).after.state, 32768);
    s = grain_random_step(grain_random_new(1), 17);
    SAME(s.refusal, GRAIN_REGISTER_BITS);
    SAME(s.value, 0);
    SAME(s.after.state, 1);

    grain_random r = grain_random_new(1);
    grain_draw d = grain_random_next(&r, 17);
    SAME(d.refusal, GRAIN_REGISTER_BITS);
    SAME(d.value, 0);
    SAME(r.state, 1);
    d = grain_random_next(&r, 11);
    SAME(d.refusal, GRAIN_ACCEPTED);
    SAME(d.value, 1024);
    SAME(r.state, 32768);
    d = grain_random_next(&r, 0);
    SAME(d.refusal, GRAIN_ACCEPTED);
    SAME(d.value, 0);
    SAME(r.state, 16384);
}

int main(void)
{
    denoise_plane();
    denoise_frame();
    plane_sigma16();
    noise_estimate();
    lag_h_rho();
    gates();
    fit_chroma_corr();
    quant_ar();
    solve_normal();
    ar_positions();
    fit_ar_lag();
    sqrt_digits();
    draws();
    return ended("calls.c");
}
