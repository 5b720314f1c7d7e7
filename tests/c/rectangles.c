/* The active rectangle: a frame's figures are those of the frame that it cuts out, whatever stands outside, and a
 * rectangle that a frame can't have is refused. */
#include "frames.h"

#define PART(left, top, width, height) ((grain_rectangle){left, top, width, height})

/* ---- Worked cases ---- */

/* Luma's averages are 2 and 8 in a frame three wide, whose last column is repeated; here others stand beside it. */
static void correlation(void)
{
    uint16_t y[5] = {0, 4, 8, 100, 200}, y_den[5] = {0};
    uint16_t cb[3] = {1, 1, 90}, cr[3] = {0, 0, 80}, cb_den[3] = {0}, cr_den[3] = {2, 2};
#define FRAME LENT(y), LENT(cb), LENT(cr), LENT(y_den), LENT(cb_den), LENT(cr_den)
    grain_shape whole = grain_whole_frame(5, 1, 8, GRAIN_YUV420);
    grain_chroma_corr a = grain_fit_chroma_corr(active(whole, PART(0, 0, 3, 1)), FRAME);
    SAME(a.refusal, GRAIN_ACCEPTED);
    SAME(a.cb, 9);
    SAME(a.cr, -19);
    SAME(grain_fit_chroma_corr(whole, FRAME).cb, 27);
#undef FRAME
}

/* The same three columns and one row further in, so that a row below is left out as well. */
static void correlation_further_in(void)
{
    uint16_t y[7 * 4], y_den[7 * 4] = {0}, cb[4 * 2], cb_den[4 * 2] = {0};
    fill(y, 7 * 4, 200);
    fill(cb, 4 * 2, 90);
    memcpy(y + 2 * 7 + 2, (uint16_t[]){0, 4, 8}, 3 * sizeof(uint16_t));
    memcpy(cb + 4 + 1, (uint16_t[]){1, 1}, 2 * sizeof(uint16_t));
    grain_shape s = active(grain_whole_frame(7, 4, 8, GRAIN_YUV420), PART(2, 2, 3, 1));
    grain_chroma_corr a = grain_fit_chroma_corr(s, LENT(y), LENT(cb), LENT(cb), LENT(y_den), LENT(cb_den), LENT(cb_den));
    SAME(a.refusal, GRAIN_ACCEPTED);
    SAME(a.cb, 9);
    SAME(a.cr, 9);
}

/* Two rows of noise 1 between black bars. */
static void profile(void)
{
    uint16_t y[16] = {0}, y_den[16] = {0};
    fill(y + 4, 8, 33);
    fill(y_den + 4, 8, 32);
    grain_shape whole = grain_whole_frame(4, 4, 8, GRAIN_MONOCHROME);
    grain_estimate a = grain_noise_estimate(active(whole, PART(0, 1, 4, 2)), LENT(y), NONE, NONE, LENT(y_den), NONE, NONE);
    SAME(a.refusal, GRAIN_ACCEPTED);
    SAME(a.luma.sigma16, 16);
    SAME_ALL(a.luma.bin_count, 0, 8, 0, 0, 0, 0, 0, 0);
    SAME_ALL(a.luma.bin_squares, 0, 8, 0, 0, 0, 0, 0, 0);
    ZERO(a.cb);
    ZERO(a.cr);
    a = grain_noise_estimate(whole, LENT(y), NONE, NONE, LENT(y_den), NONE, NONE);
    SAME(a.luma.sigma16, 11);
    SAME_ALL(a.luma.bin_count, 8, 8, 0, 0, 0, 0, 0, 0);
}

/* Grain in the middle of a row; at its ends noise that both frames have, which is no grain. */
static void gates(void)
{
    uint16_t src0[8], src1[8], den[8];
    samples((int[]){40, 40, 4, 4, 4, -4, 40, 40}, 8, src0, den);
    samples((int[]){40, 40, 4, -4, 4, 4, 40, 40}, 8, src1, den);
#define FOUR LENT(src0), LENT(den), LENT(src1), LENT(den)
    grain_shape luma = grain_whole_frame(8, 1, 10, GRAIN_MONOCHROME);
    grain_gate a = grain_film_grain_probe(active(luma, PART(2, 0, 4, 1)), FOUR);
    SAME(a.refusal, GRAIN_ACCEPTED);
    SAME(a.yes, true);
    SAME(grain_film_grain_probe(luma, FOUR).yes, false);
    grain_shape chroma = grain_whole_frame(16, 1, 10, GRAIN_YUV420);
    a = grain_chroma_noise_gate(active(chroma, PART(4, 0, 7, 1)), FOUR, 8);
    SAME(a.refusal, GRAIN_ACCEPTED);
    SAME(a.yes, true);
    SAME(grain_chroma_noise_gate(chroma, FOUR, 8).yes, false);
#undef FOUR
}

/* ---- The frame that is cut out ---- */

/* What a rectangle covers of a chroma plane. */
static grain_rectangle of_chroma(grain_rectangle r, uint8_t format)
{
    if (format == GRAIN_MONOCHROME)
        return PART(0, 0, 0, 0);
    size_t along = format != GRAIN_YUV444, down = format == GRAIN_YUV420;
    return PART(r.left >> along, r.top >> down, (r.width + along) >> along, (r.height + down) >> down);
}

static grain_plane cut(grain_plane from, size_t width, grain_rectangle r, bool first)
{
    uint16_t *to = plane(r.width * r.height, first);
    for (size_t row = 0; row < r.height; row++)
        memcpy(to + row * r.width, from.samples + (r.top + row) * width + r.left, r.width * sizeof(uint16_t));
    return (grain_plane){to, r.width * r.height};
}

static grain_planes cut_out(grain_planes f, grain_shape s, bool first)
{
    grain_rectangle chroma = of_chroma(s.active, s.format);
    size_t width = of_chroma(PART(0, 0, s.width, s.height), s.format).width;
    return (grain_planes){cut(f.y, s.width, s.active, first), cut(f.cb, width, chroma, first),
                          cut(f.cr, width, chroma, first)};
}

static void figures(grain_shape s, bool first)
{
    grain_rectangle c = of_chroma(PART(0, 0, s.width, s.height), s.format);
    size_t luma = s.width * s.height, chroma = c.width * c.height;
    grain_planes f = frame(luma, chroma, first, 20), d = frame(luma, chroma, first, 1);
    grain_planes g = frame(luma, chroma, first, 20), e = frame(luma, chroma, first, 1);
    grain_planes part = cut_out(f, s, first), part_d = cut_out(d, s, first);
    grain_planes part_g = cut_out(g, s, first), part_e = cut_out(e, s, first);
    grain_shape own = grain_whole_frame(s.active.width, s.active.height, s.depth, s.format);

    grain_estimate p = grain_noise_estimate_planes(s, f, d), q = grain_noise_estimate_planes(own, part, part_d);
    SAME(p.refusal, GRAIN_ACCEPTED);
    SAME(p.luma.sigma16 > 0, true);
    SAME_FIELD(p, q, luma);
    SAME_FIELD(p, q, cb);
    SAME_FIELD(p, q, cr);

    grain_chroma_corr a = grain_fit_chroma_corr_planes(s, f, d), b = grain_fit_chroma_corr_planes(own, part, part_d);
    SAME(a.refusal, GRAIN_ACCEPTED);
    SAME(a.cb, b.cb);
    SAME(a.cr, b.cr);
    SAME(a.cb_mark, b.cb_mark);
    SAME(a.cr_mark, b.cr_mark);

    for (size_t lag = 1; lag <= 3; lag++) {
        grain_fit x = grain_fit_ar_lag_planes(s, f, d, lag), y = grain_fit_ar_lag_planes(own, part, part_d, lag);
        SAME(x.refusal, GRAIN_ACCEPTED);
        SAME(x.found, y.found);
        SAME(x.count, y.count);
        SAME_FIELD(x, y, luma);
        SAME_FIELD(x, y, cb);
        SAME_FIELD(x, y, cr);
        SAME_FIELD(x, y, luma_marks);
        SAME_FIELD(x, y, cb_marks);
        SAME_FIELD(x, y, cr_marks);
    }

    grain_gate gate = grain_film_grain_probe_planes(s, f.y, d.y, g.y, e.y);
    SAME(gate.refusal, GRAIN_ACCEPTED);
    SAME(gate.yes, grain_film_grain_probe_planes(own, part.y, part_d.y, part_g.y, part_e.y).yes);
    gate = grain_chroma_noise_gate_planes(s, f.cr, d.cr, g.cr, e.cr, 8);
    SAME(gate.refusal, GRAIN_ACCEPTED);
    SAME(gate.yes, grain_chroma_noise_gate_planes(own, part.cr, part_d.cr, part_g.cr, part_e.cr, 8).yes);
}

/* At each edge of the frame and at none, with odd ends, of one row, of one column, and the frame itself. */
static void cut_outs(void)
{
    grain_rectangle parts[] = {
        {0, 8, 41, 15}, {6, 0, 35, 31}, {6, 8, 20, 16}, {0, 0, 21, 17}, {4, 2, 13, 11},
        {8, 30, 33, 1}, {40, 2, 1, 29}, {0, 0, 1, 1},   {0, 0, 41, 31},
    };
    for (uint8_t format = 0; format <= 3; format++)
        for (size_t i = 0; i < sizeof parts / sizeof parts[0]; i++)
            for (int first = 0; first < 2; first++)
                figures(active(grain_whole_frame(41, 31, 10, format), parts[i]), first);
}

/* ---- Denoised as a whole ---- */

static void denoised(void)
{
    uint16_t y[9] = {0, 0, 0, 0, 16}, cb[4] = {0, 16, 0, 16}, cr[4] = {0, 0, 16, 16};
    uint16_t y_den[9], cb_den[4], cr_den[4];
    fill(y_den, 9, 500);
    fill(cb_den, 4, 501);
    fill(cr_den, 4, 502);
#define FRAME LENT(y), LENT(cb), LENT(cr), LENT(y_den), LENT(cb_den), LENT(cr_den)
    grain_shape whole = grain_whole_frame(3, 3, 8, GRAIN_YUV420);
    SAME(grain_denoise_frame(active(whole, PART(1, 0, 1, 1)), FRAME), GRAIN_ACTIVE_RECTANGLE);
    SAME_ALL(y_den, 500, 500, 500, 500, 500, 500, 500, 500, 500);
    SAME_ALL(cb_den, 501, 501, 501, 501);
    SAME_ALL(cr_den, 502, 502, 502, 502);
    SAME(grain_denoise_frame(active(whole, PART(2, 2, 1, 1)), FRAME), GRAIN_ACCEPTED);
    SAME_ALL(y_den, 1, 2, 1, 2, 4, 2, 1, 2, 1);
    SAME_ALL(cb_den, 4, 12, 4, 12);
    SAME_ALL(cr_den, 4, 4, 12, 12);
#undef FRAME
}

/* ---- Refusals ---- */

static uint16_t planes[4][16];

/* Every call on a frame answers this number, of planes as a frame 4 wide and 4 high has them. */
static void asked(int line, grain_shape s, uint32_t number)
{
    static const size_t lengths[4] = {0, 4, 8, 16};
    size_t n = lengths[s.format & 3];
    uint16_t to[3][16];
#define CHROMA(p) planes[p], n
#define PAIR planes[0], 16, CHROMA(1), CHROMA(2), planes[3], 16, CHROMA(1), CHROMA(2)
    uint32_t found[] = {
        grain_denoise_frame(s, planes[0], 16, CHROMA(1), CHROMA(2), to[0], 16, to[1], n, to[2], n),
        grain_noise_estimate(s, PAIR).refusal,
        grain_fit_chroma_corr(s, PAIR).refusal,
        grain_fit_ar_lag(s, PAIR, 1).refusal,
        grain_film_grain_probe(s, planes[0], 16, planes[3], 16, planes[0], 16, planes[3], 16).refusal,
        grain_chroma_noise_gate(s, CHROMA(1), CHROMA(2), CHROMA(1), CHROMA(2), 8).refusal,
    };
    for (size_t i = 0; i < sizeof found / sizeof found[0]; i++)
        compare(line, "the refusal of each call", &found[i], &number, sizeof number);
}

#define ASKED(s, number) asked(__LINE__, s, number)
#define HOLDS(format, ...) ASKED(active(grain_whole_frame(4, 4, 8, format), PART(__VA_ARGS__)), GRAIN_ACCEPTED)
#define REFUSED(format, ...) ASKED(active(grain_whole_frame(4, 4, 8, format), PART(__VA_ARGS__)), GRAIN_ACTIVE_RECTANGLE)

static void refusals(void)
{
    for (uint8_t format = 0; format <= 3; format++) {
        HOLDS(format, 0, 0, 4, 4);
        HOLDS(format, 2, 2, 2, 2);
        HOLDS(format, 0, 0, 1, 1);
        HOLDS(format, 2, 0, 1, 3);
        REFUSED(format, 0, 0, 0, 4); /* empty */
        REFUSED(format, 0, 0, 4, 0);
        REFUSED(format, 0, 0, 0, 0);
        REFUSED(format, 4, 0, 0, 4);
        REFUSED(format, 0, 0, 5, 4); /* past the frame */
        REFUSED(format, 0, 0, 4, 5);
        REFUSED(format, 2, 0, 3, 4);
        REFUSED(format, 0, 2, 4, 3);
        REFUSED(format, 4, 0, 1, 4);
        REFUSED(format, 0, 4, 4, 1);
        REFUSED(format, SIZE_MAX - 1, 0, 2, 4); /* sums of 2^64 or more, which would wrap into the frame */
        REFUSED(format, 2, 0, SIZE_MAX, 4);
        REFUSED(format, SIZE_MAX / 2 + 1, 0, SIZE_MAX / 2 + 3, 4);
        REFUSED(format, 0, SIZE_MAX - 1, 4, 4);
        REFUSED(format, 0, 2, 4, SIZE_MAX);
        REFUSED(format, 0, SIZE_MAX / 2 + 1, 4, SIZE_MAX / 2 + 1);
        REFUSED(format, SIZE_MAX, SIZE_MAX, SIZE_MAX, SIZE_MAX);
        REFUSED(format, 0, 0, SIZE_MAX, 4);
        REFUSED(format, 0, 0, 4, SIZE_MAX);
    }
    HOLDS(GRAIN_MONOCHROME, 1, 1, 3, 3); /* odd places */
    REFUSED(GRAIN_YUV420, 1, 0, 3, 4);
    REFUSED(GRAIN_YUV420, 0, 1, 4, 3);
    REFUSED(GRAIN_YUV420, 3, 0, 1, 4);
    REFUSED(GRAIN_YUV422, 1, 0, 3, 4);
    HOLDS(GRAIN_YUV422, 0, 1, 4, 3);
    HOLDS(GRAIN_YUV444, 1, 1, 3, 3);
}

/* A rectangle that no frame can have, with something else that is refused before it or after it. */
static void order(void)
{
    grain_rectangle none = PART(0, 0, 0, 0);
    ASKED(active(grain_whole_frame(4097, 4, 8, GRAIN_YUV420), none), GRAIN_SIDE_ABOVE_4096);
    ASKED(active(grain_whole_frame(4, 0, 8, GRAIN_YUV420), none), GRAIN_EMPTY_FRAME);
    ASKED(active(grain_whole_frame(4, 4, 9, GRAIN_YUV420), none), GRAIN_DEPTH);
    ASKED(active(grain_whole_frame(4, 4, 8, 5), none), GRAIN_FORMAT);
    ASKED(active(grain_whole_frame(4, 3, 8, GRAIN_YUV444), none), GRAIN_ACTIVE_RECTANGLE);
    ASKED(active(grain_whole_frame(4, 3, 8, GRAIN_YUV444), PART(0, 0, 1, 1)), GRAIN_PLANE_LENGTH);
    grain_shape s = grain_whole_frame(4, 4, 8, GRAIN_MONOCHROME);
#define LUMA planes[0], 16, NONE, NONE, planes[3], 16, NONE, NONE
    SAME(grain_fit_ar_lag(active(s, none), LUMA, 4).refusal, GRAIN_ACTIVE_RECTANGLE);
    SAME(grain_fit_ar_lag(active(s, PART(0, 0, 1, 1)), LUMA, 4).refusal, GRAIN_LAG_ABOVE_3);
    planes[0][15] = 256; /* outside */
    SAME(grain_noise_estimate(active(s, none), LUMA).refusal, GRAIN_ACTIVE_RECTANGLE);
    grain_estimate a = grain_noise_estimate(active(s, PART(0, 0, 1, 1)), LUMA);
    SAME(a.refusal, GRAIN_SAMPLE_ABOVE_DEPTH);
    ZERO(a.luma);
    planes[0][15] = 0;
    a = grain_noise_estimate(active(s, PART(0, 0, 5, 1)), LUMA);
    SAME(a.refusal, GRAIN_ACTIVE_RECTANGLE);
    ZERO(a.luma);
    ZERO(a.cb);
    ZERO(a.cr);
}

int main(void)
{
    correlation();
    correlation_further_in();
    profile();
    gates();
    cut_outs();
    denoised();
    refusals();
    order();
    return ended("rectangles.c");
}
