/* Frames through the structs of include/grain_planes.h. Each call answers what it answers when every plane is lent by
 * itself, and touches nothing outside a plane: memory ends where a plane does, or begins there. */
#include "frames.h"

static grain_planes_out written(size_t luma, size_t chroma, bool first)
{
    return (grain_planes_out){{plane(luma, first), luma}, {plane(chroma, first), chroma}, {plane(chroma, first), chroma}};
}

#define SAME_PLANE(a, b) compare(__LINE__, #a " = " #b, (a).samples, (b).samples, 2 * (a).len)

static void calls(grain_shape s, size_t luma, size_t chroma, bool first)
{
    grain_planes f = frame(luma, chroma, first, 20), d = frame(luma, chroma, first, 1);
    grain_planes g = frame(luma, chroma, first, 20), e = frame(luma, chroma, first, 1);

    grain_planes_out to = written(luma, chroma, first), direct = written(luma, chroma, first);
    SAME(grain_denoise_frame_planes(s, f, to), GRAIN_ACCEPTED);
    SAME(grain_denoise_frame(s, LEND_ALL(f), LEND_ALL(direct)), GRAIN_ACCEPTED);
    SAME_PLANE(to.y, direct.y);
    SAME_PLANE(to.cb, direct.cb);
    SAME_PLANE(to.cr, direct.cr);

    grain_estimate p = grain_noise_estimate_planes(s, f, d), q = grain_noise_estimate(s, LEND_ALL(f), LEND_ALL(d));
    SAME(p.refusal, GRAIN_ACCEPTED);
    SAME(p.luma.sigma16 > 0, true);
    SAME_FIELD(p, q, luma);
    SAME_FIELD(p, q, cb);
    SAME_FIELD(p, q, cr);

    grain_chroma_corr c = grain_fit_chroma_corr_planes(s, f, d), k = grain_fit_chroma_corr(s, LEND_ALL(f), LEND_ALL(d));
    SAME(c.refusal, GRAIN_ACCEPTED);
    SAME(c.cb, k.cb);
    SAME(c.cr, k.cr);
    SAME(c.cb_mark, k.cb_mark);
    SAME(c.cr_mark, k.cr_mark);

    for (size_t lag = 1; lag <= 3; lag++) {
        grain_fit a = grain_fit_ar_lag_planes(s, f, d, lag), b = grain_fit_ar_lag(s, LEND_ALL(f), LEND_ALL(d), lag);
        SAME(a.refusal, GRAIN_ACCEPTED);
        SAME(a.found, true);
        SAME(a.count, 2 * lag * (lag + 1));
        SAME_FIELD(a, b, luma);
        SAME_FIELD(a, b, cb);
        SAME_FIELD(a, b, cr);
        SAME_FIELD(a, b, luma_marks);
        SAME_FIELD(a, b, cb_marks);
        SAME_FIELD(a, b, cr_marks);
    }

    grain_gate gate = grain_film_grain_probe_planes(s, f.y, d.y, g.y, e.y);
    SAME(gate.refusal, GRAIN_ACCEPTED);
    SAME(gate.yes, true);
    SAME(grain_film_grain_probe_planes(s, f.y, d.y, f.y, d.y).yes, false);
    gate = grain_chroma_noise_gate_planes(s, f.cb, d.cb, g.cb, e.cb, 8);
    SAME(gate.refusal, GRAIN_ACCEPTED);
    SAME(gate.yes, chroma > 0);
    SAME(grain_chroma_noise_gate_planes(s, f.cr, d.cr, g.cr, e.cr, 7).yes, false);

    grain_sigma sigma = grain_plane_sigma16(LEND(f.y), LEND(d.y), s.width, s.height, s.depth);
    SAME(sigma.sigma16, p.luma.sigma16);
    grain_rho rho = grain_lag_h_rho(LEND(f.y), LEND(d.y), s.width, s.height, 3, s.depth);
    SAME(rho.refusal, GRAIN_ACCEPTED);
    SAME(rho.value > -0.75 && rho.value < 0.75, true);
    SAME(grain_denoise_plane(LEND(f.y), LEND(to.y), s.width, s.height), GRAIN_ACCEPTED);
    SAME_PLANE(to.y, direct.y);
}

/* Monochrome with the chroma planes left out. */
static void monochrome(void)
{
    uint16_t y[2] = {0, 16}, to_y[2];
    grain_planes f = {{LENT(y)}, {NONE}, {NONE}};
    grain_planes_out to = {{LENT(to_y)}, {NONE}, {NONE}};
    SAME(grain_denoise_frame_planes(grain_whole_frame(2, 1, 8, GRAIN_MONOCHROME), f, to), GRAIN_ACCEPTED);
    SAME_ALL(to_y, 4, 12);
}

int main(void)
{
    for (int first = 0; first < 2; first++) {
        calls(grain_whole_frame(67, 33, 10, GRAIN_MONOCHROME), 67 * 33, 0, first);
        calls(grain_whole_frame(67, 33, 10, GRAIN_YUV420), 67 * 33, 34 * 17, first);
        calls(grain_whole_frame(66, 31, 10, GRAIN_YUV422), 66 * 31, 33 * 31, first);
        calls(grain_whole_frame(64, 32, 10, GRAIN_YUV444), 64 * 32, 64 * 32, first);
    }
    monochrome();
    return ended("planes.c");
}
