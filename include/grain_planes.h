/* The calls of grain.h on frames, with a plane and its length as one struct and a frame's planes as another. Each hands
 * over to the call of its name; grain.h says what it answers. */
#ifndef GRAIN_PLANES_H
#define GRAIN_PLANES_H

#include "grain.h"

/* A plane in row order and its number of samples; {NULL, 0} is an empty one. */
typedef struct grain_plane {
    const uint16_t *samples;
    size_t len;
} grain_plane;

/* A frame's planes. Monochrome has an empty cb and cr, as in grain_planes frame = {{y, n}, {NULL, 0}, {NULL, 0}}. */
typedef struct grain_planes {
    grain_plane y;
    grain_plane cb;
    grain_plane cr;
} grain_planes;

/* A plane that is written. */
typedef struct grain_plane_out {
    uint16_t *samples;
    size_t len;
} grain_plane_out;

typedef struct grain_planes_out {
    grain_plane_out y;
    grain_plane_out cb;
    grain_plane_out cr;
} grain_planes_out;

static inline uint32_t grain_denoise_frame_planes(grain_shape s, grain_planes frame, grain_planes_out to)
{
    return grain_denoise_frame(s, frame.y.samples, frame.y.len, frame.cb.samples, frame.cb.len,
                               frame.cr.samples, frame.cr.len, to.y.samples, to.y.len,
                               to.cb.samples, to.cb.len, to.cr.samples, to.cr.len);
}

static inline grain_estimate grain_noise_estimate_planes(grain_shape s, grain_planes frame, grain_planes den)
{
    return grain_noise_estimate(s, frame.y.samples, frame.y.len, frame.cb.samples, frame.cb.len,
                                frame.cr.samples, frame.cr.len, den.y.samples, den.y.len,
                                den.cb.samples, den.cb.len, den.cr.samples, den.cr.len);
}

static inline grain_chroma_corr grain_fit_chroma_corr_planes(grain_shape s, grain_planes frame, grain_planes den)
{
    return grain_fit_chroma_corr(s, frame.y.samples, frame.y.len, frame.cb.samples, frame.cb.len,
                                 frame.cr.samples, frame.cr.len, den.y.samples, den.y.len,
                                 den.cb.samples, den.cb.len, den.cr.samples, den.cr.len);
}

static inline grain_fit grain_fit_ar_lag_planes(grain_shape s, grain_planes frame, grain_planes den, size_t lag)
{
    return grain_fit_ar_lag(s, frame.y.samples, frame.y.len, frame.cb.samples, frame.cb.len,
                            frame.cr.samples, frame.cr.len, den.y.samples, den.y.len,
                            den.cb.samples, den.cb.len, den.cr.samples, den.cr.len, lag);
}

static inline grain_gate grain_film_grain_probe_planes(grain_shape s, grain_plane src0, grain_plane den0,
                                                       grain_plane src1, grain_plane den1)
{
    return grain_film_grain_probe(s, src0.samples, src0.len, den0.samples, den0.len,
                                  src1.samples, src1.len, den1.samples, den1.len);
}

static inline grain_gate grain_chroma_noise_gate_planes(grain_shape s, grain_plane src0, grain_plane den0,
                                                        grain_plane src1, grain_plane den1, uint64_t sigma16)
{
    return grain_chroma_noise_gate(s, src0.samples, src0.len, den0.samples, den0.len,
                                   src1.samples, src1.len, den1.samples, den1.len, sigma16);
}

#endif
