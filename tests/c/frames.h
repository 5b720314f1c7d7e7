/* Frames of noise at the edge of memory: memory ends where a plane does, or begins there. */
#ifndef FRAMES_H
#define FRAMES_H

#include "check.h"
#include "grain_planes.h"

static inline uint16_t *plane(size_t n, bool first)
{
    return edge(n * sizeof(uint16_t), first);
}

/* Samples about this level, of 10 bits. */
static inline grain_plane noisy(size_t n, bool first, int level, int amplitude)
{
    static uint32_t state = 1;
    uint16_t *samples = plane(n, first);
    for (size_t i = 0; i < n; i++) {
        state = state * 1664525 + 1013904223;
        samples[i] = (uint16_t)(level + (int)(state >> 16) % (2 * amplitude + 1) - amplitude);
    }
    return (grain_plane){samples, n};
}

static inline grain_planes frame(size_t luma, size_t chroma, bool first, int amplitude)
{
    return (grain_planes){noisy(luma, first, 300, amplitude), noisy(chroma, first, 500, 2 * amplitude),
                          noisy(chroma, first, 700, 3 * amplitude)};
}

#define LEND(p) (p).samples, (p).len
#define LEND_ALL(f) LEND((f).y), LEND((f).cb), LEND((f).cr)
#define SAME_FIELD(a, b, field) compare(__LINE__, #a "." #field, &(a).field, &(b).field, sizeof((a).field))

#endif
