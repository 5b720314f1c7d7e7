/* What the tests have in common: comparisons that are counted, the edge of memory, and planes. A comparison that fails is
 * written with its line; a program's last line is 'NAME: N compared, M differ', and its status is 0 if M is. */
#ifndef CHECK_H
#define CHECK_H

#include "grain.h"

#include <stdio.h>
#include <stdlib.h>
#include <string.h>
#include <sys/mman.h>
#include <unistd.h>

/* ---- Comparisons ---- */

static int compared, differ;

static inline void compare(int line, const char *what, const void *got, const void *want, size_t size)
{
    compared++;
    if (memcmp(got, want, size) != 0) {
        differ++;
        printf("line %d: not so: %s\n", line, what);
    }
}

static const char zeros[1024];

/* whole numbers; doubles by their bits; the first elements of an array; all bytes of a field or of a plane */
#define SAME(got, want) \
    do { \
        long long g_ = (got), w_ = (want); \
        compare(__LINE__, #got " = " #want, &g_, &w_, sizeof g_); \
    } while (0)
#define SAME_F64(got, want) \
    do { \
        double g_ = (got), w_ = (want); \
        compare(__LINE__, #got " = " #want, &g_, &w_, sizeof g_); \
    } while (0)
#define SAME_ALL(got, ...) \
    do { \
        __typeof__((got)[0]) w_[] = {__VA_ARGS__}; \
        compare(__LINE__, #got " = " #__VA_ARGS__, got, w_, sizeof w_); \
    } while (0)
#define ZERO(field) compare(__LINE__, #field " = 0", &(field), zeros, sizeof(field))

/* ---- The edge of memory ---- */

/* n bytes of which the last is the last before memory that can't be touched, or the first the first behind it. */
static inline void *edge(size_t n, bool first)
{
    size_t page = (size_t)sysconf(_SC_PAGESIZE), room = (n + page - 1) / page * page;
    char *at = mmap(NULL, room + 2 * page, PROT_NONE, MAP_PRIVATE | MAP_ANONYMOUS, -1, 0);
    if (at == MAP_FAILED || mprotect(at + page, room, PROT_READ | PROT_WRITE) != 0)
        abort();
    return first ? at + page : at + page + room - n;
}

/* ---- Planes ---- */

#define LENT(plane) (plane), sizeof(plane) / sizeof((plane)[0])
#define NONE NULL, 0

/* A source and a denoised copy with this noise. */
static inline void samples(const int *noise, size_t n, uint16_t *src, uint16_t *den)
{
    for (size_t i = 0; i < n; i++) {
        src[i] = (uint16_t)(512 + noise[i]);
        den[i] = 512;
    }
}

static inline void fill(uint16_t *plane, size_t n, uint16_t x)
{
    for (size_t i = 0; i < n; i++)
        plane[i] = x;
}

/* The same frame with another active rectangle. */
static inline grain_shape active(grain_shape s, grain_rectangle r)
{
    s.active = r;
    return s;
}

static inline int ended(const char *name)
{
    printf("%s: %d compared, %d differ\n", name, compared, differ);
    return differ != 0;
}

#endif
