/* Headers that grain_write_film_grain_params writes, with their bytes worked out by hand, and those that it refuses. */
#include "check.h"

/* Two luma points and lag 1. The bits of its header, on an inter frame in 4:2:0, by the syntax table:
 *   1  0001 0010 0011 0100  1                    applied, the seed, updated
 *   0010  0000 0000  0001 0100  1111 1111  0010 1000    2 points: 0 and 20, 255 and 40
 *   0  0000  0000                                chroma not from luma, no points of Cb, none of Cr
 *   11  01  0111 1010  1001 0100  1000 0101  1001 1000    scaling 8 + 3, lag 1, four coefficients
 *   01  00  1  1                                 shift 6 + 1, scale shift 0, overlap, clip */
static const grain_film_params two_points = {
    .apply_grain = true,
    .grain_seed = 0x1234,
    .update_grain = true,
    .num_y_points = 2,
    .point_y_value = {0, 255},
    .point_y_scaling = {20, 40},
    .grain_scaling = 11,
    .ar_coeff_lag = 1,
    .ar_coeffs_y_plus_128 = {122, 148, 133, 152},
    .ar_coeff_shift = 7,
    .overlap_flag = true,
    .clip_to_restricted_range = true,
};

/* Every field of chroma, each with a value of its own. The bits of its header, on an inter frame in 4:4:4:
 *   1  1010 1011 1100 1101  1                    applied, the seed, updated
 *   0001  0010 0001  0100 0011  0                a luma point, chroma not from luma
 *   0001  0110 0101  1000 0111                   a point of Cb
 *   0010  0000 1110  0010 1101  0100 1100  0110 1011    2 points of Cr
 *   01  00  1000 1010  1010 1001                 scaling 8 + 1, lag 0, the luma tap of Cb, that of Cr
 *   10  11                                       shift 6 + 2, scale shift 3
 *   0001 0011  0011 0101  1 0101 0111            multipliers and offset of Cb
 *   0111 1001  1001 1011  0 1011 1101            those of Cr
 *   1  0                                         overlap, no clip */
static const grain_film_params three_planes = {
    .apply_grain = true,
    .grain_seed = 0xabcd,
    .update_grain = true,
    .num_y_points = 1,
    .point_y_value = {0x21},
    .point_y_scaling = {0x43},
    .num_cb_points = 1,
    .point_cb_value = {0x65},
    .point_cb_scaling = {0x87},
    .num_cr_points = 2,
    .point_cr_value = {0x0e, 0x4c},
    .point_cr_scaling = {0x2d, 0x6b},
    .grain_scaling = 9,
    .ar_coeffs_cb_plus_128 = {0x8a},
    .ar_coeffs_cr_plus_128 = {0xa9},
    .ar_coeff_shift = 8,
    .grain_scale_shift = 3,
    .cb_mult = 0x13,
    .cb_luma_mult = 0x35,
    .cb_offset = 0x157,
    .cr_mult = 0x79,
    .cr_luma_mult = 0x9b,
    .cr_offset = 0x0bd,
    .overlap_flag = true,
};

static grain_film_params largest(void)
{
    grain_film_params p = two_points;
    p.num_y_points = 14;
    p.num_cb_points = p.num_cr_points = 10;
    for (int i = 0; i < 14; i++)
        p.point_y_value[i] = (uint8_t)(242 + i);
    for (int i = 0; i < 10; i++)
        p.point_cb_value[i] = p.point_cr_value[i] = (uint8_t)i;
    p.ar_coeff_lag = 3;
    p.cb_offset = p.cr_offset = 511;
    return p;
}

static void written(void)
{
    uint8_t to[16], room[GRAIN_MAX_HEADER_BYTES];
    memset(to, 0xff, sizeof to);
    grain_written w = grain_write_film_grain_params(&(grain_film_params){0}, true, GRAIN_YUV420, LENT(to));
    SAME(w.refusal, GRAIN_ACCEPTED);
    SAME(w.bits, 1);
    SAME_ALL(to, 0x00, 0xff, 0xff);

    grain_film_params p = {.apply_grain = true, .grain_seed = 0x1234, .film_grain_params_ref_idx = 5};
    w = grain_write_film_grain_params(&p, true, GRAIN_YUV420, LENT(to));
    SAME(w.refusal, GRAIN_ACCEPTED);
    SAME(w.bits, 21);
    SAME_ALL(to, 0x89, 0x1a, 0x28, 0xff, 0xff);

    p = two_points;
    for (int predicted = 0; predicted < 2; predicted++) {
        p.predicted = predicted;
        memset(to, 0xff, sizeof to);
        w = grain_write_film_grain_params(&p, true, GRAIN_YUV420, LENT(to));
        SAME(w.refusal, GRAIN_ACCEPTED);
        SAME(w.bits, 105);
        SAME_ALL(to, 0x89, 0x1a, 0x48, 0x00, 0x53, 0xfc, 0xa0, 0x01, 0xaf, 0x52, 0x90, 0xb3, 0x09, 0x80, 0xff, 0xff);
    }
    memset(to, 0xff, sizeof to);
    w = grain_write_film_grain_params(&p, false, GRAIN_YUV420, LENT(to)); /* without the bit of update_grain */
    SAME(w.bits, 104);
    SAME_ALL(to, 0x89, 0x1a, 0x10, 0x00, 0xa7, 0xf9, 0x40, 0x03, 0x5e, 0xa5, 0x21, 0x66, 0x13, 0xff, 0xff, 0xff);
    SAME(grain_write_film_grain_params(&p, true, GRAIN_MONOCHROME, LENT(to)).bits, 96);
    SAME(grain_write_film_grain_params(&p, true, GRAIN_YUV444, LENT(to)).bits, 105);
    p.num_cb_points = 1; /* in 4:2:0 Cb can't have points alone */
    SAME(grain_write_film_grain_params(&p, true, GRAIN_YUV422, LENT(room)).bits, 186);

    w = grain_write_film_grain_params(&three_planes, true, GRAIN_YUV444, LENT(room));
    SAME(w.refusal, GRAIN_ACCEPTED);
    SAME(w.bits, 171);
    SAME_ALL(room, 0xd5, 0xe6, 0xc4, 0x85, 0x0c, 0x2c, 0xb0, 0xe4, 0x1c, 0x5a, 0x98, 0xd6, 0x91, 0x55, 0x36, 0x26, 0x6b, 0x57,
             0x79, 0x9b, 0x5e, 0xc0);

    p = largest();
    w = grain_write_film_grain_params(&p, true, GRAIN_YUV420, LENT(room));
    SAME(w.refusal, GRAIN_ACCEPTED);
    SAME(w.bits, 1227);
    SAME(room[GRAIN_MAX_HEADER_BYTES - 1], 0xe0);
}

/* The call is refused, says nothing, and leaves the destination. */
#define REFUSED(params, inter, format, room, number) \
    do { \
        uint8_t to_[GRAIN_MAX_HEADER_BYTES], was_[GRAIN_MAX_HEADER_BYTES]; \
        memset(to_, 0xa5, sizeof to_); \
        memset(was_, 0xa5, sizeof was_); \
        grain_written w_ = grain_write_film_grain_params(&(params), inter, format, to_, room); \
        SAME(w_.refusal, number); \
        ZERO(w_.bits); \
        compare(__LINE__, "destination as it was", to_, was_, sizeof to_); \
    } while (0)

/* A record with this field otherwise. */
#define FIELD_REFUSED(record, field, value) \
    do { \
        grain_film_params p_ = record; \
        p_.field = value; \
        REFUSED(p_, true, GRAIN_YUV420, GRAIN_MAX_HEADER_BYTES, GRAIN_HEADER_FIELD); \
    } while (0)

static void refused(void)
{
    const grain_film_params none = {0}, slot = {.apply_grain = true}, all = largest();
    FIELD_REFUSED(none, grain_seed, 1);
    FIELD_REFUSED(none, update_grain, true);
    FIELD_REFUSED(none, num_y_points, 200);
    FIELD_REFUSED(none, clip_to_restricted_range, true);
    FIELD_REFUSED(slot, film_grain_params_ref_idx, 8);
    FIELD_REFUSED(slot, ar_coeffs_cr_plus_128[24], 1);
    FIELD_REFUSED(two_points, update_grain, false);
    FIELD_REFUSED(two_points, film_grain_params_ref_idx, 1);
    FIELD_REFUSED(two_points, num_y_points, 200);
    FIELD_REFUSED(two_points, num_cb_points, 200);
    FIELD_REFUSED(two_points, num_cb_points, 1);
    FIELD_REFUSED(two_points, num_cr_points, 1);
    FIELD_REFUSED(two_points, point_y_value[1], 0);
    FIELD_REFUSED(two_points, point_y_scaling[13], 1);
    FIELD_REFUSED(two_points, grain_scaling, 7);
    FIELD_REFUSED(two_points, ar_coeff_lag, 4);
    FIELD_REFUSED(two_points, ar_coeffs_y_plus_128[4], 1);
    FIELD_REFUSED(two_points, ar_coeffs_cb_plus_128[0], 128);
    FIELD_REFUSED(two_points, ar_coeff_shift, 10);
    FIELD_REFUSED(two_points, cb_offset, 1);
    FIELD_REFUSED(all, num_y_points, 15);
    FIELD_REFUSED(all, num_y_points, 200);
    FIELD_REFUSED(all, num_cb_points, 11);
    FIELD_REFUSED(all, num_cb_points, 200);
    FIELD_REFUSED(all, num_cr_points, 255);
    FIELD_REFUSED(all, chroma_scaling_from_luma, true);
    FIELD_REFUSED(all, point_cb_value[9], 8);
    FIELD_REFUSED(all, ar_coeff_lag, 255);
    FIELD_REFUSED(all, grain_scale_shift, 4);
    FIELD_REFUSED(all, cr_offset, 512);

    REFUSED(slot, false, GRAIN_YUV420, 3, GRAIN_HEADER_FIELD);
    REFUSED(all, true, GRAIN_MONOCHROME, GRAIN_MAX_HEADER_BYTES, GRAIN_HEADER_FIELD);
    REFUSED(none, true, GRAIN_YUV420, 0, GRAIN_HEADER_ROOM);
    REFUSED(slot, true, GRAIN_YUV420, 2, GRAIN_HEADER_ROOM);
    REFUSED(all, true, GRAIN_YUV420, GRAIN_MAX_HEADER_BYTES - 1, GRAIN_HEADER_ROOM);
    SAME(grain_write_film_grain_params(&none, true, GRAIN_YUV420, NONE).refusal, GRAIN_HEADER_ROOM);
    REFUSED(slot, false, GRAIN_YUV420, 0, GRAIN_HEADER_FIELD);
    REFUSED(none, true, 4, GRAIN_MAX_HEADER_BYTES, GRAIN_FORMAT);
    REFUSED(slot, false, 255, 0, GRAIN_FORMAT);
}

/* A byte for every eight bits begun is enough, and nothing outside the destination is touched: memory ends where it does,
 * or begins there. With a byte less it isn't touched at all. */
static void edges(void)
{
    const struct { grain_film_params params; size_t bits; } headers[] = {
        {{0}, 1}, {{.apply_grain = true}, 21}, {two_points, 105}, {largest(), 1227}};
    for (size_t i = 0; i < sizeof headers / sizeof headers[0]; i++)
        for (int first = 0; first < 2; first++) {
            grain_film_params p = headers[i].params;
            size_t bits = headers[i].bits, n = (bits + 7) / 8;
            uint8_t to[GRAIN_MAX_HEADER_BYTES], *exact = edge(n, first), *less = edge(n - 1, first);
            SAME(grain_write_film_grain_params(&p, true, GRAIN_YUV420, LENT(to)).bits, bits);
            SAME(grain_write_film_grain_params(&p, true, GRAIN_YUV420, exact, n).bits, bits);
            compare(__LINE__, "the same bytes", exact, to, n);
            SAME(grain_write_film_grain_params(&p, true, GRAIN_YUV420, less, n - 1).refusal, GRAIN_HEADER_ROOM);
            compare(__LINE__, "as it was", less, zeros, n - 1);
        }
}

/* A record is read within its bytes and left as it was: memory ends where it does, or begins there. */
static void records(void)
{
    const struct { grain_film_params params; size_t bits; } headers[] = {{{0}, 1}, {largest(), 1227}};
    for (size_t i = 0; i < sizeof headers / sizeof headers[0]; i++)
        for (int first = 0; first < 2; first++) {
            const grain_film_params *was = &headers[i].params;
            grain_film_params *p = memcpy(edge(sizeof *p, first), was, sizeof *p);
            size_t bits = headers[i].bits, n = (bits + 7) / 8;
            uint8_t to[GRAIN_MAX_HEADER_BYTES], same[GRAIN_MAX_HEADER_BYTES];
            SAME(grain_write_film_grain_params(was, true, GRAIN_YUV420, LENT(to)).bits, bits);
            SAME(grain_write_film_grain_params(p, true, GRAIN_YUV420, LENT(same)).bits, bits);
            compare(__LINE__, "the same bytes", same, to, n);
            compare(__LINE__, "record as it was", p, was, sizeof *p);
        }
}

/* The padding and `predicted`. */
static bool unread(size_t at)
{
    return at == 1 || at == offsetof(grain_film_params, predicted) || at == 167;
}

/* Every byte of a record is looked at but the unread ones, and a flag is true where its byte isn't 0. Neither 2 nor 0xff is
 * a bool, so C itself reads no flag of these records. */
static void bytes(void)
{
    const size_t flags[] = {offsetof(grain_film_params, apply_grain), offsetof(grain_film_params, update_grain),
                            offsetof(grain_film_params, chroma_scaling_from_luma), offsetof(grain_film_params, overlap_flag),
                            offsetof(grain_film_params, clip_to_restricted_range)};
    grain_film_params p, from_luma = two_points;
    unsigned char *byte = memset(&p, 0, sizeof p);
    uint8_t to[GRAIN_MAX_HEADER_BYTES], same[GRAIN_MAX_HEADER_BYTES];
    for (size_t at = 0; at < sizeof p; at++) {
        byte[at] = 2;
        size_t bits = at == 0 ? 21 : unread(at) ? 1 : 0;
        grain_written w = grain_write_film_grain_params(&p, true, GRAIN_YUV420, LENT(to));
        SAME(w.refusal, bits > 0 ? GRAIN_ACCEPTED : GRAIN_HEADER_FIELD);
        SAME(w.bits, bits);
        byte[at] = 0;
    }

    from_luma.chroma_scaling_from_luma = true;
    const struct { grain_film_params params; size_t bits; } headers[] = {{{0}, 1}, {from_luma, 177}, {largest(), 1227}};
    for (size_t i = 0; i < sizeof headers / sizeof headers[0]; i++) {
        size_t bits = headers[i].bits, n = (bits + 7) / 8;
        SAME(grain_write_film_grain_params(&headers[i].params, true, GRAIN_YUV420, LENT(to)).bits, bits);
        memcpy(byte, &headers[i].params, sizeof p);
        for (size_t at = 0; at < sizeof p; at++)
            if (unread(at))
                byte[at] = 0xff;
        SAME(grain_write_film_grain_params(&p, true, GRAIN_YUV420, LENT(same)).bits, bits);
        compare(__LINE__, "the same bytes", same, to, n);
        for (size_t k = 0; k < sizeof flags / sizeof flags[0]; k++)
            byte[flags[k]] *= 2;
        memset(same, 0xff, sizeof same);
        SAME(grain_write_film_grain_params(&p, true, GRAIN_YUV420, LENT(same)).bits, bits);
        compare(__LINE__, "the same bytes", same, to, n);
    }
}

int main(void)
{
    written();
    refused();
    edges();
    records();
    bytes();
    return ended("headers.c");
}
