#include "quantise_calls.h"

#include "codec_calls.h"
#include "draw.h"

#include <string.h>

const uint32_t quantise_order[QUANTISE_REFUSALS] = {1, 6, 10};

static size_t size_of(const struct quantise_call *c)
{
    return (size_t)1 << c->sizes_of;
}

/* ---- floats */

/* The bits of 0, the smallest normal float, 1/128, 32, 2^122, infinity and the first quiet NaN. */
static const uint32_t nothing = 0, normal = 0x00800000, half_step = 0x3c000000, past_end = 0x42000000,
                      far_past_end = 0x7c800000, infinity = 0x7f800000, quiet = 0x7fc00000;

static uint32_t bits_of(double exact)
{
    float part = (float)exact;
    uint32_t bits;
    memcpy(&bits, &part, sizeof bits);
    return bits;
}

static uint32_t with_sign(uint32_t bits, int negative)
{
    return bits ^ (negative ? 0x80000000u : 0);
}

/* The first, the last, or any from first to last. */
static uint32_t draw_between(uint32_t first, uint32_t last)
{
    const uint32_t all[3] = {first, last, first + (uint32_t)draw_below((size_t)(last - first) + 1)};
    return all[draw_below(3)];
}

/* (k + 1/2)/64 with a k up to 2,047 of this remainder by 2; every second time a small one. */
static uint32_t draw_half(size_t remainder)
{
    size_t k = 2 * draw_below(draw_below(2) ? 4 : 1024) + remainder;
    return bits_of(((double)k + 0.5) / 64);
}

static uint32_t draw_magnitude(enum float_kind kind)
{
    switch (kind) {
    case QUIET: return draw_between(quiet, UINT32_MAX >> 1);
    case SIGNALLING: return draw_between(infinity + 1, quiet - 1);
    case INFINITE: return infinity;
    case ZERO: return nothing;
    case SUBNORMAL: return draw_between(1, normal - 1);
    case FAR_PAST_END: return draw_between(far_past_end, infinity - 1);
    case PAST_END: return draw_between(past_end, far_past_end - 1);
    case HALF_OF_EVEN: return draw_half(0);
    case HALF_OF_ODD: return draw_half(1);
    case BELOW_HALF: return draw_half(draw_below(2)) - 1;
    case ABOVE_HALF: return draw_half(draw_below(2)) + 1;
    case STEP: return bits_of((double)(1 + draw_below(2047)) / 64);
    case SMALL: return draw_between(normal, half_step - 2);
    case USUAL: return bits_of(0.75) + (uint32_t)draw_below(bits_of(1.25) - bits_of(0.75));
    case OTHER: return draw_between(half_step + 2, past_end - 2);
    case END: return quantise_end(draw_below(ENDS), 0);
    default: return (uint32_t)draw();
    }
}

uint32_t quantise_float(enum float_kind kind, int negative)
{
    return with_sign(draw_magnitude(kind), negative);
}

uint32_t quantise_end(size_t which, int negative)
{
    uint32_t middle = bits_of((2046.5 + 0.5 * (double)(which / 3)) / 64);
    return with_sign(middle + (uint32_t)(which % 3) - 1, negative);
}

/* ---- calls that are served */

uint32_t quantise_bits(const struct quantise_call *c, size_t position)
{
    const uint8_t *at = c->samples + 4 * position;
    return at[0] | (uint32_t)at[1] << 8 | (uint32_t)at[2] << 16 | (uint32_t)at[3] << 24;
}

void quantise_set_bits(struct quantise_call *c, size_t position, uint32_t bits)
{
    for (size_t i = 0; i < 4; i++)
        c->samples[4 * position + i] = (uint8_t)(bits >> (8 * i));
}

/* Of the floats half, or one in 16, are of any kind; all others are of one. */
void quantise_call_good(struct quantise_call *c, uint32_t m)
{
    enum float_kind most = draw_below(2) ? USUAL : (enum float_kind)draw_below(FLOAT_KINDS);
    size_t one_in = draw_below(2) ? 2 : 16;
    c->m = c->sizes_of = m;
    c->samples_len = 4 * size_of(c);
    c->soft_len = size_of(c);
    c->faults = c->refusal = 0;
    for (size_t i = 0; i < size_of(c); i++) {
        enum float_kind kind = draw_below(one_in) > 0 ? most : (enum float_kind)draw_below(FLOAT_KINDS);
        quantise_set_bits(c, i, quantise_float(kind, draw_below(2) == 0));
    }
}

/* ---- lengths and faults */

void quantise_set_length(struct quantise_call *c, size_t len)
{
    if (len > c->samples_len)
        draw_bytes(c->samples + c->samples_len, len - c->samples_len);
    c->samples_len = len;
}

/* With 65,536 more the two low bytes of a length are those of the right one. */
size_t quantise_bad_samples(const struct quantise_call *c, size_t which)
{
    size_t n = size_of(c);
    const size_t all[BAD_SAMPLES] = {
        0, n, 2 * n, 4 * n - 8, 4 * n - 4, 4 * n - 1, 4 * n + 1, 4 * n + 4, 4 * n + 8, 8 * n, 4 * n + 65536,
        draw_below(4 * n), 4 * n + 1 + draw_below(4 * n),
    };
    return all[which];
}

/* The two low bytes of the last length say less than n. */
size_t quantise_output(const struct quantise_call *c, size_t which)
{
    size_t n = size_of(c);
    const size_t all[OUTPUTS] = {
        0, n - 1, n / 2, draw_below(n),
        n, n + 1, 2 * n, n + 65536, n + draw_below(16), n + draw_below(n), 65536 + draw_below(n),
    };
    return all[which];
}

void quantise_call_spoil(struct quantise_call *c, unsigned faults)
{
    /* From the last refusal to the first: the refusal set last is the first one in the order. */
    c->faults = faults;
    if (faults & 4) {
        c->soft_len = quantise_output(c, draw_below(SHORT_OUTPUTS));
        c->refusal = 10;
    }
    if (faults & 2) {
        quantise_set_length(c, quantise_bad_samples(c, draw_below(BAD_SAMPLES)));
        c->refusal = 6;
    }
    if (faults & 1) {
        c->m = call_bad_m(c->m, draw_below(CALL_BAD_MS));
        c->refusal = 1;
    }
}
