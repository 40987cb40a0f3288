#include "codec_calls.h"

#include "draw.h"
#include "reference_codec.h"

#include <stdlib.h>

const uint32_t call_order[CALL_KINDS][9] = {
    [ENCODE] = {1, 2, 3, 15, 6, 11, 10},
    [EXTRACT] = {1, 2, 3, 15, 6, 11, 12, 10},
};

static size_t size_of(const struct call *c)
{
    return (size_t)1 << c->m;
}

/* ---- calls that are served */

static void set_frozen(struct call *c, size_t i, int frozen)
{
    uint8_t bit = (uint8_t)(1u << (i % 8));
    c->map[i / 8] = (uint8_t)(frozen ? c->map[i / 8] | bit : c->map[i / 8] & ~bit);
}

void call_freeze(struct call *c, uint32_t m, enum frozen frozen)
{
    c->m = m;
    c->arikan = draw_flag(draw_below(2) == 0);
    size_t n = size_of(c);
    c->map_len = (n + 7) / 8;
    draw_bytes(c->map, CALL_ROOM);
    for (size_t i = n; i < 8 * c->map_len; i++)
        set_frozen(c, i, 0);
    size_t share = 1 + draw_below(7); /* of eight positions, about so many are frozen */
    for (size_t i = 0; i < n; i++)
        set_frozen(c, i, frozen == FROZEN_ALL || (frozen == FROZEN_SOME && draw_below(8) < share));
    if (frozen == FROZEN_SOME) {
        size_t i = draw_below(n);
        set_frozen(c, i, 1);
        set_frozen(c, (i + 1 + draw_below(n - 1)) % n, 0);
    }
    call_pair(c, PAIRS_NONE);
}

void call_pair(struct call *c, enum pair_kind kind)
{
    pairs_draw(&c->pairs, c->map, size_of(c), kind);
}

size_t call_need(const struct call *c)
{
    return c->kind == ENCODE ? size_of(c) : reference_clear(c->map, size_of(c));
}

void call_fill(struct call *c, enum call_kind kind)
{
    size_t n = size_of(c);
    c->kind = kind;
    c->in_len = kind == ENCODE ? reference_clear(c->map, n) : n;
    draw_bytes(c->in, CALL_ROOM);
    for (size_t i = 0; i < CALL_ROOM; i++)
        c->in[i] &= 1;
    if (kind == EXTRACT) { /* the bits drawn are the payload of the word */
        uint8_t u[REFERENCE_MAX_N];
        reference_input(n, c->map, c->pairs.bytes, c->pairs.len, c->in, u);
        reference_transform(n, c->arikan, u, c->in);
    }
    size_t beyond[4] = {0, 1, draw_below(16), draw_below(2 * n)};
    c->out_len = call_need(c) + beyond[draw_below(4)];
    c->answer = 0;
}

void call_good(struct call *c, enum call_kind kind, uint32_t m, enum frozen frozen)
{
    call_freeze(c, m, frozen);
    call_pair(c, pairs_any_kind());
    call_fill(c, kind);
}

/* ---- faults, each of which says if this call can have it */

uint32_t call_bad_m(uint32_t m, size_t which)
{
    const uint32_t all[CALL_BAD_MS] = {
        0, 1, 11, 12, 15, 16, 31, 32, 33, 63, 64, 255, UINT32_MAX - 1, UINT32_MAX,
        m + 32, m + 64, m + 256, m + 65536, m + 0x80000000u, 11 + (uint32_t)draw_below(UINT32_MAX - 11u),
    };
    return all[which];
}

/* A length that is not right: often a neighbour of it. */
static size_t wrong_length(size_t right)
{
    size_t lengths[6] = {right - 1, right + 1, 0, 2 * right, right + 8, draw_below(CALL_ROOM / 2)};
    size_t len;
    do
        len = lengths[draw_below(6)];
    while (len == right || len > CALL_ROOM);
    return len;
}

static int set_bit_past_n(struct call *c)
{
    size_t n = size_of(c);
    if (n % 8 == 0)
        return 0;
    set_frozen(c, n + draw_below(8 * ((n + 7) / 8) - n), 1);
    return 1;
}

static int set_byte_above_1(struct call *c)
{
    if (c->in_len == 0)
        return 0;
    static const uint8_t values[6] = {2, 3, 128, 129, 254, 255};
    for (size_t times = draw_below(2) ? 1 : 1 + draw_below(8); times > 0; times--)
        c->in[draw_below(c->in_len)] = values[draw_below(6)];
    return 1;
}

/* Adds to the word what the input u contributes. */
static void add_input(struct call *c, const uint8_t *u)
{
    size_t n = size_of(c);
    uint8_t part[REFERENCE_MAX_N];
    reference_transform(n, c->arikan, u, part);
    for (size_t j = 0; j < n; j++)
        c->in[j] ^= part[j];
}

void call_flip_input(struct call *c, size_t i)
{
    uint8_t unit[REFERENCE_MAX_N] = {0};
    unit[i] = 1;
    add_input(c, unit);
}

int call_is_bound(const struct call *c, size_t i)
{
    int bound = reference_frozen(c->map, i);
    for (size_t j = 0; j < pairs_count(&c->pairs); j++)
        bound |= reference_pair_at(c->pairs.bytes, j).e == i;
    return bound;
}

/* Changes one bit of the input that a rule binds, or about half of the frozen ones: the
 * first of these no longer is what the bits before it give. */
static int leave_code(struct call *c)
{
    uint8_t u[REFERENCE_MAX_N] = {0};
    size_t n = size_of(c), first = draw_below(n), most = draw_below(2) ? 1 : n, set = 0;
    for (size_t i = 0; i < n; i++) {
        size_t at = (first + i) % n;
        int binds = most == 1 ? call_is_bound(c, at) : reference_frozen(c->map, at);
        if (binds && (set == 0 || (set < most && draw_below(2)))) {
            u[at] = 1;
            set++;
        }
        if (set == most)
            break;
    }
    add_input(c, u);
    return set > 0;
}

static int shorten_output(struct call *c)
{
    size_t need = call_need(c);
    if (need == 0)
        return 0;
    size_t lengths[3] = {need - 1, 0, draw_below(need)};
    c->out_len = lengths[draw_below(3)];
    return 1;
}

static int spoil(struct call *c, uint32_t refusal)
{
    switch (refusal) {
    case 1:
        c->m = call_bad_m(c->m, draw_below(CALL_BAD_MS));
        return 1;
    case 2:
        c->map_len = wrong_length(c->map_len);
        return 1;
    case 3:
        return set_bit_past_n(c);
    case 6:
        c->in_len = wrong_length(c->in_len);
        return 1;
    case 10:
        return shorten_output(c);
    case 11:
        return set_byte_above_1(c);
    case 12:
        return leave_code(c);
    case 15:
        pairs_break_somehow(&c->pairs, c->map, size_of(c), PART_OF_A_PAIR);
        return 1;
    default:
        abort();
    }
}

void call_spoil(struct call *c, unsigned faults)
{
    /* From the last refusal to the first: what a fault is measured by (m, then the
     * map, then the pairs, then the input's length) is spoiled only after it, and the
     * answer set last is the first one in the order. */
    const uint32_t *order = call_order[c->kind];
    size_t j = 0;
    while (order[j] != 0)
        j++;
    while (j > 0) {
        j--;
        if (faults >> j & 1 && spoil(c, order[j]))
            c->answer = order[j];
    }
}
