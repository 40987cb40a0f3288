#include "codec_pairs.h"

#include "codec_check.h"
#include "draw.h"
#include "reference_codec.h"

#include <string.h>

/* Pairs for c's m and map, of which it is known whether they are good. Without them the call
 * would be served. */
static void try_bytes_of_pairs(struct call *c, enum call_kind kind, const uint8_t *bytes, size_t len, int good)
{
    call_pair(c, PAIRS_NONE);
    if (!good)
        call_fill(c, kind);
    memcpy(c->pairs.bytes, bytes, len);
    c->pairs.len = len;
    if (good)
        call_fill(c, kind);
    check_as(c, c->m, good ? 0 : 15);
}

static void try_pair(struct call *c, enum call_kind kind, size_t f, size_t e)
{
    const uint8_t bytes[4] = {(uint8_t)f, (uint8_t)(f / 256), (uint8_t)e, (uint8_t)(e / 256)};
    try_bytes_of_pairs(c, kind, bytes, 4, f < (size_t)1 << c->m && reference_frozen(c->map, f) && e < f);
}

/* For n = 4 every pair of every code with this transform, and every two pairs of the code that
 * has all frozen but position 0; numbers go on past n. */
static void try_pairs_of_4(enum call_kind kind, int arikan)
{
    struct call c;
    call_freeze(&c, 2, FROZEN_NONE);
    c.arikan = draw_flag(arikan);
    for (unsigned i = 0; i < 16 * 36; i++) {
        c.map[0] = (uint8_t)(i / 36);
        try_pair(&c, kind, i % 36 / 6, i % 6);
    }
    c.map[0] = 0x0e;
    for (unsigned i = 0; i < 625; i++) {
        uint8_t f[2] = {i % 5, i / 25 % 5}, e[2] = {i / 5 % 5, (uint8_t)(i / 125)};
        const uint8_t bytes[8] = {f[0], 0, e[0], 0, f[1], 0, e[1], 0};
        int good = f[0] < 4 && f[1] < 4 && e[0] < f[0] && e[1] < f[1];
        try_bytes_of_pairs(&c, kind, bytes, 8, good && (f[0] < f[1] || (f[0] == f[1] && e[0] < e[1])));
    }
}

/* A map that allows more than 256 pairs where n is large enough. */
static void freeze_many(struct call *c, uint32_t m)
{
    do
        call_freeze(c, m, FROZEN_SOME);
    while (m >= 5 && pairs_allowed(c->map, (size_t)1 << m) <= PAIRS_MOST);
}

static void try_pair_faults(enum call_kind kind, uint32_t m)
{
    struct call c;
    for (int fault = 0; fault < PAIR_FAULTS; fault++) {
        do {
            freeze_many(&c, m);
            call_pair(&c, draw_below(2) ? PAIRS_FULL : PAIRS_FEW);
            call_fill(&c, kind);
        } while (!pairs_break(&c.pairs, c.map, (size_t)1 << m, (enum pair_fault)fault));
        check_as(&c, m, 15);
    }
}

void try_pairs(enum call_kind kind, uint32_t m, unsigned long rounds)
{
    struct call c;
    size_t n = (size_t)1 << m;
    for (int arikan = 0; m == 2 && arikan < 2; arikan++)
        try_pairs_of_4(kind, arikan);
    for (unsigned long round = 0; round < rounds; round++) {
        for (int pairs = 0; pairs < PAIR_KINDS; pairs++) {
            freeze_many(&c, m);
            call_pair(&c, (enum pair_kind)pairs);
            call_fill(&c, kind);
            check_as(&c, m, 0);
        }
        try_pair_faults(kind, m);
    }
    call_freeze(&c, m, FROZEN_SOME);
    for (size_t i = 0; i < n + 2; i += n <= 64 || i + 4 > n ? 1 : 1 + draw_below(16)) {
        c.arikan = draw_flag(draw_below(2) == 0);
        try_pair(&c, kind, i, i > 0 ? draw_below(i) : 0);
        try_pair(&c, kind, n - 1 - draw_below(2), i);
    }
}
