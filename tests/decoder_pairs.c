#include "decoder_pairs.h"

#include "decoder_check.h"
#include "draw.h"
#include "reference_codec.h"

#include <string.h>

/* The one pair (f, e), good or not. Without it the call would be served. */
static void try_pair(struct decoder_call *c, size_t f, size_t e)
{
    const uint8_t bytes[4] = {(uint8_t)f, (uint8_t)(f / 256), (uint8_t)e, (uint8_t)(e / 256)};
    int good = f < (size_t)1 << c->m && reference_frozen(c->map, f) && e < f;
    memcpy(c->pairs.bytes, bytes, 4);
    c->pairs.len = 4;
    decoder_check_as(c, c->m, good ? 0 : 15);
}

static void try_pairs_of_4(int arikan)
{
    struct decoder_call c;
    for (unsigned i = 0; i < 16 * 36; i++) {
        decoder_call_good(&c, 2, CODE_OPEN, SOFT_SMALL, 1 + i % 4, 4);
        c.arikan = draw_flag(arikan);
        c.map[0] = (uint8_t)(i / 36);
        try_pair(&c, i % 36 / 6, i % 6);
    }
}

/* A pair whose f is n - 1, any position, or one about the stop position. */
static void try_places(uint32_t m)
{
    size_t n = (size_t)1 << m;
    for (size_t i = 0; i < 12; i++) {
        struct decoder_call c;
        decoder_call_quick(&c, m);
        size_t about = c.stop > 0 ? c.stop - 1 + draw_below(3) : 0;
        size_t f = i % 3 == 0 ? n - 1 : i % 3 == 1 ? draw_below(n) : about;
        try_pair(&c, f, f > 0 && i % 4 ? draw_below(f) : f);
    }
}

/* At stop n most rules are met. */
static void try_kind(uint32_t m, enum pair_kind kind)
{
    struct decoder_call c;
    for (int any_stop = 0; any_stop < 2; any_stop++) {
        decoder_call_quick(&c, m);
        decoder_call_pair(&c, kind, (enum soft_kind)draw_below(SOFT_KINDS));
        if (!any_stop)
            c.stop = (uint32_t)1 << m;
        decoder_check_as(&c, m, 0);
    }
}

static void try_fault(uint32_t m, enum pair_fault fault)
{
    struct decoder_call c;
    do {
        decoder_call_quick(&c, m);
        decoder_call_pair(&c, draw_below(2) ? PAIRS_FULL : PAIRS_FEW, SOFT_SMALL);
    } while (!pairs_break(&c.pairs, c.map, (size_t)1 << m, fault));
    decoder_check_as(&c, m, 15);
}

void try_decoder_pairs(uint32_t m, unsigned long rounds)
{
    for (int arikan = 0; m == 2 && arikan < 2; arikan++)
        try_pairs_of_4(arikan);
    for (unsigned long round = 0; round <= rounds; round++) {
        for (int kind = 0; kind < PAIR_KINDS; kind++)
            try_kind(m, (enum pair_kind)kind);
        for (int fault = 0; fault < PAIR_FAULTS; fault++)
            try_fault(m, (enum pair_fault)fault);
        try_places(m);
    }
}
