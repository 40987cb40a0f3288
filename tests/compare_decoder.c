/*
 * Compares the decoder of the library with the paper decoder, at every m and by both
 * transforms.
 *
 *   compare_decoder [seed [rounds]]
 *
 * A run with the same seed and rounds makes the same calls. Fewer rounds than usual
 * make a short run.
 */
#include "codec_calls.h"
#include "decoder_calls.h"
#include "decoder_check.h"
#include "decoder_examples.h"
#include "decoder_pairs.h"
#include "decoder_tally.h"
#include "draw.h"

#include <stdio.h>
#include <stdlib.h>

enum { USUAL_ROUNDS = 80 };

/* ---- both sides of every limit */

/* A quick call by this transform. */
static void quick_by(struct decoder_call *c, uint32_t m, int arikan)
{
    decoder_call_quick(c, m);
    c->arikan = draw_flag(arikan);
}

static void try_numbers(uint32_t m)
{
    struct decoder_call c;
    uint32_t n = (uint32_t)1 << m;
    for (size_t which = 0; which < CALL_BAD_MS; which++) {
        decoder_call_quick(&c, m);
        c.m = call_bad_m(m, which);
        decoder_check_as(&c, m, 1);
    }
    for (size_t which = 0; which < BAD_LIST_SIZES; which++) {
        decoder_call_quick(&c, m);
        c.list_size = decoder_bad_list_size(&c, which);
        decoder_check_as(&c, m, 4);
    }
    for (uint32_t l = 1; l <= 32; l += 31) {
        decoder_call_good(&c, m, CODE_FEW_CLEAR, SOFT_TIES, l, n);
        decoder_check_as(&c, m, 0);
        for (int arikan = 0; arikan < 2; arikan++) {
            decoder_call_good(&c, m, CODE_FEW_CLEAR, SOFT_CLEAN, l, n);
            decoder_call_transform(&c, arikan, SOFT_CLEAN);
            decoder_check_as(&c, m, 0);
        }
    }
    for (size_t which = 0; which < BAD_STOPS; which++) {
        decoder_call_quick(&c, m);
        c.stop = decoder_bad_stop(&c, which);
        decoder_check_as(&c, m, 5);
    }
    const uint32_t stops[6] = {0, 1, n / 2, n / 2 + 1, n - 1, n};
    for (size_t which = 0; which < 12; which++) {
        quick_by(&c, m, which % 2);
        c.stop = stops[which / 2];
        decoder_check_as(&c, m, 0);
    }
}

/* Every byte that can say which transform, for short blocks. */
static void try_flags(uint32_t m)
{
    struct decoder_call c;
    for (unsigned byte = 0; m <= 4 && byte < 256; byte++) {
        decoder_call_quick(&c, m);
        c.arikan = (uint8_t)byte;
        decoder_check_as(&c, m, 0);
    }
}

static void try_lengths(uint32_t m, int arikan)
{
    struct decoder_call c;
    for (size_t less = 0; less <= 2; less++) { /* one more, right, one less */
        quick_by(&c, m, arikan);
        c.map_len = c.map_len + 1 - less;
        decoder_check_as(&c, m, less == 1 ? 0 : 2);
        quick_by(&c, m, arikan);
        c.soft_len = c.soft_len + 1 - less;
        decoder_check_as(&c, m, less == 1 ? 0 : 6);
    }
    quick_by(&c, m, arikan);
    decoder_call_trim(&c);
    decoder_check_as(&c, m, 0);
    for (size_t which = 0; which < 5; which++) {
        static const uint32_t refusals[5] = {8, 9, 10, 10, 10};
        for (size_t beyond = 0; beyond < 3; beyond++) { /* one less, all less, one more */
            quick_by(&c, m, arikan);
            decoder_call_trim(&c);
            size_t *lens[5] = {&c.numbers_len, &c.bytes_len, &c.inputs_len, &c.words_len, &c.scores_len};
            *lens[which] = beyond == 0 ? *lens[which] - 1 : beyond == 1 ? 0 : *lens[which] + 1;
            decoder_check_as(&c, m, beyond == 2 ? 0 : refusals[which]);
        }
    }
}

/* A soft value out of range at every position; at some the values on both sides of the
 * limits, and the ends of 16 bits. */
static void try_soft_values(uint32_t m)
{
    struct decoder_call c;
    size_t n = (size_t)1 << m;
    for (size_t i = 0; i < n; i++) {
        decoder_call_quick(&c, m);
        c.soft[i] = decoder_bad_soft(i % BAD_SOFTS);
        decoder_check_as(&c, m, 7);
        if (n > 32 && i != 0 && i != n - 1 && draw_below(n) >= 4)
            continue;
        for (size_t which = 0; which < 7; which++) {
            static const int16_t values[7] = {-2048, -2047, 2047, -2049, 2048, -32768, 32767};
            decoder_call_quick(&c, m);
            c.soft[i] = values[which];
            decoder_check_as(&c, m, which < 3 ? 0 : 7);
        }
    }
}

static void try_maps_of_4(int arikan)
{
    for (unsigned bits = 0; bits < 256; bits++) {
        struct decoder_call c;
        quick_by(&c, 2, arikan);
        c.map[0] = (uint8_t)(bits % 16);
        decoder_call_pair(&c, pairs_any_kind(), SOFT_SMALL);
        c.map[0] = (uint8_t)bits;
        decoder_check_as(&c, 2, bits < 16 ? 0 : 3);
    }
}

/* Every set of faults; of long blocks, and in a short run, some of them. */
static void try_faults(uint32_t m, unsigned long rounds)
{
    unsigned step = rounds < USUAL_ROUNDS ? 45 : m > 6 ? 3 : 1;
    for (unsigned faults = m % step; faults < 1u << DECODER_REFUSALS; faults += step) {
        struct decoder_call c;
        decoder_call_quick(&c, m);
        decoder_call_spoil(&c, faults);
        decoder_check(&c, m);
    }
}

/* ---- random calls */

/* Every second time soft values that make ties. */
static enum soft_kind any_soft(void)
{
    return (enum soft_kind)(draw_below(2) ? draw_below(SOFT_SMALL) : SOFT_SMALL + draw_below(SOFT_KINDS - SOFT_SMALL));
}

/* n + 1 stop positions and a power of two of list sizes have no common divisor: in turn
 * they make every pair. The transform changes with each turn of the stop positions, and
 * once more with each turn of the pairs. */
static void try_short_blocks(uint32_t m, uint32_t list_sizes, unsigned long count)
{
    unsigned long stops = (1u << m) + 1;
    for (unsigned long i = 0; i < count; i++) {
        struct decoder_call c;
        enum soft_kind soft = any_soft();
        int arikan = (i / stops + i / (stops * list_sizes)) % 2 != 0;
        decoder_call_good(&c, m, (enum code_kind)draw_below(CODE_KINDS), soft, (uint32_t)(1 + i % list_sizes),
                          (uint32_t)(i % stops));
        decoder_call_transform(&c, arikan, soft);
        decoder_check(&c, m);
    }
}

static void try_middle_blocks(uint32_t m, unsigned long count)
{
    uint32_t n = (uint32_t)1 << m;
    for (unsigned long i = 0; i < count; i++) {
        struct decoder_call c;
        uint32_t stop = i % 3 == 0 ? n : (uint32_t)draw_below(n + 1);
        decoder_call_good(&c, m, (enum code_kind)draw_below(CODE_KINDS), any_soft(), (uint32_t)(1 + i % 32), stop);
        decoder_check(&c, m);
    }
}

/* Long blocks, chosen so that the paper decoder ends soon: most of the long lists stop
 * early or have few clear positions. */
static const struct long_block {
    uint32_t m, list_size, stop;
    enum code_kind code;
    enum pair_kind pairs;
    enum soft_kind soft;
} long_blocks[] = {
    {9, 1, 512, CODE_OPEN, PAIRS_NONE, SOFT_NOISY},     {9, 2, 512, CODE_MIXED, PAIRS_FULL, SOFT_TIES},
    {9, 3, 511, CODE_POLAR, PAIRS_STAR, SOFT_WIDE},     {9, 32, 40, CODE_OPEN, PAIRS_NONE, SOFT_UNITS},
    {9, 32, 24, CODE_OPEN, PAIRS_NONE, SOFT_ENDS},      {9, 32, 512, CODE_SHUT, PAIRS_FULL, SOFT_SMALL},
    {9, 4, 512, CODE_POLAR, PAIRS_MANY, SOFT_NOISY},    {9, 8, 512, CODE_POLAR, PAIRS_NONE, SOFT_ENDS},
    {9, 16, 300, CODE_POLAR, PAIRS_CHAIN, SOFT_TIES},   {9, 31, 200, CODE_POLAR, PAIRS_NONE, SOFT_NOISY},
    {9, 32, 512, CODE_POLAR, PAIRS_FULL, SOFT_NOISY},   {9, 5, 100, CODE_BACK, PAIRS_ENDS, SOFT_SMALL},
    {10, 1, 1024, CODE_OPEN, PAIRS_NONE, SOFT_WIDE},    {10, 1, 1024, CODE_POLAR, PAIRS_FULL, SOFT_TIES},
    {10, 2, 1024, CODE_POLAR, PAIRS_MANY, SOFT_NOISY},  {10, 32, 36, CODE_OPEN, PAIRS_NONE, SOFT_TIES},
    {10, 32, 20, CODE_OPEN, PAIRS_NONE, SOFT_ENDS},     {10, 32, 1024, CODE_SHUT, PAIRS_MANY, SOFT_ENDS},
    {10, 4, 1024, CODE_POLAR, PAIRS_NONE, SOFT_ENDS},   {10, 8, 600, CODE_POLAR, PAIRS_CHAIN, SOFT_TIES},
    {10, 7, 60, CODE_BACK, PAIRS_FULL, SOFT_SMALL},     {10, 32, 400, CODE_POLAR, PAIRS_NONE, SOFT_NOISY},
    {10, 24, 333, CODE_POLAR, PAIRS_MANY, SOFT_WIDE},   {10, 32, 1024, CODE_POLAR, PAIRS_FULL, SOFT_NOISY},
};

static void try_long_blocks(unsigned long rounds, int arikan)
{
    for (size_t i = 0; i < sizeof long_blocks / sizeof long_blocks[0]; i++) {
        const struct long_block *b = &long_blocks[i];
        if (rounds < USUAL_ROUNDS && i % 12 > 4)
            continue;
        struct decoder_call c;
        decoder_call_good(&c, b->m, b->code, b->soft, b->list_size, b->stop);
        c.arikan = draw_flag(arikan);
        decoder_call_pair(&c, b->pairs, b->soft);
        decoder_check(&c, b->m);
    }
}

static void try_all(unsigned long rounds)
{
    decoder_examples();
    try_maps_of_4(0);
    try_maps_of_4(1);
    for (uint32_t m = DECODER_MIN_M; m <= DECODER_MAX_M; m++) {
        try_numbers(m);
        try_flags(m);
        try_lengths(m, 0);
        try_lengths(m, 1);
        try_soft_values(m);
        try_decoder_pairs(m, rounds / 20);
        try_faults(m, rounds);
    }
    for (uint32_t m = 2; m <= 5; m++) {
        try_short_blocks(m, 32, 64 * rounds);
        try_short_blocks(m, 4, 16 * rounds); /* lists so short that short blocks drop too */
    }
    try_middle_blocks(6, 32 + 4 * rounds);
    try_middle_blocks(7, 8 + 5 * rounds / 4);
    try_middle_blocks(8, 4 + 3 * rounds / 5);
    try_long_blocks(rounds, 0);
    try_long_blocks(rounds, 1);
}

int main(int argc, char **argv)
{
    unsigned long seed = argc > 1 ? strtoul(argv[1], NULL, 10) : 1;
    unsigned long rounds = argc > 2 ? strtoul(argv[2], NULL, 10) : USUAL_ROUNDS;
    printf("compare_decoder: seed %lu, rounds %lu, each call made twice\n", seed, rounds);
    draw_seed(seed);
    decoder_check_open("compare_decoder", seed);
    try_all(rounds);
    if (!decoder_tally_report()) {
        printf("compare_decoder: FAILED: not all was reached (seed %lu)\n", seed);
        return 1;
    }
    printf("compare_decoder: %lu calls agree, %lu of them by Arikan's transform (seed %lu)\n", decoder_tally_calls(),
           decoder_tally_arikan_calls(), seed);
    return 0;
}
