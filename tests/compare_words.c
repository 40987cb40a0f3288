/*
 * Compares the library's list of every code word at a mark or above with that of the reference,
 * at every m and by both transforms; where k is above 12, with the number of words by another
 * method, and each row by itself.
 *
 *   compare_words [seed [rounds]]
 *
 * A run with the same seed and rounds makes the same calls. Fewer rounds than usual make a short
 * run.
 */
#include "draw.h"
#include "reference_words.h"
#include "words_calls.h"
#include "words_check.h"
#include "words_examples.h"
#include "words_gray.h"
#include "words_large.h"
#include "words_limits.h"
#include "words_tally.h"

#include <stdio.h>
#include <stdlib.h>
#include <string.h>

enum { USUAL_ROUNDS = 40, SHORT_K = 15 };

/* The correlations of all words of a call, which both ways to them give alike. */
static const int32_t *correlations_of(const struct words_call *c)
{
    const struct decoder_call *block = &c->block;
    const int32_t *one = gray_correlations(c);
    const int32_t *other = reference_correlations(block->m, block->arikan, block->map, block->pairs.bytes,
                                                  block->pairs.len, block->soft);
    if (memcmp(one, other, sizeof *one << words_clear(c)) != 0)
        words_check_fail(c, "the correlations by a Gray code are not those of the reference");
    return one;
}

/* The call with this room. Whether it must be refused with 19 is known before the reference is
 * asked. */
static void check_room(struct words_call *c, const int32_t *correlations, size_t all, size_t places)
{
    words_call_room(c, places);
    words_call_lengthen(c);
    words_check_as(c, words_count(correlations, all, c->mark) > places ? 19 : 0);
}

/* ---- every mark and every room of codes with n = 4 */

static void try_all_of_4(uint8_t map, int arikan)
{
    struct words_call c;
    words_call_code(&c, 2, arikan, 0, CLEAR_ANY, PAIRS_NONE);
    c.block.map[0] = map;
    decoder_call_pair(&c.block, pairs_any_kind(), draw_below(2) ? SOFT_TIES : SOFT_UNITS);
    const int32_t *correlations = correlations_of(&c);
    size_t all = (size_t)1 << words_clear(&c);
    int32_t most = words_magnitudes(&c);
    for (c.mark = -most - 1; c.mark <= most + 1; c.mark++)
        for (size_t places = 0; places <= all + 1; places++)
            check_room(&c, correlations, all, places);
}

/* ---- random codes */

/* Every second time soft values that make ties. */
static enum soft_kind any_soft(void)
{
    return (enum soft_kind)(draw_below(2) ? draw_below(SOFT_SMALL) : SOFT_SMALL + draw_below(SOFT_KINDS - SOFT_SMALL));
}

/* Where there are many long words, few pairs: the reference looks at each of them for each bit. */
static enum pair_kind light_pairs(uint32_t m, size_t k)
{
    return m + k < 17 ? pairs_any_kind() : draw_below(2) ? PAIRS_NONE : PAIRS_FEW;
}

/* The kinds of marks and of rooms have no common divisor: in turn they make every pair. */
static void try_code(uint32_t m, size_t k, int arikan, unsigned long calls)
{
    struct words_call c;
    size_t all = (size_t)1 << k;
    words_call_code(&c, m, arikan, k, (enum clear_kind)draw_below(CLEAR_KINDS), light_pairs(m, k));
    size_t first = draw_below(MARK_KINDS * ROOM_KINDS);
    for (size_t turn = first; turn < first + calls; turn++) {
        words_call_soft(&c, any_soft());
        const int32_t *correlations = correlations_of(&c);
        c.mark = words_mark(&c, (enum mark_kind)(turn % MARK_KINDS), correlations, all);
        size_t count = words_count(correlations, all, c.mark);
        check_room(&c, correlations, all, words_room((enum room_kind)(turn % ROOM_KINDS), count));
    }
}

/* Codes with every k that the reference goes through; where there are many long words, and in a
 * short run, fewer calls. */
static void try_codes(uint32_t m, int arikan, unsigned long rounds)
{
    for (size_t k = 0; k <= REFERENCE_LISTED_K && k <= (size_t)1 << m; k++) {
        unsigned long codes = m + k < 11 ? 1 + rounds / 8 : m + k < 16 ? 1 + rounds / 20 : 1;
        unsigned long calls = m + k < 16 ? 2 * MARK_KINDS : m + k < 20 ? MARK_KINDS : MARK_KINDS / 2;
        if (rounds < USUAL_ROUNDS)
            calls = m + k < 16 ? MARK_KINDS : MARK_KINDS / 2;
        for (; codes > 0; codes--)
            try_code(m, k, arikan, calls);
    }
}

static void try_large(size_t most_k)
{
    for (uint32_t m = 4; m <= DECODER_MAX_M; m++)
        for (size_t k = REFERENCE_LISTED_K + 1; k <= most_k && k <= (size_t)1 << m; k++)
            for (int arikan = 0; arikan < 2; arikan++)
                words_large(m, k, arikan);
    if (most_k == WORDS_MAX_K)
        words_largest();
}

static void try_all(unsigned long rounds, size_t most_k)
{
    words_examples();
    words_above_32_bits();
    for (unsigned map = 0; map < 16; map++)
        for (int arikan = 0; arikan < 2; arikan++)
            try_all_of_4((uint8_t)map, arikan);
    for (uint32_t m = DECODER_MIN_M; m <= DECODER_MAX_M; m++) {
        words_limits(m, rounds < USUAL_ROUNDS ? 45 : m > 6 ? 7 : 1);
        for (int arikan = 0; arikan < 2; arikan++)
            try_codes(m, arikan, rounds);
    }
    try_large(most_k);
}

int main(int argc, char **argv)
{
    unsigned long seed = argc > 1 ? strtoul(argv[1], NULL, 10) : 1;
    unsigned long rounds = argc > 2 ? strtoul(argv[2], NULL, 10) : USUAL_ROUNDS;
    size_t most_k = rounds < USUAL_ROUNDS ? SHORT_K : WORDS_MAX_K;
    printf("compare_words: seed %lu, rounds %lu, each call up to k = %d made twice\n", seed, rounds,
           REFERENCE_LISTED_K);
    draw_seed(seed);
    words_check_open(seed);
    try_all(rounds, most_k);
    if (!words_tally_report(most_k)) {
        printf("compare_words: FAILED: not all was reached (seed %lu)\n", seed);
        return 1;
    }
    struct tally_totals t = words_tally_totals();
    printf("compare_words: %lu calls agree, %lu accepted and %lu refused, %lu of them by Arikan's transform "
           "(seed %lu)\n",
           t.accepted + t.refused, t.accepted, t.refused, t.arikan, seed);
    return 0;
}
