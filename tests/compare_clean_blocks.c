/*
 * Decodes clean blocks: soft values that are not 0 and have the signs of a code word. At every
 * m, by both transforms, with and without pairs and with every list size the first row at stop n
 * is the payload's input and word, its score and the ceiling are the sum of the magnitudes, and
 * the extractor gives the payload back.
 *
 *   compare_clean_blocks [seed [rounds]]
 */
#include "caldurrex.h"
#include "decoder_calls.h"
#include "decoder_check.h"
#include "decoder_tally.h"
#include "draw.h"
#include "pairs.h"
#include "reference_codec.h"

#include <stdio.h>
#include <stdlib.h>
#include <string.h>

enum { USUAL_ROUNDS = 3, MAX_N = DECODER_MAX_N };

/* Magnitudes: any; all 1; 1 to 3, so that scores tie often; 2,047 and full scale alone. */
enum magnitudes { ANY, ALL_1, SMALL, ENDS, MAGNITUDES };

/* What must be met at every m by each transform, with pairs and without, beside every list size:
 * -2,048, magnitudes of 1 and of 2,047, and a list that drops prefixes. */
enum { FULL_SCALE, LEAST, MOST, DROPS, EVENTS };

static const char *const event_name[EVENTS] = {"-2,048", "1", "2,047", "prefixes dropped"};

struct count {
    unsigned long calls, list_sizes[DECODER_MAX_LIST + 1], events[EVENTS];
};
static struct count counts[DECODER_MAX_M + 1][2][2]; /* by Arikan's transform or not, with pairs or not */

/* ---- blocks */

static void draw_code(struct decoder_call *c, uint32_t m, int arikan, int with_pairs, uint32_t list_size)
{
    uint32_t n = (uint32_t)1 << m;
    do {
        decoder_call_good(c, m, (enum code_kind)draw_below(CODE_KINDS), SOFT_ZERO, list_size, n);
        c->arikan = draw_flag(arikan);
        pairs_draw(&c->pairs, c->map, n, with_pairs ? (enum pair_kind)(1 + draw_below(PAIR_KINDS - 1)) : PAIRS_NONE);
    } while (with_pairs && c->pairs.len == 0);
}

static int16_t draw_magnitude(enum magnitudes kind)
{
    const int16_t all[MAGNITUDES] = {(int16_t)(1 + draw_below(2047)), 1, (int16_t)(1 + draw_below(3)), 2047};
    return all[kind];
}

/* The word's signs; a negative value is full scale now and then. */
static void draw_soft(struct decoder_call *c, const uint8_t *word, enum magnitudes kind)
{
    for (size_t i = 0; i < c->soft_len; i++) {
        int16_t magnitude = draw_magnitude(kind);
        int full_scale = kind == ENDS ? draw_below(2) == 0 : kind == ANY && draw_below(16) == 0;
        c->soft[i] = (int16_t)(!word[i] ? magnitude : full_scale ? -2048 : -magnitude);
    }
}

static int32_t sum_of_magnitudes(const struct decoder_call *c)
{
    int32_t sum = 0;
    for (size_t i = 0; i < c->soft_len; i++)
        sum += c->soft[i] == -2048 ? 2047 : abs(c->soft[i]);
    return sum;
}

static void count(const struct decoder_call *c, struct count *met)
{
    int seen[EVENTS] = {[DROPS] = decoder_drops(c)};
    for (size_t i = 0; i < c->soft_len; i++) {
        seen[FULL_SCALE] |= c->soft[i] == -2048;
        seen[LEAST] |= abs(c->soft[i]) == 1;
        seen[MOST] |= abs(c->soft[i]) == 2047;
    }
    met->calls++;
    met->list_sizes[c->list_size]++;
    for (size_t event = 0; event < EVENTS; event++)
        met->events[event] += (unsigned long)seen[event];
}

/* ---- judging */

static void need(int ok, const struct decoder_call *c, const char *what)
{
    if (!ok)
        decoder_check_fail(c, what);
}

static void try_block(struct decoder_call *c, enum magnitudes kind)
{
    size_t n = (size_t)1 << c->m, k = reference_clear(c->map, n);
    uint8_t payload[MAX_N], input[MAX_N], word[MAX_N], given[MAX_N];
    for (size_t i = 0; i < k; i++)
        payload[i] = (uint8_t)draw_below(2);
    reference_input(n, c->map, c->pairs.bytes, c->pairs.len, payload, input);
    uint32_t refusal = caldurrex_encode(c->m, c->arikan, c->map, c->map_len, c->pairs.bytes, c->pairs.len, payload, k,
                                        word, n);
    need(refusal == 0, c, "the encoder refuses the payload");
    draw_soft(c, word, kind);
    decoder_check_served(c, c->m);
    struct decoder_outputs out = decoder_check_outputs();
    int32_t sum = sum_of_magnitudes(c);
    need(memcmp(out.inputs, input, n) == 0, c, "the first row's input is not the payload's");
    need(memcmp(out.words, word, n) == 0, c, "the first row's word is not the payload's");
    need(out.scores[0] == sum, c, "the first score is not the sum of the magnitudes");
    need(out.ceiling == sum, c, "the ceiling is not the sum of the magnitudes");
    need(out.rows == 1 || out.scores[1] < sum, c, "the second row scores as high as the first");
    refusal = caldurrex_extract(c->m, c->arikan, c->map, c->map_len, c->pairs.bytes, c->pairs.len, out.words, n, given,
                                k);
    need(refusal == 0 && memcmp(given, payload, k) == 0, c, "the extractor does not give the payload back");
    count(c, &counts[c->m][c->arikan != 0][c->pairs.len > 0]);
}

/* ---- the report */

static int report(uint32_t m)
{
    struct count sum = {0};
    int reached = 1;
    for (size_t which = 0; which < 4; which++) {
        const struct count *met = &counts[m][which / 2][which % 2];
        sum.calls += met->calls;
        for (size_t l = 1; l <= DECODER_MAX_LIST; l++)
            reached &= met->list_sizes[l] > 0;
        for (size_t event = 0; event < EVENTS; event++) {
            sum.events[event] += met->events[event];
            reached &= met->events[event] > 0;
        }
    }
    printf("m %2lu: %lu blocks; with", (unsigned long)m, sum.calls);
    for (size_t event = 0; event < EVENTS; event++)
        printf("%s %s: %lu", event == 0 ? "" : ",", event_name[event], sum.events[event]);
    printf("%s\n", reached ? "" : "  NOT ALL REACHED");
    return reached;
}

int main(int argc, char **argv)
{
    unsigned long seed = argc > 1 ? strtoul(argv[1], NULL, 10) : 1;
    unsigned long rounds = argc > 2 ? strtoul(argv[2], NULL, 10) : USUAL_ROUNDS;
    int reached = 1;
    draw_seed(seed);
    decoder_check_open("compare_clean_blocks", seed);
    for (uint32_t m = DECODER_MIN_M; m <= DECODER_MAX_M; m++) {
        struct decoder_call c;
        for (unsigned long i = 0; i < rounds * 4 * DECODER_MAX_LIST * (m < 7 ? 4 : 1); i++) {
            draw_code(&c, m, i / 2 % 2 == 1, i % 2 == 1, 1 + (uint32_t)(i / 4 % DECODER_MAX_LIST));
            try_block(&c, (enum magnitudes)draw_below(MAGNITUDES));
        }
        reached &= report(m);
    }
    if (!reached) {
        printf("compare_clean_blocks: FAILED: not all was reached (seed %lu)\n", seed);
        return 1;
    }
    printf("compare_clean_blocks: the payload comes first in %lu blocks, %lu of them by Arikan's transform "
           "(seed %lu)\n", decoder_tally_calls(), decoder_tally_arikan_calls(), seed);
    return 0;
}
