/*
 * Checks the decoder that the library is compared with, for each of both transforms: its
 * scores against plain enumeration of all completions, its lists and ceilings against lists
 * kept by such scores, and its ceilings against every word of the code. Checks, too, that
 * the encoder and the extractor that the library is compared with know the same words.
 *
 *   check_paper_decoder [seed]
 */
#include "check_paper_scores.h"
#include "draw.h"
#include "enumeration.h"
#include "paper_decoder.h"
#include "reference_codec.h"

#include <stdio.h>
#include <stdlib.h>
#include <string.h>

static unsigned long lists_checked, words_checked;

/* A soft value held within +-2,047. */
static int16_t held(int16_t soft)
{
    return (int16_t)(soft > 2047 ? 2047 : soft < -2047 ? -2047 : soft);
}

/* ---- ceilings and sums */

/* What must be met, or equal lists and ceilings would show little: a ceiling above the first
 * score; one equal to it where lower scores were dropped, and this at stop n; one above it
 * that no score dropped at the last clear position reaches; one above it that the lowest
 * scores dropped at each position do not reach; a row with a 1 at a frozen position, and
 * there a 0 in another row; words outside the code. */
enum { ABOVE, EQUAL, BEST_WORD, EARLIER, BESIDE_LOWER, SUM_OF_1, SUMS_DIFFER, OUTSIDE, EVENTS };

static const char *const event_name[EVENTS] = {"ceilings above the first score", "equal to it with lower ones dropped",
                                               "so at stop n", "from before the last clear position",
                                               "with lower ones dropped beside it", "rows with a sum of 1",
                                               "rows with different sums", "words outside the code"};
static unsigned long events[2][EVENTS]; /* of the convolutional transform, and of Arikan's */

/* The highest score dropped from position first on, below stop; INT32_MIN if none was. */
static int32_t highest_dropped(const struct step *steps, size_t first, size_t stop)
{
    int32_t most = INT32_MIN;
    for (size_t at = first; at < stop; at++)
        for (size_t x = steps[at + 1].live; x < steps[at + 1].count; x++)
            most = larger(most, steps[at + 1].child[x].score);
    return most;
}

static void count_ceiling(const struct step *steps, const struct enumerated_code *code, size_t stop)
{
    int32_t score = steps[stop].child[0].score, dropped = highest_dropped(steps, 0, stop), lowest = INT32_MIN;
    size_t last = stop; /* one past the last clear position */
    while (last > 0 && code->frozen[last - 1])
        last--;
    for (size_t p = 1; p <= stop; p++)
        if (steps[p].count > steps[p].live)
            lowest = larger(lowest, steps[p].child[steps[p].count - 1].score);
    int above = dropped > score, equal = dropped != INT32_MIN && dropped < score;
    unsigned long *met = events[code->arikan];
    met[ABOVE] += (unsigned long)above;
    met[EQUAL] += (unsigned long)equal;
    met[BEST_WORD] += equal && stop == code->n;
    met[EARLIER] += above && highest_dropped(steps, last - 1, stop) < dropped;
    met[BESIDE_LOWER] += above && lowest < dropped;
}

/* The bits of the live rows at the last position, where it is frozen. */
static void count_sums(const struct step *steps, const struct enumerated_code *code, size_t stop)
{
    size_t met[2] = {0, 0};
    for (size_t r = 0; stop > 0 && code->frozen[stop - 1] && r < steps[stop].live; r++)
        met[steps[stop].child[r].prefix % 2]++;
    events[code->arikan][SUM_OF_1] += met[1] > 0;
    events[code->arikan][SUMS_DIFFER] += met[0] > 0 && met[1] > 0;
}

/* ---- blocks, each decoded to every stop position */

/* The code twice: as tables, and as a call takes it. */
struct block {
    uint32_t m;
    uint8_t arikan;
    size_t n, l;
    struct enumerated_code code;
    uint8_t map[ENUMERATED_MAX_N / 8], pairs[2 * ENUMERATED_MAX_N * ENUMERATED_MAX_N];
    size_t pairs_len;
    int16_t soft[ENUMERATED_MAX_N], taken[ENUMERATED_MAX_N];
    int32_t best; /* of its code */
};

/* About `follow` of eight positions below a frozen one are its e. */
static void draw_code(struct block *b)
{
    size_t share = draw_below(9), follow = draw_below(2) ? draw_below(9) : 0;
    b->code.n = b->n;
    for (size_t i = 0; i < b->n; i++) {
        b->code.frozen[i] = draw_below(8) < share;
        b->map[i / 8] |= (uint8_t)(b->code.frozen[i] << (i % 8));
        for (size_t j = 0; b->code.frozen[i] && j < i; j++) {
            if (draw_below(8) >= follow)
                continue;
            b->code.follows[i][j] = 1;
            b->pairs[b->pairs_len] = (uint8_t)i;
            b->pairs[b->pairs_len + 2] = (uint8_t)j;
            b->pairs_len += 4;
        }
    }
}

static void draw_block(struct block *b, uint32_t m, uint8_t arikan)
{
    *b = (struct block){.m = m, .n = (size_t)1 << m, .l = 1 + draw_below(draw_below(2) ? 4 : PAPER_MAX_LIST)};
    b->code.arikan = arikan;
    b->arikan = draw_flag(arikan);
    check_draw_soft(b->soft, b->n);
    for (size_t i = 0; i < b->n; i++) {
        if (draw_below(8) == 0)
            b->soft[i] = -2048;
        b->taken[i] = held(b->soft[i]);
    }
    draw_code(b);
    b->best = enumerated_best(&b->code, b->taken);
}

static void need(const struct block *b, int ok, const char *what, size_t len)
{
    check_need(ok, what, b->arikan, b->n, len);
}

static void check_list(const struct block *b, const struct step *steps, size_t stop)
{
    static uint32_t numbers[32 * ENUMERATED_MAX_N * PAPER_MAX_LIST];
    static uint8_t bytes[(4 * ENUMERATED_MAX_N + 256) * PAPER_MAX_LIST];
    uint8_t inputs[ENUMERATED_MAX_N * PAPER_MAX_LIST], words[ENUMERATED_MAX_N * PAPER_MAX_LIST];
    uint8_t u[ENUMERATED_MAX_N] = {0}, word[ENUMERATED_MAX_N];
    int32_t scores[PAPER_MAX_LIST];
    size_t n = b->n, l = b->l;
    struct paper_decoded answer =
        paper_decode(b->m, b->arikan, b->map, (n + 7) / 8, b->pairs, b->pairs_len, (uint32_t)l, (uint32_t)stop,
                     b->soft, n, numbers, 32 * n * l, bytes, (4 * n + 256) * l, inputs, n * l, words, n * l, scores, l);
    need(b, answer.refusal == 0 && answer.rows == steps[stop].live, "the row count", stop);
    for (size_t r = 0; r < answer.rows; r++) {
        bits_of(steps[stop].child[r].prefix, stop, u);
        reference_transform(n, b->arikan, u, word);
        need(b, memcmp(inputs + r * n, u, n) == 0, "an input row", stop);
        need(b, memcmp(words + r * n, word, n) == 0, "a code row", stop);
        need(b, scores[r] == steps[stop].child[r].score, "a row's score", stop);
    }
    int32_t ceiling = larger(steps[stop].child[0].score, highest_dropped(steps, 0, stop));
    need(b, answer.ceiling == ceiling, "the ceiling", stop);
    need(b, b->best <= ceiling, "a word of the code above the ceiling", stop);
    if (stop == n && ceiling == scores[0])
        need(b, paper_correlation(n, b->taken, words) == b->best, "a first row that is no best word", stop);
    lists_checked++;
}

/* Any input: its word is refused with 12 if it is outside the code; else the payload that is
 * extracted gives the word again. */
static void check_word(const struct block *b)
{
    uint8_t u[ENUMERATED_MAX_N], word[ENUMERATED_MAX_N], payload[ENUMERATED_MAX_N], again[ENUMERATED_MAX_N];
    size_t n = b->n, map_len = (n + 7) / 8, k = reference_clear(b->map, n);
    check_draw_bits(u, n);
    reference_transform(n, b->arikan, u, word);
    uint32_t refusal = reference_extract(b->m, b->arikan, b->map, map_len, b->pairs, b->pairs_len, word, n, payload, n);
    need(b, refusal == (enumerated_member(&b->code, u) ? 0 : 12), "the answer for a word", n);
    events[b->code.arikan][OUTSIDE] += refusal != 0;
    if (refusal != 0)
        check_draw_bits(payload, k);
    uint32_t encoded = reference_encode(b->m, b->arikan, b->map, map_len, b->pairs, b->pairs_len, payload, k, again, n);
    need(b, encoded == 0, "no word", n);
    need(b, refusal != 0 || memcmp(word, again, n) == 0, "the word of a payload", n);
    refusal = reference_extract(b->m, b->arikan, b->map, map_len, b->pairs, b->pairs_len, again, n, u, n);
    need(b, refusal == 0 && memcmp(u, payload, k) == 0, "the payload of a word", n);
    words_checked++;
}

static void check_block(uint32_t m, uint8_t arikan)
{
    struct step steps[ENUMERATED_MAX_N + 1];
    struct block b;
    draw_block(&b, m, arikan);
    enumerated_lists(&b.code, b.l, b.taken, steps);
    for (size_t stop = 0; stop <= b.n; stop++) {
        check_list(&b, steps, stop);
        count_ceiling(steps, &b.code, stop);
        count_sums(steps, &b.code, stop);
        check_word(&b);
    }
}

/* Taken apart down to length 1, the halves say of each place j that its bit is the sum of the
 * input bits at all places whose numbers, in binary, have a 1 wherever j has one. */
static void check_arikan_words(size_t n)
{
    uint8_t u[REFERENCE_MAX_N], word[REFERENCE_MAX_N];
    check_draw_bits(u, n);
    reference_transform(n, 1, u, word);
    for (size_t j = 0; j < n; j++) {
        unsigned sum = 0;
        for (size_t i = 0; i < n; i++)
            sum += (i & j) == j && u[i];
        check_need(word[j] == sum % 2, "a word", 1, n, n);
    }
}

/* The number of scores checked. */
static unsigned long check_transform(uint8_t arikan)
{
    unsigned long scores = check_paper_scores(arikan);
    for (int round = 0; round < 2000; round++) {
        check_block(2, arikan);
        check_block(3, arikan);
    }
    for (int round = 0; round < 10; round++)
        check_block(4, arikan);
    return scores;
}

static int report(uint8_t arikan)
{
    int reached = 1;
    printf("%s transform: ", arikan ? "Arikan's" : "convolutional");
    for (size_t event = 0; event < EVENTS; event++) {
        printf("%s%s %lu", event == 0 ? "" : ", ", event_name[event], events[arikan][event]);
        reached &= events[arikan][event] > 0;
    }
    printf("\n");
    return reached;
}

int main(int argc, char **argv)
{
    unsigned long seed = argc > 1 ? strtoul(argv[1], NULL, 10) : 1, scores[2];
    int reached = 1;
    printf("check_paper_decoder: seed %lu\n", seed);
    draw_seed(seed);
    for (size_t n = 1; n <= REFERENCE_MAX_N; n *= 2)
        check_arikan_words(n);
    for (uint8_t arikan = 0; arikan < 2; arikan++) {
        scores[arikan] = check_transform(arikan);
        reached &= report(arikan);
    }
    if (!reached) {
        printf("check_paper_decoder: FAILED: not all was met (seed %lu)\n", seed);
        return 1;
    }
    printf("check_paper_decoder: %lu scores, %lu of them by Arikan's transform, %lu lists and %lu words agree "
           "(seed %lu)\n", scores[0] + scores[1], scores[1], lists_checked, words_checked, seed);
    return 0;
}
