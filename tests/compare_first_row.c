/*
 * Looks whether the first row is known early, on random codes at every m and by both
 * transforms: once the stop position is past every frozen position, the first row's input
 * bits below it and its score are those at every stop position behind it, n among them.
 * Looks at the ceiling too: from one stop position to a later one it never rises, and where
 * it is above the first score, or the stop position is past every frozen position, it stays.
 * No word that the longest list finds is above it.
 *
 *   compare_first_row [seed [rounds]]
 *
 * Up to m = 5 each call is also compared with the paper decoder.
 */
#include "decoder_calls.h"
#include "decoder_check.h"
#include "decoder_tally.h"
#include "draw.h"
#include "pairs.h"
#include "reference_codec.h"

#include <stdio.h>
#include <stdlib.h>
#include <string.h>

enum { USUAL_ROUNDS = 20, PAPER_M = 5 };

/* What must be met at every m by each transform, or equal rows would show little: a stop
 * position 0 (no position is frozen), one between 0 and n, and n; for one between, a first
 * row that has a 1 behind it, and one that shares its score with the second; and a first row
 * that is another where the stop position is one less, at the last frozen position. Then a
 * ceiling above the first score past every frozen position, and at a stop position before it
 * a ceiling that falls up to n, and one above the first score already; a better first row of
 * the longest list; 256 pairs, or all that the map allows where n is too small for that; and
 * for a stop position between, a first row with a 1 at a frozen position. */
enum {
    NONE_FROZEN, BETWEEN, LAST_FROZEN, BITS_FOLLOW, TIES, ANOTHER_BEFORE, ABOVE, FALLS, STAYS, LONGER, FULL_PAIRS,
    SUM_OF_1, EVENTS
};

static const char *const event_name[EVENTS] = {"none frozen", "frozen up to a place", "last frozen", "bits follow",
                                               "ties", "another before", "ceiling above", "ceiling falls",
                                               "ceiling stays above", "a longer list helps", "full of pairs",
                                               "a sum of 1"};

static unsigned long events[DECODER_MAX_M + 1][2][EVENTS]; /* by the convolutional transform, by Arikan's */

static unsigned long *events_of(const struct decoder_call *c)
{
    return events[c->m][c->arikan != 0];
}

/* A call's first row, its ceiling, and whether the second row has the same score. */
struct row {
    uint32_t stop;
    int32_t score, ceiling;
    int ties;
    uint8_t input[DECODER_MAX_N], word[DECODER_MAX_N];
};

static struct row first_row(struct decoder_call *c, uint32_t stop)
{
    size_t n = (size_t)1 << c->m;
    struct row row = {.stop = stop};
    c->stop = stop;
    if (c->m <= PAPER_M)
        decoder_check(c, c->m);
    else
        decoder_check_served(c, c->m);
    struct decoder_outputs out = decoder_check_outputs();
    row.score = out.scores[0];
    row.ceiling = out.ceiling;
    row.ties = out.rows > 1 && out.scores[1] == out.scores[0];
    memcpy(row.input, out.inputs, n);
    memcpy(row.word, out.words, n);
    return row;
}

static void need(int ok, const struct decoder_call *c, const struct row *early, const struct row *late,
                 const char *what)
{
    char text[96];
    snprintf(text, sizeof text, "at stops %lu and %lu %s", (unsigned long)early->stop,
             (unsigned long)late->stop, what);
    if (!ok)
        decoder_check_fail(c, text);
}

/* That of early is the smaller stop position. All that is dropped behind it, and the first
 * row there, begins with a prefix that was live at it, and none of these scores above the
 * first. What was dropped before it counts for both. */
static void ceilings_must_agree(const struct decoder_call *c, const struct row *early, const struct row *late)
{
    need(late->ceiling <= early->ceiling, c, early, late, "the ceiling rises");
    need(early->ceiling == early->score || late->ceiling == early->ceiling, c, early, late,
         "the ceiling, above the first score, differs");
}

/* Both stop positions are past every frozen position, that of early the smaller. */
static void must_agree(const struct decoder_call *c, const struct row *early, const struct row *late)
{
    static const uint8_t zeros[DECODER_MAX_N];
    size_t n = (size_t)1 << c->m, p = early->stop;
    uint8_t word[DECODER_MAX_N];
    reference_transform(n, c->arikan, early->input, word);
    need(early->score == late->score, c, early, late, "the first row's scores differ");
    need(memcmp(early->input, late->input, p) == 0, c, early, late, "the first row's bits differ");
    need(memcmp(early->input + p, zeros, n - p) == 0, c, early, late, "bits behind the first stop are not 0");
    need(memcmp(early->word, word, n) == 0, c, early, late, "the first row's word is not the transform");
    need(early->ceiling == late->ceiling, c, early, late, "the ceilings differ");
}

/* ---- codes */

/* One past the last frozen position; 0 if none is. */
static uint32_t past_frozen(const struct decoder_call *c)
{
    uint32_t p = (uint32_t)1 << c->m;
    while (p > 0 && !reference_frozen(c->map, p - 1))
        p--;
    return p;
}

/* Often with clear positions from some place on, so that much of the list lies behind
 * the last frozen position; every second time with soft values that make ties, and with a
 * short list, so that short blocks drop prefixes too. */
static void draw_block(struct decoder_call *c, uint32_t m, unsigned long i)
{
    size_t n = (size_t)1 << m, cut = draw_below(2) ? draw_below(n + 1) : n;
    size_t soft = i % 2 ? SOFT_SMALL + draw_below(SOFT_KINDS - SOFT_SMALL) : draw_below(SOFT_SMALL);
    uint32_t list_size = (uint32_t)(1 + draw_below(draw_below(2) ? m - 1 : DECODER_MAX_LIST));
    decoder_call_good(c, m, (enum code_kind)(i % CODE_KINDS), (enum soft_kind)soft, list_size, 0);
    for (size_t at = cut; at < n; at++)
        c->map[at / 8] &= (uint8_t)~(1u << at % 8);
    decoder_call_pair(c, (enum pair_kind)draw_below(PAIR_KINDS), (enum soft_kind)soft);
}

static void count(const struct decoder_call *c, const struct row *early, const struct row *last)
{
    size_t n = (size_t)1 << c->m;
    int between = early->stop > 0 && early->stop < n;
    unsigned long *met = events_of(c);
    int ones = 0;
    for (size_t i = 0; i < n; i++)
        ones |= reference_frozen(c->map, i) && last->input[i];
    met[FULL_PAIRS] += (unsigned long)pairs_are_full(&c->pairs, c->map, n);
    met[SUM_OF_1] += between && ones;
    met[NONE_FROZEN] += early->stop == 0;
    met[BETWEEN] += (unsigned long)between;
    met[LAST_FROZEN] += early->stop == n;
    met[BITS_FOLLOW] += between && memcmp(early->input, last->input, n) != 0;
    met[TIES] += between && early->ties && last->ties;
    met[ABOVE] += between && early->ceiling > early->score;
}

/* Stop positions at the last frozen position and at or before it; early is past it. */
static void try_before(struct decoder_call *c, const struct row *early, const struct row *last)
{
    uint32_t p = early->stop;
    struct row before = first_row(c, p - 1), any = first_row(c, (uint32_t)draw_below(p));
    ceilings_must_agree(c, &any, &before);
    ceilings_must_agree(c, &before, early);
    ceilings_must_agree(c, &any, last);
    events_of(c)[ANOTHER_BEFORE] += before.score != last->score || memcmp(before.input, last->input, p - 1) != 0;
    events_of(c)[FALLS] += any.ceiling > last->ceiling;
    events_of(c)[STAYS] += any.ceiling > any.score;
}

/* At stop n the first row of any list is a word of the code; last is that of the list as
 * it was drawn. */
static void try_longer(struct decoder_call *c, const struct row *last)
{
    c->list_size = DECODER_MAX_LIST;
    decoder_call_trim(c);
    struct row longer = first_row(c, last->stop);
    need(longer.score <= last->ceiling, c, last, &longer, "a word of the code is above the ceiling");
    events_of(c)[LONGER] += longer.score > last->score;
}

static void try_block(struct decoder_call *c)
{
    uint32_t n = (uint32_t)1 << c->m, p = past_frozen(c);
    struct row early = first_row(c, p), on = first_row(c, p + (uint32_t)draw_below(n - p + 1)), last = first_row(c, n);
    must_agree(c, &early, &on);
    must_agree(c, &early, &last);
    must_agree(c, &on, &last);
    count(c, &early, &last);
    if (p > 0)
        try_before(c, &early, &last);
    try_longer(c, &last);
}

static int report(uint32_t m)
{
    int reached = 1;
    printf("m %2lu, by Arikan's transform in brackets:", (unsigned long)m);
    for (size_t event = 0; event < EVENTS; event++) {
        unsigned long x = events[m][0][event], y = events[m][1][event];
        printf("%s %s %lu (%lu)", event == 0 ? "" : ",", event_name[event], x + y, y);
        reached &= x > 0 && y > 0;
    }
    printf("%s\n", reached ? "" : "  NOT ALL REACHED");
    return reached;
}

int main(int argc, char **argv)
{
    unsigned long seed = argc > 1 ? strtoul(argv[1], NULL, 10) : 1;
    unsigned long rounds = argc > 2 ? strtoul(argv[2], NULL, 10) : USUAL_ROUNDS;
    int reached = 1;
    draw_seed(seed);
    decoder_check_open("compare_first_row", seed);
    for (uint32_t m = DECODER_MIN_M; m <= DECODER_MAX_M; m++) {
        struct decoder_call c;
        for (unsigned long i = 0; i < rounds * (m == 2 ? 150 : m == 3 ? 60 : m <= 5 ? 25 : m <= 8 ? 10 : 4); i++) {
            draw_block(&c, m, i);
            try_block(&c);
        }
        reached &= report(m);
    }
    if (!reached) {
        printf("compare_first_row: FAILED: not all was reached (seed %lu)\n", seed);
        return 1;
    }
    printf("compare_first_row: first rows and ceilings agree over %lu calls, %lu of them by Arikan's transform "
           "(seed %lu)\n", decoder_tally_calls(), decoder_tally_arikan_calls(), seed);
    return 0;
}
