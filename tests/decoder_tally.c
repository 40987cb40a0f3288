#include "decoder_tally.h"

#include "reference_codec.h"

#include <stdio.h>

enum { ALL_STOPS_M = 5 }; /* up to this m each stop position counts by itself */
enum { NONE_FROZEN, SOME_FROZEN, ALL_FROZEN, CUTS, TIES, EVENTS };

static const char *const event_name[EVENTS] = {"no position frozen", "some positions frozen", "all positions frozen",
                                               "prefixes cut", "equal scores"};

/* Ceilings. Where prefixes were dropped: above the first score; equal to it, at a stop
 * position below n and at n, where the first row is thus known as a best word. And those
 * of calls that dropped none. */
enum { ABOVE, EQUAL, EQUAL_AT_N, NONE_DROPPED, CEILINGS };

static const char *const ceiling_name[CEILINGS] = {"above", "equal", "best", "whole"};

/* Calls without pairs, with some, with as many as there can be; with a row that has a 1 at a
 * frozen position, and with rows that differ at one. */
enum { NO_PAIRS, SOME_PAIRS, FULL_PAIRS, SUM_OF_1, SUMS_DIFFER, PAIR_EVENTS };

static const char *const pair_name[PAIR_EVENTS] = {"none", "pairs", "full", "sums", "apart"};

/* The ranges of m for which list sizes and events are counted. */
static const struct range {
    uint32_t first, last;
} ranges[] = {{2, 5}, {6, 8}, {9, 10}};
enum { RANGES = sizeof ranges / sizeof ranges[0] };

/* What came by one transform. */
struct count {
    unsigned long calls;
    unsigned long answers[DECODER_MAX_M + 1][DECODER_ANSWERS]; /* place 0: accepted */
    unsigned long stops[DECODER_MAX_M + 1][(1 << ALL_STOPS_M) + 1];
    unsigned long ceilings[DECODER_MAX_M + 1][CEILINGS], pair_events[DECODER_MAX_M + 1][PAIR_EVENTS];
    unsigned long events[RANGES][EVENTS];
};
static struct count counts[2]; /* by the convolutional transform, by Arikan's */
static unsigned long list_sizes[RANGES][DECODER_MAX_LIST + 1];
static unsigned long other_yes[DECODER_MAX_M + 1]; /* accepted, with a byte above 1 for Arikan's */

static size_t stop_kinds(uint32_t m)
{
    return m <= ALL_STOPS_M ? ((size_t)1 << m) + 1 : 6;
}

static size_t stop_kind(uint32_t m, uint32_t stop)
{
    uint32_t n = (uint32_t)1 << m;
    if (m <= ALL_STOPS_M || stop <= 1)
        return stop;
    return stop == n ? 2 : stop == n - 1 ? 3 : 4 + stop % 2;
}

static size_t ceiling_kind(const struct decoder_call *c, int32_t ceiling, int32_t first_score)
{
    if (!decoder_drops(c))
        return NONE_DROPPED;
    return ceiling > first_score ? ABOVE : c->stop < (uint32_t)1 << c->m ? EQUAL : EQUAL_AT_N;
}

static void tally_pairs(const struct decoder_call *c, const struct decoder_outputs *out, unsigned long *met)
{
    size_t n = (size_t)1 << c->m;
    int ones = 0, apart = 0;
    for (size_t i = 0; i < c->stop; i++)
        for (size_t r = 0; reference_frozen(c->map, i) && r < out->rows; r++) {
            ones |= out->inputs[r * n + i];
            apart |= out->inputs[r * n + i] ^ out->inputs[i];
        }
    met[c->pairs.len == 0 ? NO_PAIRS : SOME_PAIRS]++;
    met[FULL_PAIRS] += (unsigned long)pairs_are_full(&c->pairs, c->map, n);
    met[SUM_OF_1] += (unsigned long)ones;
    met[SUMS_DIFFER] += (unsigned long)apart;
}

static void tally_accepted(const struct decoder_call *c, const struct decoder_outputs *out, struct count *count)
{
    size_t n = (size_t)1 << c->m, clear = reference_clear(c->map, n), range = 0;
    while (c->m > ranges[range].last)
        range++;
    count->stops[c->m][stop_kind(c->m, c->stop)]++;
    count->ceilings[c->m][ceiling_kind(c, out->ceiling, out->scores[0])]++;
    tally_pairs(c, out, count->pair_events[c->m]);
    other_yes[c->m] += c->arikan > 1;
    list_sizes[range][c->list_size]++;
    count->events[range][clear == 0 ? ALL_FROZEN : clear == n ? NONE_FROZEN : SOME_FROZEN]++;
    count->events[range][CUTS] += (unsigned long)decoder_drops(c);
    int ties = 0;
    for (size_t r = 1; r < out->rows; r++)
        ties |= out->scores[r] == out->scores[r - 1];
    count->events[range][TIES] += (unsigned long)ties;
}

void decoder_tally(const struct decoder_call *c, uint32_t sizes_of, const struct decoder_outputs *out)
{
    struct count *count = &counts[c->arikan != 0];
    count->calls++;
    count->answers[sizes_of][c->refusal]++;
    if (c->refusal == 0)
        tally_accepted(c, out, count);
}

unsigned long decoder_tally_calls(void)
{
    return counts[0].calls + counts[1].calls;
}

unsigned long decoder_tally_arikan_calls(void)
{
    return counts[1].calls;
}

/* ---- the report */

/* Prints what both transforms have together; 1 if each has some. */
static int print_both(int width, unsigned long x, unsigned long y)
{
    printf(" %*lu", width, x + y);
    return x > 0 && y > 0;
}

static int report_answers(uint32_t m)
{
    const struct count *x = &counts[0], *y = &counts[1];
    printf("%2lu", (unsigned long)m);
    int reached = print_both(8, x->answers[m][0], y->answers[m][0]);
    for (size_t j = 0; j < DECODER_REFUSALS; j++) {
        uint32_t number = decoder_order[j];
        int possible = number != 3 || m == 2; /* only n = 4 leaves map bits past n */
        reached &= print_both(5, x->answers[m][number], y->answers[m][number]) || !possible;
    }
    for (size_t kind = 0; kind < stop_kinds(m); kind++)
        reached &= x->stops[m][kind] > 0 && y->stops[m][kind] > 0;
    for (size_t kind = 0; kind < CEILINGS; kind++)
        reached &= print_both(5, x->ceilings[m][kind], y->ceilings[m][kind]);
    for (size_t event = 0; event < PAIR_EVENTS; event++)
        reached &= print_both(5, x->pair_events[m][event], y->pair_events[m][event]);
    reached &= other_yes[m] > 0;
    printf(" %6lu %5lu%s\n", y->answers[m][0], other_yes[m], reached ? "" : "  NOT ALL REACHED");
    return reached;
}

static int report_range(size_t range)
{
    size_t seen = 0;
    unsigned long accepted = 0;
    for (size_t l = 1; l <= DECODER_MAX_LIST; l++) {
        seen += list_sizes[range][l] > 0;
        accepted += list_sizes[range][l];
    }
    int reached = ranges[range].last <= 8 ? seen == DECODER_MAX_LIST
                                          : list_sizes[range][1] > 0 && list_sizes[range][DECODER_MAX_LIST] > 0;
    printf("m %lu to %lu: %lu accepted, %zu list sizes; with", (unsigned long)ranges[range].first,
           (unsigned long)ranges[range].last, accepted, seen);
    for (size_t event = 0; event < EVENTS; event++) {
        printf("%s %s", event == 0 ? "" : ",", event_name[event]);
        reached &= print_both(1, counts[0].events[range][event], counts[1].events[range][event]);
    }
    printf("%s\n", reached ? "" : "  NOT ALL REACHED");
    return reached;
}

int decoder_tally_report(void)
{
    int reached = 1;
    printf("%2s %8s", "m", "accepted");
    for (size_t j = 0; j < DECODER_REFUSALS; j++)
        printf(" %5lu", (unsigned long)decoder_order[j]);
    for (size_t kind = 0; kind < CEILINGS; kind++)
        printf(" %5s", ceiling_name[kind]);
    for (size_t event = 0; event < PAIR_EVENTS; event++)
        printf(" %5s", pair_name[event]);
    printf(" %6s %5s\n", "arikan", "other");
    for (uint32_t m = DECODER_MIN_M; m <= DECODER_MAX_M; m++)
        reached &= report_answers(m);
    printf("ceilings with prefixes dropped: above the first score, equal to it below stop n, equal to it at n (best);\n"
           "with none dropped: whole. Pairs: none, some, 256 or all that can be (full); a row with a 1 at a frozen\n"
           "position (sums), and there a 0 in another row (apart). Accepted by Arikan's transform, and those of them\n"
           "that ask for it by another byte than 1 (other)\n");
    for (size_t range = 0; range < RANGES; range++)
        reached &= report_range(range);
    return reached;
}
