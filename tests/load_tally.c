#include "load_tally.h"

#include "load_back.h"

#include <stdio.h>

/* Accepted calls: by frame number, pairs, state and k, and what was done with them. */
enum {
    FRAME_0, FRAME_1, FRAME_LAST, NO_PAIRS, SOME_PAIRS, FULL_PAIRS, STATE_1, STATE_HIGH, STATE_LAST, NONE_CLEAR,
    ALL_CLEAR, DECODED, CHAINED, EVENTS
};

static const char *const event_name[EVENTS] = {"f 0",    "f 1",   "f max", "-pairs", "pairs",  "full", "s 1",
                                               "s 2^31", "s max", "k = 0", "k = n",  "decode", "chain"};

/* Accepted calls with an output as long as needed, longer by one, far longer; refused with 10
 * for this output alone: shorter by one, empty. The record's come first, then the payload's, and
 * at last those refused for both. */
enum { EXACT, ONE_MORE, FAR_MORE, ONE_LESS, EMPTY, LENGTHS, BOTH_SHORT = 2 * LENGTHS, LENGTH_EVENTS };

static const char *const length_name[LENGTH_EVENTS] = {"exact", "+1", "far", "-1", "empty", "exact",
                                                       "+1",    "far", "-1", "empty", "both"};

/* By the convolutional transform, by Arikan's; with lengths for events in the second. */
static struct tally_count counts[DECODER_MAX_M + 1][2], lengths[DECODER_MAX_M + 1][2];
static unsigned long other_yes[DECODER_MAX_M + 1]; /* accepted, with a byte above 1 for Arikan's */

static struct tally_both both;
static struct tally_totals totals;
static unsigned long pair_faults[PAIR_FAULTS];

static struct tally_count *of_call(struct tally_count all[][2], const struct load_call *c)
{
    return &all[c->job.sizes_of][c->job.job.arikan != 0];
}

static void tally_accepted(const struct load_call *c, unsigned long *met)
{
    const struct decoder_call *job = &c->job.job;
    size_t n = (size_t)1 << job->m, k = load_payload_need(c);
    met[FRAME_0] += c->job.frame == 0;
    met[FRAME_1] += c->job.frame == 1;
    met[FRAME_LAST] += c->job.frame == UINT32_MAX;
    met[job->pairs.len == 0 ? NO_PAIRS : SOME_PAIRS]++;
    met[FULL_PAIRS] += (unsigned long)pairs_are_full(&job->pairs, job->map, n);
    met[STATE_1] += c->state == 1;
    met[STATE_HIGH] += c->state == 0x80000000u;
    met[STATE_LAST] += c->state == UINT32_MAX;
    met[NONE_CLEAR] += k == 0;
    met[ALL_CLEAR] += k == n;
    other_yes[job->m] += job->arikan > 1;
}

/* Of one output; the other is long enough. */
static void tally_length(size_t len, size_t need, unsigned long *met)
{
    met[EXACT] += len == need;
    met[ONE_MORE] += len == need + 1;
    met[FAR_MORE] += len > 65536;
    met[ONE_LESS] += len + 1 == need;
    met[EMPTY] += len == 0 && need > 0;
}

static void tally_lengths(const struct load_call *c, struct tally_count *count)
{
    size_t need = load_record_need(c), k = load_payload_need(c);
    int record_short = c->job.record_len < need, payload_short = c->payload_len < k;
    count->answers[0] += c->job.job.refusal == 0;
    count->events[BOTH_SHORT] += (unsigned long)(record_short && payload_short);
    if (!payload_short)
        tally_length(c->job.record_len, need, count->events);
    if (!record_short)
        tally_length(c->payload_len, k, count->events + LENGTHS);
}

void load_tally(const struct load_call *c)
{
    struct tally_count *count = of_call(counts, c);
    uint32_t answer = c->job.job.refusal;
    count->answers[answer]++;
    tally_call(&totals, answer, c->job.job.arikan);
    if (answer == 0)
        tally_accepted(c, count->events);
    if (answer == 0 || answer == 10)
        tally_lengths(c, of_call(lengths, c));
    if (answer == 15)
        pair_faults[c->job.pairs_fault]++;
    tally_faults(&both, c->faults);
}

void load_tally_decoded(const struct load_call *c)
{
    of_call(counts, c)->events[DECODED]++;
}

void load_tally_chained(const struct load_call *c)
{
    of_call(counts, c)->events[CHAINED]++;
}

struct tally_totals load_tally_totals(void)
{
    return totals;
}

/* ---- the report */

static int report_calls(void)
{
    static const struct tally_table table = {load_order, LOAD_REFUSALS, event_name, EVENTS};
    int reached = tally_print_table(&table, counts, other_yes);
    printf("accepted: with frame number 0, 1, 2^32 - 1; with no pairs, some, 256 or all that can be (full); with state\n"
           "1, 2^31, 2^32 - 1; with nothing clear, all clear; decoded; from the state of the load before it (chain);\n"
           "with another byte than 1 for Arikan's transform (other)\n");
    return reached;
}

static int report_lengths(void)
{
    static const struct tally_table table = {load_order, 0, length_name, LENGTH_EVENTS};
    int reached = tally_print_table(&table, lengths, NULL);
    printf("of the record, then of the payload: as long as needed, one more, above 65,536 bytes (far); refused with\n"
           "10: with one less, with none (empty), the other being long enough; with both too short\n");
    return reached;
}

static int report_values(const unsigned long *values)
{
    unsigned long fewest = values[0];
    for (size_t i = 1; i < LOAD_VALUES; i++)
        fewest = values[i] < fewest ? values[i] : fewest;
    printf("soft values: each from -40 to 40, %lu times or more\n", fewest);
    return fewest >= TALLY_FEW;
}

int load_tally_report(const unsigned long *values)
{
    int reached = report_calls();
    reached &= report_lengths();
    reached &= tally_print_order(&both, load_order, LOAD_REFUSALS);
    reached &= tally_print_named("refused with 15:", tally_pair_fault, pair_faults, PAIR_FAULTS);
    reached &= report_values(values);
    return reached;
}
