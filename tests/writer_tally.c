#include "writer_tally.h"

#include "reference_writer.h"
#include "writer_back.h"

#include <stdio.h>

/* Accepted calls: each field left out, each field standing; a soft value of -2,048; as many
 * pairs as there can be; the output as long as the record, longer by one, far longer. Refused
 * with 10: an output shorter by one, an empty one. */
enum { LEFT_OUT, STANDING = 4, FULL_SCALE = 8, FULL_PAIRS, EXACT, ONE_MORE, FAR_MORE, ONE_LESS, EMPTY, EVENTS };

static const char *const event_name[EVENTS] = {"-list",  "-stop", "-frame", "-pairs", "list", "stop",  "frame", "pairs",
                                               "-2048", "full",  "exact",  "+1",     "far",  "-1", "empty"};

static const char *const form_name[FORMS] = {"list size 4", "stop n", "frame 0", "the number 0 of pairs",
                                             "-2,048 for -2,047"};

static struct tally_count counts[DECODER_MAX_M + 1][2]; /* by the convolutional transform, by Arikan's */
static unsigned long other_yes[DECODER_MAX_M + 1]; /* accepted, with a byte above 1 for Arikan's */

static struct tally_both both;
static struct tally_totals totals;
static unsigned long pair_faults[PAIR_FAULTS], longest;

static void tally_accepted(const struct writer_call *c, unsigned long *met)
{
    const struct decoder_call *job = &c->job;
    size_t n = (size_t)1 << job->m, need = writer_need(c);
    int full_scale = 0;
    for (size_t field = 0; field < 4; field++)
        met[(writer_fields(c) >> field & 1 ? STANDING : LEFT_OUT) + field]++;
    for (size_t i = 0; i < n; i++)
        full_scale |= job->soft[i] == -2048;
    met[FULL_SCALE] += (unsigned long)full_scale;
    met[FULL_PAIRS] += (unsigned long)pairs_are_full(&job->pairs, job->map, n);
    met[EXACT] += c->record_len == need;
    met[ONE_MORE] += c->record_len == need + 1;
    met[FAR_MORE] += c->record_len > 65536;
    other_yes[job->m] += job->arikan > 1;
    longest += need == REFERENCE_RECORD_BYTES;
}

void writer_tally(const struct writer_call *c)
{
    struct tally_count *count = &counts[c->sizes_of][c->job.arikan != 0];
    uint32_t answer = c->job.refusal;
    count->answers[answer]++;
    tally_call(&totals, answer, c->job.arikan);
    if (answer == 0)
        tally_accepted(c, count->events);
    if (answer == 10) {
        count->events[ONE_LESS] += c->record_len + 1 == writer_need(c);
        count->events[EMPTY] += c->record_len == 0;
    }
    if (answer == 15)
        pair_faults[c->pairs_fault]++;
    tally_faults(&both, c->faults);
}

struct tally_totals writer_tally_totals(void)
{
    return totals;
}

/* ---- the report */

int writer_tally_report(const unsigned long *forms)
{
    static const char *const of_3211[1] = {"the longest"};
    static const struct tally_table table = {writer_order, WRITER_REFUSALS, event_name, EVENTS};
    int reached = tally_print_table(&table, counts, other_yes);
    printf("accepted: each field left out, standing; with -2,048; with 256 pairs or all that can be (full); with an\n"
           "output of the record's length, one more, above 65,536 bytes (far); refused with 10: with one less, with\n"
           "none (empty); accepted with another byte than 1 for Arikan's transform (other)\n");
    reached &= tally_print_order(&both, writer_order, WRITER_REFUSALS);
    reached &= tally_print_named("refused with 15:", tally_pair_fault, pair_faults, PAIR_FAULTS);
    reached &= tally_print_named("records:", of_3211, &longest, 1);
    reached &= tally_print_named("read in another form, with", form_name, forms, FORMS);
    return reached;
}
