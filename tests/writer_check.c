#include "writer_check.h"

#include "caldurrex.h"
#include "lent.h"
#include "print_code.h"
#include "reference_writer.h"

#include <signal.h>
#include <stdio.h>
#include <stdlib.h>
#include <string.h>

_Static_assert(CALDURREX_BAD_M == 1 && CALDURREX_BAD_MAP_LENGTH == 2 && CALDURREX_BAD_MAP_BIT == 3 &&
                   CALDURREX_BAD_LIST_SIZE == 4 && CALDURREX_BAD_STOP == 5 && CALDURREX_BAD_INPUT_LENGTH == 6 &&
                   CALDURREX_BAD_SOFT_VALUE == 7 && CALDURREX_SHORT_OUTPUT == 10 && CALDURREX_BAD_PAIRS == 15,
               "the header names the refusals by the numbers of the rules");
_Static_assert(offsetof(struct caldurrex_length, refusal) == 0 && offsetof(struct caldurrex_length, length) == 4 &&
                   sizeof(struct caldurrex_length) == 8,
               "the answer is two numbers of 32 bits in this order");
_Static_assert(CALDURREX_RECORD_BYTES == REFERENCE_RECORD_BYTES, "the header has the length of the longest record");

/* Outputs up to the first length lie in a room that is soon filled, longer ones in another. */
enum { SHORT_ROOM = 12288 };

static struct lent map, pairs, soft, short_record, long_record;
static struct lent *record = &short_record; /* the one that the call under way uses */
static const struct writer_call *under_way;
static unsigned long seed, calls;

void writer_fail(const struct writer_call *c, const char *what)
{
    const struct decoder_call *job = &c->job;
    printf("compare_writer: %s\n", what);
    printf("  m %lu, arikan %u, list size %lu, stop %lu, frame %lu, map of %zu, pairs of %zu, soft values %zu, "
           "output of %zu\n",
           (unsigned long)job->m, job->arikan, (unsigned long)job->list_size, (unsigned long)job->stop,
           (unsigned long)c->frame, job->map_len, job->pairs.len, job->soft_len, c->record_len);
    print_code(job->map, job->map_len, &job->pairs);
    printf("  soft");
    for (size_t i = 0; i < job->soft_len && i < 1024; i++)
        printf(" %d", job->soft[i]);
    printf("\n  output");
    for (size_t i = 0; i < record->len && i < 64; i++)
        printf(" %02x", record->at[i]);
    printf("\ncompare_writer: FAILED at call %lu (seed %lu)\n", calls, seed);
    exit(1);
}

/* An access outside a room. If the library made it, no output was under way that the
 * messages could disturb. */
static void on_fault(int number)
{
    if (under_way != NULL)
        writer_fail(under_way, "memory outside the slices was touched");
    signal(number, SIG_DFL);
    raise(number);
}

void writer_check_open(unsigned long seed_used)
{
    seed = seed_used;
    lent_open(&map, "map", MAP_ROOM);
    lent_open(&pairs, "pairs", PAIRS_ROOM);
    lent_open(&soft, "soft", SOFT_ROOM * sizeof(int16_t));
    lent_open(&short_record, "record", SHORT_ROOM);
    lent_open(&long_record, "record", WRITER_ROOM);
    signal(SIGSEGV, on_fault);
    signal(SIGBUS, on_fault);
}

static struct caldurrex_length ask_library(const struct writer_call *c)
{
    const struct decoder_call *job = &c->job;
    lent_place(&map, job->map, job->map_len);
    lent_place(&pairs, job->pairs.bytes, job->pairs.len);
    lent_place_aligned(&soft, (const uint8_t *)job->soft, job->soft_len * sizeof job->soft[0], sizeof job->soft[0]);
    record = c->record_len <= SHORT_ROOM ? &short_record : &long_record;
    lent_place(record, NULL, c->record_len);
    calls++;
    under_way = c;
    struct caldurrex_length answer =
        caldurrex_write_job(job->m, job->arikan, map.at, map.len, pairs.at, pairs.len, job->list_size, job->stop,
                            c->frame, (const int16_t *)(const void *)soft.at, job->soft_len, record->at, record->len);
    under_way = NULL;
    return answer;
}

/* By construction the refusal and the length are known. */
static void judge_answer(const struct writer_call *c, const struct caldurrex_length *is,
                         const struct reference_length *right)
{
    uint32_t refusal = c->job.refusal, length = refusal == 0 ? (uint32_t)writer_need(c) : 0;
    if (is->refusal == right->refusal && is->length == right->length && is->refusal == refusal &&
        is->length == length)
        return;
    const uint32_t all[3][2] = {{is->refusal, is->length}, {refusal, length}, {right->refusal, right->length}};
    static const char *const whose[3] = {"by the library", "by construction", "by the reference"};
    for (size_t i = 0; i < 3; i++)
        printf("  %s: refusal %lu, length %lu\n", whose[i], (unsigned long)all[i][0], (unsigned long)all[i][1]);
    writer_fail(c, "the answer differs");
}

void writer_check(const struct writer_call *c)
{
    static uint8_t want[WRITER_ROOM];
    const struct decoder_call *job = &c->job;
    struct caldurrex_length answer = ask_library(c);
    memcpy(want, record->before + (record->at - record->room), record->len);
    struct reference_length right =
        reference_write_job(job->m, job->arikan, job->map, job->map_len, job->pairs.bytes, job->pairs.len,
                            job->list_size, job->stop, c->frame, job->soft, job->soft_len, want, c->record_len);
    judge_answer(c, &answer, &right);
    if (!lent_holds(&map, NULL) || !lent_holds(&pairs, NULL) || !lent_holds(&soft, NULL))
        writer_fail(c, "an input or its guard was written");
    if (answer.refusal != 0 && !lent_holds(record, NULL))
        writer_fail(c, "a refused call wrote");
    if (answer.refusal == 0 && !lent_holds(record, want))
        writer_fail(c, "the output or its guard differs");
}

const uint8_t *writer_output(void)
{
    return record->at;
}
