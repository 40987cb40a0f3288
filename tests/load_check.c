#include "load_check.h"

#include "caldurrex.h"
#include "lent.h"
#include "print_code.h"
#include "reference_load.h"

#include <signal.h>
#include <stdio.h>
#include <stdlib.h>
#include <string.h>

_Static_assert(CALDURREX_BAD_M == 1 && CALDURREX_BAD_MAP_LENGTH == 2 && CALDURREX_BAD_MAP_BIT == 3 &&
                   CALDURREX_BAD_PAIRS == 15 && CALDURREX_ZERO_STATE == 24 && CALDURREX_SHORT_OUTPUT == 10,
               "the header names the refusals by the numbers of the rules");
_Static_assert(offsetof(struct caldurrex_load, refusal) == 0 && offsetof(struct caldurrex_load, length) == 4 &&
                   offsetof(struct caldurrex_load, state) == 8 && sizeof(struct caldurrex_load) == 12,
               "the answer is three numbers of 32 bits in this order");

/* Outputs up to this length lie in a room that is soon filled, longer ones in another. */
enum { SHORT_ROOM = 8192 };

/* An output, in the room that the call under way uses, and what it must hold. */
struct output {
    struct lent short_room, long_room, *lent;
    uint8_t want[LOAD_ROOM];
};

static struct lent map, pairs;
static struct output record, payload;
static const struct load_call *under_way;
static unsigned long seed, calls;

/* ---- messages */

static void print_output(const char *name, const struct output *out)
{
    printf("  %s", name);
    for (size_t i = 0; i < out->lent->len && i < 64; i++)
        printf(" %02x", out->lent->at[i]);
    printf("\n");
}

void load_fail(const struct load_call *c, const char *what)
{
    const struct decoder_call *job = &c->job.job;
    printf("compare_load: %s\n", what);
    printf("  state %lu, m %lu, arikan %u, frame %lu, map of %zu, pairs of %zu, record of %zu, payload of %zu\n",
           (unsigned long)c->state, (unsigned long)job->m, job->arikan, (unsigned long)c->job.frame, job->map_len,
           job->pairs.len, c->job.record_len, c->payload_len);
    print_code(job->map, job->map_len, &job->pairs);
    print_output("record ", &record);
    print_output("payload", &payload);
    printf("compare_load: FAILED at call %lu (seed %lu)\n", calls, seed);
    exit(1);
}

/* An access outside a room. If the library made it, no output was under way that the
 * messages could disturb. */
static void on_fault(int number)
{
    if (under_way != NULL)
        load_fail(under_way, "memory outside the slices was touched");
    signal(number, SIG_DFL);
    raise(number);
}

/* ---- memory */

static void open_output(struct output *out, const char *name)
{
    lent_open(&out->short_room, name, SHORT_ROOM);
    lent_open(&out->long_room, name, LOAD_ROOM);
    out->lent = &out->short_room;
}

/* Dirty; what it must hold is what it holds, until the reference has written there. */
static void place_output(struct output *out, size_t len)
{
    out->lent = len <= SHORT_ROOM ? &out->short_room : &out->long_room;
    lent_place(out->lent, NULL, len);
    memcpy(out->want, out->lent->at, len);
}

void load_check_open(unsigned long seed_used)
{
    seed = seed_used;
    lent_open(&map, "map", MAP_ROOM);
    lent_open(&pairs, "pairs", PAIRS_ROOM);
    open_output(&record, "record");
    open_output(&payload, "payload");
    signal(SIGSEGV, on_fault);
    signal(SIGBUS, on_fault);
}

/* ---- the call */

static struct caldurrex_load ask_library(const struct load_call *c)
{
    const struct decoder_call *job = &c->job.job;
    lent_place(&map, job->map, job->map_len);
    lent_place(&pairs, job->pairs.bytes, job->pairs.len);
    place_output(&record, c->job.record_len);
    place_output(&payload, c->payload_len);
    calls++;
    under_way = c;
    struct caldurrex_load answer =
        caldurrex_test_load(c->state, job->m, job->arikan, map.at, map.len, pairs.at, pairs.len, c->job.frame,
                            record.lent->at, record.lent->len, payload.lent->at, payload.lent->len);
    under_way = NULL;
    return answer;
}

/* By construction the refusal and the length are known, and whether there is a next state. */
static void judge_answer(const struct load_call *c, const struct caldurrex_load *is, const struct reference_load *right)
{
    uint32_t refusal = c->job.job.refusal, length = refusal == 0 ? (uint32_t)load_record_need(c) : 0;
    if (is->refusal == right->refusal && is->length == right->length && is->state == right->state &&
        is->refusal == refusal && is->length == length && (is->state != 0) == (refusal == 0))
        return;
    printf("  by construction: refusal %lu, length %lu, %s state\n", (unsigned long)refusal, (unsigned long)length,
           refusal == 0 ? "a" : "no");
    printf("  by the library: refusal %lu, length %lu, state %lu\n", (unsigned long)is->refusal,
           (unsigned long)is->length, (unsigned long)is->state);
    printf("  by the reference: refusal %lu, length %lu, state %lu\n", (unsigned long)right->refusal,
           (unsigned long)right->length, (unsigned long)right->state);
    load_fail(c, "the answer differs");
}

uint32_t load_check(const struct load_call *c)
{
    const struct decoder_call *job = &c->job.job;
    struct caldurrex_load answer = ask_library(c);
    struct reference_load right =
        reference_test_load(c->state, job->m, job->arikan, job->map, job->map_len, job->pairs.bytes, job->pairs.len,
                            c->job.frame, record.want, c->job.record_len, payload.want, c->payload_len);
    judge_answer(c, &answer, &right);
    if (!lent_holds(&map, NULL) || !lent_holds(&pairs, NULL))
        load_fail(c, "an input or its guard was written");
    int refused = answer.refusal != 0;
    if (refused && (!lent_holds(record.lent, NULL) || !lent_holds(payload.lent, NULL)))
        load_fail(c, "a refused call wrote");
    if (!lent_holds(record.lent, record.want))
        load_fail(c, "the record or its guard differs");
    if (!lent_holds(payload.lent, payload.want))
        load_fail(c, "the payload or its guard differs");
    return answer.state;
}

const uint8_t *load_record(void)
{
    return record.lent->at;
}

const uint8_t *load_payload(void)
{
    return payload.lent->at;
}
