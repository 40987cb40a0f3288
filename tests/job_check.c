#include "job_check.h"

#include "caldurrex.h"
#include "draw.h"
#include "lent.h"
#include "reference_job.h"

#include <signal.h>
#include <stdio.h>
#include <stdlib.h>
#include <string.h>

_Static_assert(CALDURREX_BAD_M == 1 && CALDURREX_BAD_MAP_BIT == 3 && CALDURREX_BAD_LIST_SIZE == 4 &&
                   CALDURREX_BAD_STOP == 5 && CALDURREX_BAD_SOFT_VALUE == 7 && CALDURREX_SHORT_OUTPUT == 10 &&
                   CALDURREX_BAD_RECORD_LENGTH == 13 && CALDURREX_BAD_FIELD_MAP == 14 && CALDURREX_BAD_PAIRS == 15,
               "the header names the refusals by the numbers of the rules");

_Static_assert(offsetof(struct caldurrex_job, frame) == 16 && offsetof(struct caldurrex_job, pairs) == 20 &&
                   offsetof(struct caldurrex_job, arikan) == 24 && sizeof(struct caldurrex_job) == 28,
               "the answer is seven numbers of 32 bits");

/* Room for the longest slices tried, with something left over for guard zones. */
enum { MAP_ROOM = 4096, SOFT_ROOM = 8192, THIRD_ROOM = 4096, RECORD_ROOM = JOB_ROOM + 4096 };
enum { ANSWERS = 16, ROWS = 12 };

/* Records that were read: without the field, with the number 0, with pairs, with as many as
 * there can be, into a slice that was longer; and those not read for the third slice alone. */
enum { NO_FIELD, COUNT_OF_0, SOME_PAIRS, FULL_PAIRS, LONGER_SLICE, SHORT_SLICE, EVENTS };

static struct lent record, map, soft, pairs;
static const struct job_record *under_way;
static unsigned long seed, calls, arikan_calls;

/* What came with records made for one transform. */
struct count {
    unsigned long answers[ANSWERS], events[EVENTS];
};
static struct count counts[ROWS][2]; /* for the convolutional transform, for Arikan's */

static void fail(const struct job_record *r, const char *what)
{
    printf("compare_job: %s\n", what);
    printf("  made for m %lu, map of %zu bytes, %zu soft values, pairs of %zu bytes, record of %zu bytes\n ",
           (unsigned long)r->m, map.len, soft.len / 2, pairs.len, r->len);
    for (size_t i = 0; i < r->len && i < 64; i++)
        printf(" %02x", r->bytes[i]);
    printf("\ncompare_job: FAILED at call %lu (seed %lu)\n", calls, seed);
    exit(1);
}

/* An access outside a room. If the library made it, no output was under way that the
 * messages could disturb. */
static void on_fault(int number)
{
    if (under_way != NULL)
        fail(under_way, "memory outside the slices was touched");
    signal(number, SIG_DFL);
    raise(number);
}

void job_check_open(unsigned long seed_used)
{
    seed = seed_used;
    lent_open(&record, "record", RECORD_ROOM);
    lent_open(&map, "map", MAP_ROOM);
    lent_open(&soft, "soft", SOFT_ROOM);
    lent_open(&pairs, "pairs", THIRD_ROOM);
    signal(SIGSEGV, on_fault);
    signal(SIGBUS, on_fault);
}

/* ---- judging */

static int same_answer(const struct caldurrex_job *x, const struct reference_job *y)
{
    return x->refusal == y->refusal && x->m == y->m && x->list_size == y->list_size && x->stop == y->stop &&
           x->frame == y->frame && x->pairs == y->pairs && x->arikan == y->arikan;
}

/* What the making of the record tells: the refusal, or the fields. */
static struct reference_job made(const struct job_record *r)
{
    size_t n = (size_t)1 << r->m;
    struct reference_job job = {.refusal = r->refusal};
    if (r->refusal == 0 && (map.len < job_map_len(r->m) || soft.len / 2 < n || pairs.len < r->pairs.len))
        job.refusal = 10;
    if (job.refusal == 0)
        job = (struct reference_job){0, r->m, r->list_size, r->stop, r->frame, r->count, r->arikan};
    return job;
}

static void judge_answer(const struct job_record *r, const struct caldurrex_job *answer,
                         const struct reference_job *right)
{
    struct reference_job by_making = r->refusal == JOB_UNKNOWN ? *right : made(r);
    if (same_answer(answer, right) && same_answer(answer, &by_making))
        return;
    const struct reference_job was = {answer->refusal, answer->m,     answer->list_size, answer->stop,
                                      answer->frame,   answer->pairs, answer->arikan};
    const struct reference_job *all[3] = {&was, &by_making, right};
    static const char *const whose[3] = {"by the library", "by construction", "by the reference"};
    for (size_t i = 0; i < 3; i++)
        printf("  %s: refusal %lu, m %lu, list size %lu, stop %lu, frame %lu, pairs %lu, arikan %lu\n", whose[i],
               (unsigned long)all[i]->refusal, (unsigned long)all[i]->m, (unsigned long)all[i]->list_size,
               (unsigned long)all[i]->stop, (unsigned long)all[i]->frame, (unsigned long)all[i]->pairs,
               (unsigned long)all[i]->arikan);
    fail(r, "the answer differs");
}

/* The reference's outputs, too, are those that the making of the record tells; for -2,048
 * it hands out -2,047. */
static void judge_reference(const struct job_record *r, const uint8_t *want_map, const int16_t *want_soft,
                            const uint8_t *want_pairs)
{
    int same = memcmp(want_map, r->map, job_map_len(r->m)) == 0 &&
               memcmp(want_pairs, r->pairs.bytes, r->pairs.len) == 0;
    for (size_t i = 0; i < (size_t)1 << r->m; i++)
        same &= want_soft[i] == (r->soft[i] < -2047 ? -2047 : r->soft[i]);
    if (!same)
        fail(r, "the reference gives another map, other soft values or other pairs than the record was made of");
}

/* to gets what lay in the slice before the call. */
static void recall(const struct lent *slice, void *to)
{
    memcpy(to, slice->before + (slice->at - slice->room), slice->len);
}

static void judge(const struct job_record *r, const struct caldurrex_job *answer)
{
    static uint8_t want_map[MAP_ROOM], want_pairs[THIRD_ROOM];
    static int16_t want_soft[SOFT_ROOM / 2];
    recall(&map, want_map);
    recall(&soft, want_soft);
    recall(&pairs, want_pairs);
    struct reference_job right = reference_read_job(r->bytes, r->len, want_map, map.len, want_soft, soft.len / 2,
                                                    want_pairs, pairs.len);
    judge_answer(r, answer, &right);
    if (!lent_holds(&record, NULL))
        fail(r, "the record or its guard was written");
    if (answer->refusal != 0) {
        if (!lent_holds(&map, NULL) || !lent_holds(&soft, NULL) || !lent_holds(&pairs, NULL))
            fail(r, "a refused call wrote");
        return;
    }
    if (r->refusal == 0)
        judge_reference(r, want_map, want_soft, want_pairs);
    if (!lent_holds(&map, want_map) || !lent_holds(&soft, (const uint8_t *)want_soft) ||
        !lent_holds(&pairs, want_pairs))
        fail(r, "an output or its guard differs");
}

static void count_pairs(const struct job_record *r, uint32_t answer)
{
    size_t n = (size_t)1 << r->m;
    unsigned long *met = counts[r->m][r->arikan].events;
    if (answer == 10)
        met[SHORT_SLICE] += map.len >= job_map_len(r->m) && soft.len / 2 >= n;
    if (answer != 0)
        return;
    met[!(r->fields & JOB_PAIRS) ? NO_FIELD : r->count == 0 ? COUNT_OF_0 : SOME_PAIRS]++;
    met[FULL_PAIRS] += (unsigned long)pairs_are_full(&r->pairs, r->map, n);
    met[LONGER_SLICE] += r->count > 0 && pairs.len > r->pairs.len;
}

void job_check(const struct job_record *r, size_t map_len, size_t soft_len, size_t pairs_len)
{
    lent_place(&record, r->bytes, r->len);
    lent_place(&map, NULL, map_len);
    lent_place_aligned(&soft, NULL, soft_len * sizeof r->soft[0], sizeof r->soft[0]);
    lent_place(&pairs, NULL, pairs_len);
    calls++;
    arikan_calls += r->arikan;
    under_way = r;
    struct caldurrex_job answer = caldurrex_read_job(record.at, record.len, map.at, map_len,
                                                     (int16_t *)(void *)soft.at, soft_len, pairs.at, pairs_len);
    under_way = NULL;
    judge(r, &answer);
    counts[r->m][r->arikan].answers[answer.refusal]++;
    if (r->refusal == 0)
        count_pairs(r, answer.refusal);
}

void job_check_as(struct job_record *r, uint32_t refusal)
{
    size_t map_len = job_map_len(r->m) + draw_below(3), soft_len = ((size_t)1 << r->m) + draw_below(3);
    r->refusal = refusal;
    job_check(r, map_len, soft_len, r->pairs.len + draw_below(6));
}

unsigned long job_check_count(void)
{
    return calls;
}

unsigned long job_check_arikan_count(void)
{
    return arikan_calls;
}

/* ---- the report */

/* Of both transforms together, but for the last column. */
static int print_row(uint32_t m)
{
    static const uint32_t columns[] = {0, 1, 3, 15, 4, 5, 7, 10, 13, 14};
    const struct count *x = &counts[m][0], *y = &counts[m][1];
    int reached = 1;
    printf("%2lu", (unsigned long)m);
    for (size_t i = 0; i < sizeof columns / sizeof columns[0]; i++) {
        unsigned long first = x->answers[columns[i]], second = y->answers[columns[i]];
        int possible = columns[i] != 3 || m == 2; /* only n = 4 leaves map bits past n */
        reached &= !possible || (first > 0 && second > 0);
        printf(i == 0 ? " %9lu" : " %6lu", first + second);
    }
    for (size_t event = 0; event < EVENTS; event++) {
        reached &= x->events[event] > 0 && y->events[event] > 0;
        printf(" %6lu", x->events[event] + y->events[event]);
    }
    printf(" %6lu%s\n", y->answers[0], reached ? "" : "  NOT ALL REACHED");
    return reached;
}

int job_check_report(void)
{
    int reached = 1;
    printf("%2s %9s %6s %6s %6s %6s %6s %6s", "m", "accepted", "1", "3", "15", "4", "5", "7");
    printf(" %6s %6s %6s", "10", "13", "14");
    printf(" %6s %6s %6s %6s %6s %6s %6s\n", "none", "0", "pairs", "full", "longer", "short", "arikan");
    for (uint32_t m = JOB_MIN_M; m <= JOB_MAX_M; m++)
        reached &= print_row(m);
    printf("accepted: without pairs, with the number 0, with some, with 256 or all that can be (full), with a longer\n"
           "slice for them; refused: 10 for their slice alone (short); accepted with Arikan's transform\n");
    return reached;
}
