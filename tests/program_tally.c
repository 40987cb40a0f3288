#include "program_tally.h"

#include "reference_codec.h"
#include "reference_job.h"

#include <stdio.h>
#include <stdlib.h>
#include <string.h>

enum { ANSWERS = 16, SERVED_M = 6, SERVED_LIST = 4 };

static unsigned long kinds[JOB_KINDS], answers[ANSWERS]; /* answer 0: served */

/* Served blocks. The fields are counted for each transform, Arikan's last. */
static unsigned long served_m[SERVED_M + 1], served_list[SERVED_LIST + 1], served_fields[2][JOB_FIELD_SETS];
static unsigned long with_arikan[SERVED_M + 1];

/* Served blocks with pairs, with 256 of them or all that the map allows, and with a row that
 * has a 1 at a frozen position. */
static unsigned long with_pairs[SERVED_M + 1], with_full[SERVED_M + 1], with_sums[SERVED_M + 1];

/* What the ceilings of served blocks must be met as, once each at least: signs and 0 for
 * how the number is printed, and above the first score, where no row has it. */
enum { NEGATIVE, ZERO, POSITIVE, ABOVE, CEILINGS };
static const char *const ceiling_name[CEILINGS] = {"negative", "0", "positive", "above the first score"};
static unsigned long ceilings[CEILINGS];

uint32_t program_answer(const char *want)
{
    return strncmp(want, "refused ", 8) == 0 ? (uint32_t)strtoul(want + 8, NULL, 10) : 0;
}

/* Takes the ceiling and the first score from an output that the reference gives. */
static void count_ceiling(const char *want)
{
    long ceiling, score;
    if (sscanf(want, "frame %*u rows %*u ceiling %ld 0 %ld", &ceiling, &score) != 2)
        return;
    ceilings[ceiling < 0 ? NEGATIVE : ceiling == 0 ? ZERO : POSITIVE]++;
    ceilings[ABOVE] += ceiling > score;
}

/* Some input bits of an output are 1 at a frozen position. */
static int has_sums(const struct job_record *r, const char *want)
{
    int ones = 0;
    char input[PROGRAM_MAX_N + 1];
    while ((want = strchr(want, '\n') + 1)[0] != 0 && sscanf(want, "%*u %*d %64s", input) == 1)
        for (size_t i = 0; i < (size_t)1 << r->m; i++)
            ones |= reference_frozen(r->map, i) && input[i] == '1';
    return ones;
}

static void count_served(const struct job_record *r, const char *want)
{
    served_m[r->m]++;
    served_list[r->list_size]++;
    served_fields[r->arikan][r->fields]++;
    with_arikan[r->m] += r->arikan;
    with_pairs[r->m] += r->count > 0;
    with_full[r->m] += (unsigned long)pairs_are_full(&r->pairs, r->map, (size_t)1 << r->m);
    with_sums[r->m] += (unsigned long)has_sums(r, want);
}

void program_tally(const struct job_record *r, const char *want)
{
    uint32_t answer = program_answer(want);
    kinds[r->kind]++;
    answers[answer]++;
    count_ceiling(want);
    if (answer == 0 && r->refusal == 0)
        count_served(r, want);
}

unsigned long program_tally_arikan(void)
{
    unsigned long sum = 0;
    for (uint32_t m = JOB_MIN_M; m <= SERVED_M; m++)
        sum += with_arikan[m];
    return sum;
}

/* ---- the report */

static int reached_all(const char *name, const unsigned long *counts, size_t first, size_t last)
{
    int reached = 1;
    printf("%s", name);
    for (size_t i = first; i <= last; i++) {
        printf(" %zu: %lu%s", i, counts[i], i < last ? "," : "\n");
        reached &= counts[i] > 0;
    }
    return reached;
}

int program_tally_report(unsigned long runs)
{
    static const size_t possible[] = {1, 3, 4, 5, 7, 8, 13, 14, 15};
    int reached = 1;
    for (int kind = 0; kind < JOB_KINDS; kind++) {
        printf("%6lu %s\n", kinds[kind], job_kind_name[kind]);
        reached &= kinds[kind] > 0;
    }
    printf("served %lu; refused", answers[0]);
    reached &= 3 * answers[0] >= runs; /* at least a third is served */
    for (size_t i = 0; i < sizeof possible / sizeof possible[0]; i++) {
        printf("%s %zu: %lu", i == 0 ? "" : ",", possible[i], answers[possible[i]]);
        reached &= answers[possible[i]] > 0;
    }
    printf("\n");
    printf("served with a ceiling");
    for (size_t kind = 0; kind < CEILINGS; kind++) {
        printf("%s %s: %lu", kind == 0 ? "" : ",", ceiling_name[kind], ceilings[kind]);
        reached &= ceilings[kind] > 0;
    }
    printf("\n");
    reached &= reached_all("served with m", served_m, 2, SERVED_M);
    reached &= reached_all("served with list size", served_list, 1, SERVED_LIST);
    reached &= reached_all("served with fields", served_fields[0], 0, JOB_FIELD_SETS - 1);
    reached &= reached_all("with Arikan's transform and fields", served_fields[1], 0, JOB_FIELD_SETS - 1);
    reached &= reached_all("with Arikan's transform, m", with_arikan, 2, SERVED_M);
    reached &= reached_all("served with pairs, m", with_pairs, 2, SERVED_M);
    reached &= reached_all("256 of them or all that can be, m", with_full, 2, SERVED_M);
    reached &= reached_all("with a 1 at a frozen position, m", with_sums, 2, SERVED_M);
    return reached;
}
