#include "result_check.h"

#include "caldurrex.h"
#include "reference_result.h"
#include "result_memory.h"

#include <stdio.h>
#include <string.h>

_Static_assert(CALDURREX_BAD_M == 1 && CALDURREX_BAD_LIST_SIZE == 4 && CALDURREX_BAD_INPUT_LENGTH == 6 &&
                   CALDURREX_SHORT_OUTPUT == 10 && CALDURREX_NOT_A_BIT == 11 && CALDURREX_BAD_RESULT == 22,
               "the header names the refusals by the numbers of the rules");
_Static_assert(offsetof(struct caldurrex_length, refusal) == 0 && offsetof(struct caldurrex_length, length) == 4 &&
                   sizeof(struct caldurrex_length) == 8,
               "the answer is two numbers of 32 bits in this order");
_Static_assert(CALDURREX_RESULT_BYTES == REFERENCE_RESULT_BYTES, "the header has the length of the longest record");

static struct result_slice scores, inputs, record;
static const struct result_call *made;

void result_check_open(void)
{
    result_slice_open(&scores, "scores", SCORES_ROOM * sizeof(int32_t));
    result_slice_open(&inputs, "inputs", INPUTS_ROOM);
    result_slice_open(&record, "record", RECORD_ROOM);
}

const uint8_t *result_output(void)
{
    return record.lent->at;
}

/* ---- messages */

void result_fail(const struct result_call *c, const char *what)
{
    printf("compare_result: the writer: %s\n", what);
    printf("  m %lu, rows %lu, frame %lu, ceiling %ld, scores %zu, inputs of %zu, output of %zu; made for m %lu, "
           "rows %lu\n  scores",
           (unsigned long)c->says.m, (unsigned long)c->says.rows, (unsigned long)c->says.frame, (long)c->says.ceiling,
           c->scores_len, c->inputs_len, c->record_len, (unsigned long)c->m_of, (unsigned long)c->rows_of);
    for (size_t r = 0; r < c->scores_len && r <= RESULT_MAX_ROWS; r++)
        printf(" %ld", (long)c->says.scores[r]);
    printf("\n  inputs ");
    for (size_t i = 0; i < c->inputs_len && i < 64; i++)
        printf("%s%u", c->says.inputs[i] > 1 ? " " : "", c->says.inputs[i]);
    printf("\n  output");
    for (size_t i = 0; i < record.lent->len && i < 64; i++)
        printf(" %02x", record.lent->at[i]);
    printf("\n");
    result_give_up();
}

static void fail_made(const char *what)
{
    result_fail(made, what);
}

/* ---- the call */

static struct caldurrex_length ask_library(const struct result_call *c)
{
    const struct result *says = &c->says;
    result_slice_place(&scores, says->scores, c->scores_len, sizeof says->scores[0]);
    result_slice_place(&inputs, says->inputs, c->inputs_len, 1);
    result_slice_place(&record, NULL, c->record_len, 1);
    made = c;
    result_call_begins(fail_made);
    struct caldurrex_length answer =
        caldurrex_write_result(says->m, says->rows, says->frame, says->ceiling,
                               (const int32_t *)(const void *)scores.lent->at, c->scores_len, inputs.lent->at,
                               c->inputs_len, record.lent->at, c->record_len);
    result_call_ends();
    return answer;
}

/* By construction the refusal and the length are known. */
static void judge_answer(const struct result_call *c, const struct caldurrex_length *is,
                         const struct reference_length *right)
{
    uint32_t refusal = c->refusal, length = refusal == 0 ? (uint32_t)result_call_need(c) : 0;
    if (is->refusal == right->refusal && is->length == right->length && is->refusal == refusal &&
        is->length == length)
        return;
    const uint32_t all[3][2] = {{is->refusal, is->length}, {refusal, length}, {right->refusal, right->length}};
    static const char *const whose[3] = {"by the library", "by construction", "by the reference"};
    for (size_t i = 0; i < 3; i++)
        printf("  %s: refusal %lu, length %lu\n", whose[i], (unsigned long)all[i][0], (unsigned long)all[i][1]);
    result_fail(c, "the answer differs");
}

void result_check(const struct result_call *c)
{
    static uint8_t want[RECORD_ROOM];
    const struct result *says = &c->says;
    struct caldurrex_length answer = ask_library(c);
    result_slice_recall(&record, want);
    struct reference_length right =
        reference_write_result(says->m, says->rows, says->frame, says->ceiling, says->scores, c->scores_len,
                               says->inputs, c->inputs_len, want, c->record_len);
    judge_answer(c, &answer, &right);
    if (!lent_holds(scores.lent, NULL) || !lent_holds(inputs.lent, NULL))
        result_fail(c, "an input or its guard was written");
    if (answer.refusal != 0 && !lent_holds(record.lent, NULL))
        result_fail(c, "a refused call wrote");
    if (answer.refusal == 0 && !lent_holds(record.lent, want))
        result_fail(c, "the output or its guard differs");
}
