#include "result_read.h"

#include "caldurrex.h"
#include "draw.h"
#include "reference_result.h"
#include "result_memory.h"

#include <stdio.h>
#include <string.h>

_Static_assert(CALDURREX_BAD_M == 1 && CALDURREX_BAD_LIST_SIZE == 4 && CALDURREX_SHORT_OUTPUT == 10 &&
                   CALDURREX_BAD_RECORD_LENGTH == 13 && CALDURREX_BAD_FIELD_MAP == 14 &&
                   CALDURREX_BAD_PACKED_BIT == 21 && CALDURREX_BAD_RESULT == 22,
               "the header names the refusals by the numbers of the rules");
_Static_assert(offsetof(struct caldurrex_result, refusal) == 0 && offsetof(struct caldurrex_result, m) == 4 &&
                   offsetof(struct caldurrex_result, rows) == 8 && offsetof(struct caldurrex_result, frame) == 12 &&
                   offsetof(struct caldurrex_result, ceiling) == 16 && sizeof(struct caldurrex_result) == 20,
               "the answer is five numbers of 32 bits in this order");

/* What the customer is told stays where it is while the operator is asked. */
static struct result_slice record, scores, inputs, operator_scores;
static struct caldurrex_result told;
static const struct result_record *made;

void result_read_open(void)
{
    result_slice_open(&record, "record", RECORD_ROOM);
    result_slice_open(&scores, "scores", SCORES_ROOM * sizeof(int32_t));
    result_slice_open(&inputs, "inputs", INPUTS_ROOM);
    result_slice_open(&operator_scores, "scores", SCORES_ROOM * sizeof(int32_t));
}

static int32_t *numbers_at(struct result_slice *s)
{
    return (int32_t *)(void *)s->lent->at;
}

/* ---- messages */

void result_record_fail(const struct result_record *r, const char *what)
{
    printf("compare_result: %s\n", what);
    printf("  made for m %lu, rows %lu, frame %lu, ceiling %ld; room for %zu scores and %zu input bytes; record of "
           "%zu bytes\n ",
           (unsigned long)r->says.m, (unsigned long)r->says.rows, (unsigned long)r->says.frame, (long)r->says.ceiling,
           r->scores_len, r->inputs_len, r->len);
    for (size_t i = 0; i < r->len && i < 64; i++)
        printf(" %02x", r->bytes[i]);
    printf("\n");
    result_give_up();
}

static void fail_made(const char *what)
{
    result_record_fail(made, what);
}

static void print_answer(const char *whose, const struct reference_result *x)
{
    printf("  %s: refusal %lu, m %lu, rows %lu, frame %lu, ceiling %ld\n", whose, (unsigned long)x->refusal,
           (unsigned long)x->m, (unsigned long)x->rows, (unsigned long)x->frame, (long)x->ceiling);
}

/* ---- calls */

static struct caldurrex_result ask_customer(const struct result_record *r)
{
    result_slice_place(&record, r->bytes, r->len, 1);
    result_slice_place(&scores, NULL, r->scores_len, sizeof(int32_t));
    result_slice_place(&inputs, NULL, r->inputs_len, 1);
    made = r;
    result_call_begins(fail_made);
    struct caldurrex_result answer = caldurrex_read_result(record.lent->at, r->len, numbers_at(&scores), r->scores_len,
                                                           inputs.lent->at, r->inputs_len);
    result_call_ends();
    return answer;
}

static struct caldurrex_result ask_operator(const struct result_record *r, const uint8_t *bytes)
{
    result_slice_place(&record, bytes, r->len, 1);
    result_slice_place(&operator_scores, NULL, r->scores_len, sizeof(int32_t));
    made = r;
    result_call_begins(fail_made);
    struct caldurrex_result answer =
        caldurrex_read_result_operator(record.lent->at, r->len, numbers_at(&operator_scores), r->scores_len);
    result_call_ends();
    return answer;
}

/* ---- judging */

static struct reference_result plain(const struct caldurrex_result *x)
{
    return (struct reference_result){x->refusal, x->m, x->rows, x->frame, x->ceiling};
}

static int same(const struct reference_result *x, const struct reference_result *y)
{
    return x->refusal == y->refusal && x->m == y->m && x->rows == y->rows && x->frame == y->frame &&
           x->ceiling == y->ceiling;
}

/* What the making of the record tells: the refusal, or the fields. */
static struct reference_result by_making(const struct result_record *r, uint32_t refusal)
{
    const struct result *says = &r->says;
    if (refusal != 0)
        return (struct reference_result){.refusal = refusal};
    return (struct reference_result){0, says->m, says->rows, says->frame, says->ceiling};
}

static void judge_answer(const struct result_record *r, const struct caldurrex_result *answer,
                         const struct reference_result *right, uint32_t refusal, const char *what)
{
    struct reference_result is = plain(answer), known = refusal == RESULT_UNKNOWN ? *right : by_making(r, refusal);
    if (same(&is, right) && same(&is, &known))
        return;
    print_answer("by the library", &is);
    print_answer("by construction", &known);
    print_answer("by the reference", right);
    result_record_fail(r, what);
}

static void judge_customer(const struct result_record *r, const struct caldurrex_result *answer)
{
    static int32_t want_scores[SCORES_ROOM];
    static uint8_t want_inputs[INPUTS_ROOM];
    result_slice_recall(&scores, want_scores);
    result_slice_recall(&inputs, want_inputs);
    struct reference_result right =
        reference_read_result(r->bytes, r->len, want_scores, r->scores_len, want_inputs, r->inputs_len);
    judge_answer(r, answer, &right, result_customer_refusal(r), "the customer: the answer differs");
    if (!lent_holds(record.lent, NULL))
        result_record_fail(r, "the customer: the record or its guard was written");
    if (right.refusal == 0 && r->refusal == 0 &&
        (memcmp(want_scores, r->says.scores, right.rows * sizeof want_scores[0]) != 0 ||
         memcmp(want_inputs, r->says.inputs, (size_t)right.rows << right.m) != 0))
        result_record_fail(r, "the reference gives other scores or inputs than the record was made of");
    if (!lent_holds(scores.lent, (const uint8_t *)want_scores) || !lent_holds(inputs.lent, want_inputs))
        result_record_fail(r, right.refusal != 0 ? "the customer: a refused call wrote"
                                                 : "the customer: an output or its guard differs");
}

static void judge_operator(const struct result_record *r, const uint8_t *bytes, const struct caldurrex_result *answer)
{
    static int32_t want[SCORES_ROOM];
    result_slice_recall(&operator_scores, want);
    struct reference_result right = reference_read_result_operator(bytes, r->len, want, r->scores_len);
    judge_answer(r, answer, &right, result_operator_refusal(r), "the operator: the answer differs");
    if (!lent_holds(record.lent, NULL))
        result_record_fail(r, "the operator: the record or its guard was written");
    if (right.refusal == 0 && r->refusal == 0 &&
        memcmp(want, r->says.scores, right.rows * sizeof want[0]) != 0)
        result_record_fail(r, "the reference gives the operator other scores than the record was made of");
    if (!lent_holds(operator_scores.lent, (const uint8_t *)want))
        result_record_fail(r, right.refusal != 0 ? "the operator: a refused call wrote"
                                                 : "the operator: the scores or their guard differ");
}

/* ---- another record with other packed bits */

/* Where they begin, as the head has it; behind the head where that is refused. */
static size_t packed_at(const struct result_record *r)
{
    const uint8_t *head = r->bytes;
    if (r->len < 3 || head[0] >= RESULT_FIELD_SETS || head[1] < RESULT_MIN_M || head[1] > RESULT_MAX_M ||
        head[2] == 0 || head[2] > RESULT_MAX_ROWS)
        return r->len < 3 ? r->len : 3;
    size_t open = result_open_bytes(head[2], head[0]);
    return r->len < open ? r->len : open;
}

/* Any, all 0, all 1, one bit or one byte changed. */
static void change_packed(uint8_t *packed, size_t len)
{
    size_t kind = draw_below(6), at = draw_below(2) ? len - 1 : draw_below(len);
    if (kind < 2)
        draw_bytes(packed, len);
    else if (kind < 4)
        memset(packed, kind == 2 ? 0 : 255, len);
    else
        packed[at] ^= (uint8_t)(kind == 4 ? 1u << draw_below(8) : 1 + draw_below(255));
}

/* 1 if it was really another. */
static int ask_of_another(const struct result_record *r, const struct caldurrex_result *first)
{
    static uint8_t other[RECORD_ROOM], first_scores[SCORES_ROOM * sizeof(int32_t)];
    size_t packed = packed_at(r), first_len = operator_scores.lent->len;
    memcpy(first_scores, operator_scores.lent->at, first_len);
    memcpy(other, r->bytes, r->len);
    if (packed < r->len)
        change_packed(other + packed, r->len - packed);
    struct caldurrex_result second = ask_operator(r, other);
    struct reference_result x = plain(first), y = plain(&second);
    if (!same(&x, &y)) {
        print_answer("to this record", &x);
        print_answer("to one with other packed bits", &y);
        result_record_fail(r, "the operator: the answer tells packed bits apart");
    }
    if (second.refusal == 0 && memcmp(first_scores, operator_scores.lent->at, first_len) != 0)
        result_record_fail(r, "the operator: the scores tell packed bits apart");
    judge_operator(r, other, &second);
    return memcmp(other, r->bytes, r->len) != 0;
}

/* ---- a record */

/* Where both were told something, it was the same. */
static void judge_both(const struct result_record *r, const struct caldurrex_result *operator)
{
    struct reference_result x = plain(&told), y = plain(operator);
    if (x.refusal != 0 || y.refusal != 0)
        return;
    if (!same(&x, &y) || memcmp(scores.lent->at, operator_scores.lent->at, scores.lent->len) != 0)
        result_record_fail(r, "customer and operator are told different things");
}

struct result_answers result_read(const struct result_record *r)
{
    told = ask_customer(r);
    judge_customer(r, &told);
    struct caldurrex_result operator = ask_operator(r, r->bytes);
    judge_operator(r, r->bytes, &operator);
    judge_both(r, &operator);
    return (struct result_answers){told.refusal, operator.refusal, ask_of_another(r, &operator)};
}

void result_read_again(struct result_call *c)
{
    c->says.m = told.m;
    c->says.rows = told.rows;
    c->says.frame = told.frame;
    c->says.ceiling = told.ceiling;
    memcpy(c->says.scores, scores.lent->at, told.rows * sizeof c->says.scores[0]);
    memcpy(c->says.inputs, inputs.lent->at, (size_t)told.rows << told.m);
    result_call_again(c);
}
