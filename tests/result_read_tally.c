#include "result_tally.h"

#include "result_events.h"

#include <stdio.h>

/* Records by the answer of each reader, and those that the library has written; by the operator's
 * answer, those of which he was asked again with other packed bits; what records have that the
 * customer was told of; what is the one fault of others. */
enum {
    TOLD, NOT_TOLD, OPERATOR_TOLD = TOLD + 7, OPERATOR_NOT_TOLD, WRITTEN = OPERATOR_TOLD + 7,
    ANOTHER, ANOTHER_NOT_TOLD, VALUES = ANOTHER + 7,
    ROWS_1 = VALUES, ROWS_SOME, ROWS_32, NO_FIELD, BOTH_FIELDS = NO_FIELD + 3, SAME, CEILING_NEXT, EXACT, SCORES_MORE,
    INPUTS_MORE, SCORES_FAR, INPUTS_FAR, HEADS,
    EMPTY = HEADS, BYTE_1, BYTE_2, CUT_1, LONGER_1, LONGER_FAR, BIT_2, BIT_7 = BIT_2 + 5, WITH_GOOD, M_0, M_1, M_11,
    M_255, ROW_0, ROW_33, ROW_255, BODIES,
    RISE_FIRST = BODIES, RISE_BETWEEN, RISE_LAST, RISE_FAR, FRAME_0, CEILING_SAME, SUNK_1, SUNK_FAR, SCORES_LESS_1,
    INPUTS_LESS_1, SCORES_0, INPUTS_0, LAID_OUT_0, LAID_OUT_33, EVENTS
};

static const char *const names[EVENTS] = {
    "told", "14", "1", "4", "13", "22", "10", "op", "14", "1", "4", "13", "22", "10", "writer",
    "op", "14", "1", "4", "13", "22", "10",
    "1 row", "rows", "32", "-", "frame", "ceil", "both", "same", "next", "exact", "sc +", "in +", "sc far", "in far",
    "empty", "1", "2", "-1", "+1", "far", "bit 2", "3", "4", "5", "6", "7", "with", "m 0", "1", "11", "255", "rows 0",
    "33", "255",
    "first", "betw", "last", "far", "frame", "ceil =", "-1", "far", "sc -1", "in -1", "sc 0", "in 0", "laid 0", "33"};

_Static_assert((int)EVENTS <= (int)RESULT_EVENTS, "there is room for the counts");

/* Records of fewer than three bytes with one fault more: 14, 1 or 10. */
enum { SHORT_FAULTS = 6 };
static const char *const short_name[SHORT_FAULTS] = {"empty, 10", "1 byte, 14", "1 byte, 10", "2 bytes, 14",
                                                     "2 bytes, 1", "2 bytes, 10"};

static const char *const kind_name[RECORD_KINDS - RECORD_FLIPPED] = {"a bit flipped", "random",
                                                                     "random behind a good head", "1 byte changed",
                                                                     "2 bytes", "3 bytes"};

static const char *const laid_out_name[3] = {"0", "1", "11"};

static struct result_events events;
static struct tally_both both[RESULT_MAX_M + 1];
static struct tally_totals totals;
static unsigned long shorts[SHORT_FAULTS], laid_out[3];
static unsigned long kinds[RECORD_KINDS - RECORD_FLIPPED], kinds_told[RECORD_KINDS - RECORD_FLIPPED];
static unsigned long past_n[4 * RESULT_MAX_ROWS]; /* by row, then by bit */

/* By m, then by bit. */
enum { FLIPS = 8 * FLIPPED_BYTES };
static unsigned long flips[(RESULT_MAX_M - RESULT_MIN_M + 1) * FLIPS];

/* ---- records that the customer was told of */

static void tally_told(const struct result_record *r, unsigned long *met)
{
    const struct result *says = &r->says;
    size_t rows = says->rows, all = rows << says->m;
    int same = 0;
    for (size_t row = 1; row < rows; row++)
        same |= says->scores[row] == says->scores[row - 1];
    met[SAME] += (unsigned long)same;
    met[rows == 1 ? ROWS_1 : rows == RESULT_MAX_ROWS ? ROWS_32 : ROWS_SOME]++;
    met[NO_FIELD + r->fields]++;
    met[CEILING_NEXT] += (int64_t)says->ceiling - says->scores[0] == 1;
    met[EXACT] += r->scores_len == rows && r->inputs_len == all;
    met[SCORES_MORE] += r->scores_len == rows + 1;
    met[INPUTS_MORE] += r->inputs_len == all + 1;
    met[SCORES_FAR] += r->scores_len > 65535;
    met[INPUTS_FAR] += r->inputs_len > 65535;
    met[WRITTEN] += r->kind == RECORD_WRITTEN;
}

/* ---- records with one fault */

static void tally_head(const struct result_record *r, unsigned long *met)
{
    static const uint8_t bad_m[4] = {0, 1, 11, 255}, bad_rows[3] = {0, 33, 255};
    for (size_t bit = 2; r->faults == FAULT_FIELD_MAP && bit < 8; bit++)
        met[BIT_2 + bit - 2] += r->bytes[0] == 1u << bit;
    met[WITH_GOOD] += r->faults == FAULT_FIELD_MAP && r->bytes[0] % 4 != 0;
    for (size_t j = 0; r->faults == FAULT_M && j < 4; j++)
        met[M_0 + j] += r->bytes[1] == bad_m[j];
    for (size_t j = 0; r->faults == FAULT_ROWS && j < 3; j++)
        met[ROW_0 + j] += r->bytes[2] == bad_rows[j];
    met[LAID_OUT_0] += r->faults == FAULT_ROWS && r->says.rows == 0;
    met[LAID_OUT_33] += r->faults == FAULT_ROWS && r->says.rows == 33;
}

static void tally_length(const struct result_record *r, unsigned long *met)
{
    size_t need = result_need(r->says.m, r->says.rows, r->fields);
    met[CUT_1] += r->len + 1 == need;
    met[LONGER_1] += r->len == need + 1;
    met[LONGER_FAR] += r->len == need + 65536;
}

/* What breaks 22 in more ways than one is not counted. */
static void tally_result(const struct result_record *r, unsigned long *met)
{
    const struct result *says = &r->says;
    size_t at = result_first_rise(says);
    int rises = at < says->rows, frame_0 = r->fields & RESULT_FRAME && says->frame == 0;
    int sunk = r->fields & RESULT_CEILING && says->ceiling <= says->scores[0];
    if (rises + frame_0 + sunk != 1)
        return;
    met[FRAME_0] += (unsigned long)frame_0;
    met[CEILING_SAME] += sunk && says->ceiling == says->scores[0];
    met[SUNK_1] += sunk && (int64_t)says->scores[0] - says->ceiling == 1;
    met[SUNK_FAR] += sunk && result_is_far(says->scores[0], says->ceiling);
    met[RISE_FIRST] += rises && at == 1;
    met[RISE_BETWEEN] += rises && at > 1 && at < says->rows - 1;
    met[RISE_LAST] += rises && at > 1 && at == says->rows - 1;
    met[RISE_FAR] += rises && result_is_far(says->scores[at], says->scores[at - 1]);
}

static void tally_rooms(const struct result_record *r, unsigned long *met)
{
    size_t rows = r->says.rows, all = rows << r->says.m;
    met[SCORES_LESS_1] += r->scores_len == rows - 1 && r->inputs_len >= all;
    met[INPUTS_LESS_1] += r->scores_len >= rows && r->inputs_len == all - 1;
    met[SCORES_0] += r->scores_len == 0 && r->inputs_len >= all;
    met[INPUTS_0] += r->scores_len >= rows && r->inputs_len == 0;
}

static void tally_past_n(const struct result_record *r)
{
    const uint8_t *packed = r->bytes + result_open_bytes(r->says.rows, r->fields);
    size_t at = 0, found = 0;
    for (size_t i = 0; i < 4 * (size_t)r->says.rows; i++)
        if (packed[i / 4] >> (4 + i % 4) & 1) {
            at = i;
            found++;
        }
    past_n[at] += found == 1;
}

static void tally_short(const struct result_record *r, unsigned long *met)
{
    static const struct {
        size_t len;
        unsigned faults;
    } named[SHORT_FAULTS] = {{0, FAULT_ROOM}, {1, FAULT_FIELD_MAP}, {1, FAULT_ROOM}, {2, FAULT_FIELD_MAP},
                             {2, FAULT_M}, {2, FAULT_ROOM}};
    met[EMPTY + r->len] += r->faults == 0 && r->refusal == 13;
    for (size_t j = 0; j < SHORT_FAULTS; j++)
        shorts[j] += r->len == named[j].len && r->faults == named[j].faults;
}

static void tally_faulty(const struct result_record *r, unsigned long *met)
{
    if (r->len < 3) {
        tally_short(r, met);
        return;
    }
    tally_faults(&both[r->m_of], r->faults);
    tally_head(r, met);
    if (r->faults == FAULT_LENGTH)
        tally_length(r, met);
    if (r->faults == FAULT_RESULT)
        tally_result(r, met);
    if (r->faults == FAULT_ROOM)
        tally_rooms(r, met);
    if (r->faults == FAULT_PACKED)
        tally_past_n(r);
}

/* ---- all records */

static void tally_answer(uint32_t answer, unsigned long *told, unsigned long *not_told)
{
    size_t place = 0;
    while (place + 1 < READ_REFUSALS && result_read_order[place] != answer)
        place++;
    *told += answer == 0;
    if (answer != 0 && answer != 21)
        not_told[place]++;
}

void result_read_tally(const struct result_record *r, struct result_answers answers)
{
    unsigned long *met = events.met[r->m_of];
    tally_call(&totals, answers.customer, 0);
    tally_answer(answers.customer, met + TOLD, met + NOT_TOLD);
    tally_answer(answers.operator, met + OPERATOR_TOLD, met + OPERATOR_NOT_TOLD);
    if (answers.was_another)
        tally_answer(answers.operator, met + ANOTHER, met + ANOTHER_NOT_TOLD);
    if (r->kind >= RECORD_FLIPPED) {
        kinds[r->kind - RECORD_FLIPPED]++;
        kinds_told[r->kind - RECORD_FLIPPED] += answers.customer == 0;
    } else if (r->says.m < RESULT_MIN_M || r->says.m > RESULT_MAX_M) {
        laid_out[r->says.m < 2 ? r->says.m : 2]++;
    } else if (answers.customer == 0) {
        tally_told(r, met);
    } else {
        tally_faulty(r, met);
    }
}

void result_read_tally_flip(uint32_t m, size_t bit)
{
    flips[(m - RESULT_MIN_M) * FLIPS + bit]++;
}

struct tally_totals result_read_tally_totals(void)
{
    return totals;
}

/* ---- the report */

static int report_tables(void)
{
    int reached = result_print_events(&events, names, 0, ANOTHER);
    printf("records that the customer was told of or refused, the same for the operator (op); told, and written by\n"
           "the library\n");
    reached &= result_print_events(&events, names, ANOTHER, VALUES);
    printf("by the operator's answer, records of which he was asked again, with other packed bits\n");
    reached &= result_print_events(&events, names, VALUES, HEADS);
    printf("told: one row, some, 32; fields; two scores the same; a ceiling next to the first score; rooms exact,\n"
           "with one number or byte more, above 65,535\n");
    reached &= result_print_events(&events, names, HEADS, BODIES);
    printf("refused for one fault: record empty, 1 byte, 2, one less, one more, 65,536 more; a map bit alone, with\n"
           "good ones; m; row count\n");
    reached &= result_print_events(&events, names, BODIES, EVENTS);
    printf("refused for one fault: scores that rise at the second row, between, at the last, by 2^31 or more (far); a\n"
           "frame number 0; a ceiling as the first score, one below, below by 2^31 or more (far); rooms one short,\n"
           "empty; a length as for wrong rows (laid)\n");
    return reached;
}

int result_read_tally_report(void)
{
    int reached = report_tables();
    reached &= result_print_order(both, result_read_order, READ_REFUSALS, READ_REFUSALS - 1);
    reached &= tally_print_named("records too short, with a fault more:", short_name, shorts, SHORT_FAULTS);
    reached &= tally_print_named("records as long as for m:", laid_out_name, laid_out, 3);
    reached &= tally_print_named("records of other bytes:", kind_name, kinds, RECORD_KINDS - RECORD_FLIPPED);
    reached &= tally_print_named("  of these told:", kind_name + 2, kinds_told + 2, RECORD_KINDS - RECORD_FLIPPED - 2);
    reached &= result_print_least("  flipped: by m, each bit of the first 15 bytes", flips,
                                  sizeof flips / sizeof flips[0]);
    reached &= result_print_least("refused with 21: each bit past n = 4 alone, in each row", past_n,
                                  sizeof past_n / sizeof past_n[0]);
    return reached;
}
