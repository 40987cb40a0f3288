#include "result_tally.h"

#include "reference_result.h"
#include "result_events.h"

#include <stdio.h>

/* Calls by their answer, then what served ones have, then what is the one fault of refused ones. */
enum {
    SERVED, REFUSED_1, REFUSED_4, REFUSED_6, REFUSED_11, REFUSED_22, REFUSED_10,
    ROWS_1, ROWS_SOME, ROWS_32, EXACT, ONE_MORE, FAR_MORE, VALUES,
    FRAME_0 = VALUES, FRAME_1, FRAME_MAX, FRAME_BYTE, CEILING_SAME = FRAME_BYTE + 4, CEILING_NEXT, CEILING_MAX,
    CEILING_MIN, CEILING_FAR, ALL_SAME, HAS_MIN, HAS_MAX, HAS_MINUS_1, HAS_0, FALLS_FAR, FAULTS,
    M_0 = FAULTS, M_11, M_33, M_MAX, M_256, ROW_0, ROW_33, ROW_MAX, ROW_256, LAID_OUT_0, LAID_OUT_33,
    IN_SHORT, IN_LONG, SCORES_SHORT, SCORES_LONG, LATE_FAULTS,
    RISE_FIRST = LATE_FAULTS, RISE_BETWEEN, RISE_LAST, RISE_FAR, SUNK_1, SUNK_MIN, SUNK_FAR, LESS_1, EMPTY, EVENTS
};

static const char *const names[EVENTS] = {
    "served", "1", "4", "6", "11", "22", "10", "1 row", "rows", "32", "exact", "+1", "far",
    "0", "1", "2^32-1", "byte 0", "byte 1", "byte 2", "byte 3", "ceil =", "+1", "max", "min", "far", "same", "min",
    "max", "-1", "0", "fall",
    "m 0", "11", "33", "2^32-1", "+256", "rows 0", "33", "2^32-1", "+256", "laid 0", "33", "in -", "in +", "sc -",
    "sc +",
    "first", "betw", "last", "far", "ceil-1", "min", "far", "out -1", "empty"};

_Static_assert((int)EVENTS <= (int)RESULT_EVENTS, "there is room for the counts");

static struct result_events events;
static struct tally_both both[RESULT_MAX_M + 1];
static struct tally_totals totals;

/* By m, then by row, a byte above 1 that is alone: 2, 255, and any in the last place. */
static unsigned long bytes[(RESULT_MAX_M - RESULT_MIN_M + 1) * RESULT_MAX_ROWS * 3];

/* Lengths as for a wrong m. */
enum { LAID_OUT = 3 };
static const char *const laid_out_name[LAID_OUT] = {"0", "1", "11"};
static unsigned long laid_out[LAID_OUT];

/* Records of the greatest length. */
static unsigned long longest;

/* ---- calls that are served */

static void tally_scores(const struct result *says, unsigned long *met)
{
    int has[5] = {0};
    for (size_t r = 0; r < says->rows; r++) {
        int32_t score = says->scores[r];
        has[0] |= score == INT32_MIN;
        has[1] |= score == INT32_MAX;
        has[2] |= score == -1;
        has[3] |= score == 0;
        has[4] |= r > 0 && result_is_far(says->scores[r - 1], score);
    }
    for (size_t j = 0; j < 5; j++)
        met[HAS_MIN + j] += (unsigned long)has[j];
    met[ALL_SAME] += says->rows > 1 && says->scores[0] == says->scores[says->rows - 1];
}

static void tally_fields(const struct result *says, unsigned long *met)
{
    int32_t first = says->scores[0], ceiling = says->ceiling;
    met[FRAME_0] += says->frame == 0;
    met[FRAME_1] += says->frame == 1;
    met[FRAME_MAX] += says->frame == UINT32_MAX;
    for (size_t j = 0; j < 4; j++)
        met[FRAME_BYTE + j] += says->frame != 0 && (says->frame & ~((uint32_t)255 << (8 * j))) == 0;
    met[CEILING_SAME] += ceiling == first;
    met[CEILING_NEXT] += (int64_t)ceiling - first == 1;
    met[CEILING_MAX] += ceiling == INT32_MAX;
    met[CEILING_MIN] += ceiling == INT32_MIN;
    met[CEILING_FAR] += result_is_far(ceiling, first);
}

static void tally_served(const struct result_call *c, unsigned long *met)
{
    size_t need = result_call_need(c);
    met[c->says.rows == 1 ? ROWS_1 : c->says.rows == RESULT_MAX_ROWS ? ROWS_32 : ROWS_SOME]++;
    longest += need == REFERENCE_RESULT_BYTES;
    met[EXACT] += c->record_len == need;
    met[ONE_MORE] += c->record_len == need + 1;
    met[FAR_MORE] += c->record_len > 65536;
    tally_fields(&c->says, met);
    tally_scores(&c->says, met);
}

/* ---- calls with one fault */

static void tally_numbers(const struct result_call *c, unsigned long *met)
{
    static const uint32_t named_m[4] = {0, 11, 33, UINT32_MAX}, named_rows[3] = {0, 33, UINT32_MAX};
    for (size_t j = 0; c->refusal == 1 && j < 4; j++)
        met[M_0 + j] += c->says.m == named_m[j];
    for (size_t j = 0; c->refusal == 4 && j < 3; j++)
        met[ROW_0 + j] += c->says.rows == named_rows[j];
    met[M_256] += c->refusal == 1 && c->says.m == c->m_of + 256;
    met[ROW_256] += c->refusal == 4 && c->says.rows == c->rows_of + 256;
    met[LAID_OUT_0] += c->refusal == 4 && c->rows_of == 0;
    met[LAID_OUT_33] += c->refusal == 4 && c->rows_of == 33;
}

static void tally_lengths(const struct result_call *c, unsigned long *met)
{
    size_t all = (size_t)c->rows_of << c->m_of;
    met[IN_SHORT] += c->inputs_len < all && c->scores_len == c->rows_of;
    met[IN_LONG] += c->inputs_len > all && c->scores_len == c->rows_of;
    met[SCORES_SHORT] += c->inputs_len == all && c->scores_len < c->rows_of;
    met[SCORES_LONG] += c->inputs_len == all && c->scores_len > c->rows_of;
}

static void tally_bytes(const struct result_call *c)
{
    size_t n = (size_t)1 << c->m_of, at = 0, found = 0;
    for (size_t i = 0; i < c->inputs_len; i++)
        if (c->says.inputs[i] > 1) {
            at = i;
            found++;
        }
    if (found != 1)
        return;
    unsigned long *met = bytes + 3 * ((c->m_of - RESULT_MIN_M) * RESULT_MAX_ROWS + at / n);
    met[0] += c->says.inputs[at] == 2;
    met[1] += c->says.inputs[at] == 255;
    met[2] += at % n == n - 1;
}

static void tally_result(const struct result *says, unsigned long *met)
{
    size_t at = result_first_rise(says);
    if (at < says->rows) {
        met[RISE_FIRST] += at == 1;
        met[RISE_BETWEEN] += at > 1 && at < says->rows - 1;
        met[RISE_LAST] += at > 1 && at == says->rows - 1;
        met[RISE_FAR] += result_is_far(says->scores[at], says->scores[at - 1]);
        return;
    }
    met[SUNK_1] += (int64_t)says->scores[0] - says->ceiling == 1;
    met[SUNK_MIN] += says->ceiling == INT32_MIN;
    met[SUNK_FAR] += result_is_far(says->scores[0], says->ceiling);
}

static void tally_one_fault(const struct result_call *c, unsigned long *met)
{
    switch (c->refusal) {
    case 1:
    case 4:
        tally_numbers(c, met);
        break;
    case 6:
        tally_lengths(c, met);
        break;
    case 11:
        tally_bytes(c);
        break;
    case 22:
        tally_result(&c->says, met);
        break;
    default:
        met[LESS_1] += c->record_len + 1 == result_call_need(c);
        met[EMPTY] += c->record_len == 0;
    }
}

void result_tally(const struct result_call *c)
{
    tally_call(&totals, c->refusal, 0);
    if (c->m_of < RESULT_MIN_M || c->m_of > RESULT_MAX_M) {
        laid_out[c->m_of < 2 ? c->m_of : 2]++;
        return;
    }
    unsigned long *met = events.met[c->m_of];
    size_t place = 0;
    tally_faults(&both[c->m_of], c->faults);
    if (c->refusal == 0) {
        met[SERVED]++;
        tally_served(c, met);
        return;
    }
    while (result_write_order[place] != c->refusal)
        place++;
    met[REFUSED_1 + place]++;
    if (c->faults == 1u << place)
        tally_one_fault(c, met);
}

struct tally_totals result_tally_totals(void)
{
    return totals;
}

/* ---- the report */

int result_tally_report(void)
{
    static const char *const of_4235[1] = {"the longest"};
    int reached = result_print_events(&events, names, 0, VALUES);
    printf("calls of the writer, served, refused; served: with one row, some, 32; with an output of the record's\n"
           "length, one more, above 65,536 bytes (far)\n");
    reached &= result_print_events(&events, names, VALUES, FAULTS);
    printf("served, by values: frame number, with one byte that is not 0; ceiling as the first score (=), next to it,\n"
           "2^31 - 1, -2^31, above it by 2^31 or more (far); scores all the same, with -2^31, 2^31 - 1, -1, 0,\n"
           "falling by 2^31 or more (fall)\n");
    reached &= result_print_events(&events, names, FAULTS, LATE_FAULTS);
    printf("refused for one fault: m, m + 256; rows, rows + 256, lengths as for wrong rows (laid); inputs too short,\n"
           "too long, scores too few, too many\n");
    reached &= result_print_events(&events, names, LATE_FAULTS, EVENTS);
    printf("refused for one fault: scores that rise at the second row, between, at the last, by 2^31 or more (far);\n"
           "ceiling one below the first score, -2^31, below it by 2^31 or more (far); an output one byte short,\n"
           "empty\n");
    reached &= result_print_order(both, result_write_order, WRITE_REFUSALS, WRITE_REFUSALS);
    reached &= tally_print_named("refused with 1, lengths as for m:", laid_out_name, laid_out, LAID_OUT);
    reached &= tally_print_named("records:", of_4235, &longest, 1);
    reached &= result_print_least("refused with 11: by m and row, a byte 2, a byte 255, a last byte above 1, alone",
                                  bytes, sizeof bytes / sizeof bytes[0]);
    return reached;
}
