#include "result_limits.h"

#include "codec_calls.h"
#include "draw.h"
#include "result_try.h"

enum { TIMES = 4 };

static struct result_call c;

/* ---- m and the row count */

static void try_m(uint32_t m)
{
    for (size_t which = 0; which < TIMES * CALL_BAD_MS; which++) {
        result_call_any(&c, m);
        c.says.m = call_bad_m(m, which % CALL_BAD_MS);
        result_try_call_as(&c, 1);
    }
}

static void try_rows(uint32_t m)
{
    for (uint32_t rows = 1; rows <= RESULT_MAX_ROWS; rows++) {
        result_call_good(&c, m, rows, result_draw_fields());
        result_try_call(&c);
    }
    for (size_t which = 0; which < TIMES * BAD_ROWS; which++) {
        result_call_any(&c, m);
        c.says.rows = result_bad_rows(c.rows_of, which % BAD_ROWS);
        result_try_call_as(&c, 4);
    }
}

/* As many as there can be, with each set of fields: the longest records. */
static void try_full(uint32_t m)
{
    for (unsigned i = 0; i < TIMES * RESULT_FIELD_SETS; i++) {
        result_call_good(&c, m, RESULT_MAX_ROWS, i % RESULT_FIELD_SETS);
        result_try_call(&c);
    }
}

/* Without the refusal of m or of the row count nothing would be wrong with these. */
static void try_laid_out(uint32_t m)
{
    static const uint32_t bad_m[3] = {0, 1, 11};
    for (size_t which = 0; which < 2 * TIMES; which++) {
        unsigned fields = result_draw_fields();
        result_call_laid_out(&c, m, which % 2 ? 0 : 33, fields);
        result_try_call(&c);
        uint32_t rows = result_draw_rows(m);
        result_call_laid_out(&c, bad_m[draw_below(3)], rows, fields);
        result_try_call(&c);
    }
}

/* ---- lengths */

static void try_lengths(uint32_t m)
{
    for (size_t which = 0; which < TIMES * BAD_LENGTHS; which++) {
        result_call_any(&c, m);
        result_set_bad_lengths(&c, which % BAD_LENGTHS);
        result_try_call_as(&c, 6);
    }
}

/* Every set of fields, and outputs on both sides of the record's length. */
static void try_outputs(uint32_t m)
{
    for (unsigned i = 0; i < RESULT_FIELD_SETS * OUTPUTS; i++) {
        result_call_good(&c, m, result_draw_rows(m), i / OUTPUTS);
        c.record_len = result_output_len(&c, i % OUTPUTS);
        result_try_call_as(&c, i % OUTPUTS < SHORT_OUTPUTS ? 10 : 0);
    }
}

/* ---- values */

/* A byte above 1, alone: 2, 255, and any in the last place of the row. */
static void try_bytes(uint32_t m)
{
    size_t n = (size_t)1 << m;
    result_call_good(&c, m, RESULT_MAX_ROWS, 0);
    for (size_t i = 0; i < 3 * TIMES * RESULT_MAX_ROWS; i++) {
        const uint8_t values[3] = {2, 255, (uint8_t)(2 + draw_below(254))};
        size_t row = i / 3 % RESULT_MAX_ROWS, position = i % 3 == 2 ? n - 1 : draw_below(n);
        result_set_byte(&c, row, position, values[i % 3]);
        result_try_call_as(&c, 11);
        result_set_byte(&c, row, position, draw_below(2) == 0);
    }
}

/* At every row behind the first one. Where n is large, no rows follow on most of them. */
static void try_rises(uint32_t m)
{
    static const uint32_t rows[5] = {2, 3, 4, 5, 32};
    for (size_t which = 0; which < 5 * TIMES; which++)
        for (uint32_t at = 1; at < rows[which % 5]; at++) {
            result_call_good(&c, m, m < 7 || at < 3 ? rows[which % 5] : at + 1, result_draw_fields());
            result_rise(&c.says, at);
            result_try_call_as(&c, 22);
        }
}

/* Each of the numbers at which something ends as the first score; every second time all scores are
 * the same. */
static void draw_with_first(uint32_t m, size_t which)
{
    int32_t first = result_end_number(which / 2 % END_NUMBERS);
    result_call_any(&c, m);
    result_hold(c.says.scores, c.says.rows, first);
    c.says.scores[0] = first;
    for (size_t r = 1; which % 2 && r < c.says.rows; r++)
        c.says.scores[r] = first;
}

/* A ceiling that is the first score, next to it above and below, the highest and the lowest. */
static void try_ceilings(uint32_t m)
{
    for (size_t which = 0; which < 5 * TIMES * END_NUMBERS; which++) {
        draw_with_first(m, which % (2 * END_NUMBERS));
        int64_t first = c.says.scores[0];
        const int64_t ceilings[5] = {first, first + 1, first - 1, INT32_MAX, INT32_MIN};
        int64_t ceiling = ceilings[which / (2 * END_NUMBERS) % 5];
        if (ceiling < INT32_MIN || ceiling > INT32_MAX)
            continue;
        c.says.ceiling = (int32_t)ceiling;
        result_call_again(&c);
        result_try_call_as(&c, ceiling < first ? 22 : 0);
    }
}

/* Anywhere below the first score. */
static void try_sunk_ceilings(uint32_t m)
{
    for (size_t which = 0; which < 4 * TIMES; which++) {
        result_call_any(&c, m);
        result_sink_ceiling(&c.says);
        result_try_call_as(&c, 22);
    }
}

/* Nothing, and one byte or all of them. */
static void try_frames(uint32_t m)
{
    for (size_t which = 0; which < 7 * TIMES; which++) {
        uint32_t byte = 1 + (uint32_t)draw_below(255);
        const uint32_t frames[7] = {0, 1, UINT32_MAX, byte, byte << 8, byte << 16, byte << 24};
        result_call_any(&c, m);
        c.says.frame = frames[which % 7];
        result_call_again(&c);
        result_try_call(&c);
    }
}

/* ---- all of them */

void result_try_limits(uint32_t m)
{
    try_m(m);
    try_rows(m);
    try_full(m);
    try_laid_out(m);
    try_lengths(m);
    try_outputs(m);
    try_bytes(m);
    try_rises(m);
    try_sunk_ceilings(m);
    try_ceilings(m);
    try_frames(m);
    for (unsigned faults = 1; faults < TIMES * WRITE_FAULT_SETS; faults++) {
        result_call_any(&c, m);
        result_call_spoil(&c, faults % WRITE_FAULT_SETS);
        result_try_call(&c);
    }
}
