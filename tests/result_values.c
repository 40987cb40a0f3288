#include "result_values.h"

#include "draw.h"

#include <string.h>

/* ---- numbers */

int32_t result_any_number(void)
{
    return (int32_t)((int64_t)(draw() >> 32) + INT32_MIN);
}

int32_t result_end_number(size_t which)
{
    static const int32_t all[END_NUMBERS] = {INT32_MIN, INT32_MIN + 1, -65536, -256, -2, -1, 0, 1, 255, 256, 65536,
                                             1 << 24, INT32_MAX - 1, INT32_MAX};
    return all[which];
}

int result_is_far(int32_t high, int32_t low)
{
    return (int64_t)high - low > INT32_MAX;
}

static int64_t any_between(int64_t first, int64_t last)
{
    return first + (int64_t)(draw() % (uint64_t)(last - first + 1));
}

int32_t result_number_above(int32_t score)
{
    int64_t next = (int64_t)score + 1;
    const int64_t all[4] = {next, next, INT32_MAX, any_between(next, INT32_MAX)};
    return (int32_t)all[draw_below(4)];
}

int32_t result_number_below(int32_t score)
{
    int64_t next = (int64_t)score - 1;
    const int64_t all[4] = {next, next, INT32_MIN, any_between(INT32_MIN, next)};
    return (int32_t)all[draw_below(4)];
}

/* ---- scores */

/* All the same; next to each other; as a decoder gives them; all over the 32 bits; from one end
 * to the other. */
enum score_kind { SAME, CLOSE, USUAL, SPREAD, ENDS, SCORE_KINDS };

static int32_t draw_first(enum score_kind kind)
{
    switch (kind) {
    case USUAL: return (int32_t)draw_below(2047 * 1024);
    case ENDS: return INT32_MAX - (int32_t)draw_below(2);
    default: return draw_below(3) ? result_end_number(draw_below(END_NUMBERS)) : result_any_number();
    }
}

/* By how much the next score is lower. */
static int64_t draw_step(enum score_kind kind)
{
    switch (kind) {
    case CLOSE: return (int64_t)draw_below(3);
    case USUAL: return (int64_t)draw_below(4096);
    case SPREAD: return (int64_t)draw_below((size_t)1 << 29);
    case ENDS: return draw_below(4) ? 0 : UINT32_MAX;
    default: return 0;
    }
}

static void draw_scores(int32_t *scores, size_t rows)
{
    enum score_kind kind = (enum score_kind)draw_below(SCORE_KINDS);
    int64_t score = draw_first(kind);
    for (size_t r = 0; r < rows; r++) {
        scores[r] = (int32_t)score;
        score -= draw_step(kind);
        if (score < INT32_MIN)
            score = INT32_MIN;
    }
}

void result_hold(int32_t *scores, size_t rows, int32_t most)
{
    for (size_t r = 0; r < rows; r++)
        if (scores[r] > most)
            scores[r] = most;
}

void result_rise(struct result *r, size_t at)
{
    int32_t *scores = r->scores;
    if (draw_below(3) == 0)
        scores[at - 1] = INT32_MIN;
    if (scores[at - 1] == INT32_MAX)
        scores[at - 1]--;
    scores[at] = result_number_above(scores[at - 1]);
    result_hold(scores + at + 1, r->rows - at - 1, scores[at]);
}

void result_sink_ceiling(struct result *r)
{
    if (r->scores[0] == INT32_MIN)
        r->scores[0] = result_number_above(INT32_MIN);
    r->ceiling = result_number_below(r->scores[0]);
}

size_t result_first_rise(const struct result *r)
{
    size_t at = 1;
    while (at < r->rows && r->scores[at] <= r->scores[at - 1])
        at++;
    return at;
}

/* ---- results */

/* Any but 0; some have nothing but 0 in three of their bytes. */
static uint32_t draw_frame(void)
{
    uint32_t any = 1 + (uint32_t)draw_below(UINT32_MAX), bit = (uint32_t)draw_below(32);
    uint32_t byte = (uint32_t)(1 + draw_below(255)) << bit / 8 * 8;
    const uint32_t all[8] = {1, UINT32_MAX, 0x80000000u, 0x7fffffff, 1u << bit, byte, 1 + any % 65536, any};
    return all[draw_below(8)];
}

/* Any bits, few ones, all 0, all 1. */
static void draw_inputs(uint8_t *inputs, size_t len)
{
    size_t kind = draw_below(8);
    if (kind > 1)
        draw_bytes(inputs, len);
    else
        memset(inputs, (int)kind, len);
    for (size_t i = 0; i < len; i++)
        inputs[i] = kind == 2 ? inputs[i] > 250 : inputs[i] & 1;
}

void result_draw(struct result *r, uint32_t m, uint32_t rows, unsigned fields)
{
    size_t drawn = rows > 0 ? rows : 1; /* a ceiling wants a score */
    r->m = m;
    r->rows = rows;
    r->frame = fields & RESULT_FRAME ? draw_frame() : 0;
    draw_scores(r->scores, drawn);
    if (fields & RESULT_CEILING)
        result_hold(r->scores, drawn, INT32_MAX - 1);
    r->ceiling = fields & RESULT_CEILING ? result_number_above(r->scores[0]) : r->scores[0];
    draw_inputs(r->inputs, (size_t)rows << m);
}

uint32_t result_draw_rows(uint32_t m)
{
    uint32_t any = (uint32_t)draw_below(32);
    const uint32_t all[8] = {1, 2, 3, 4, 1 + any % 8, 31, 32, 1 + any};
    return all[draw_below(m < 7 || draw_below(4) == 0 ? 8 : 5)];
}

uint32_t result_draw_m(void)
{
    return RESULT_MIN_M + (uint32_t)draw_below(draw_below(2) ? 3 : RESULT_MAX_M - RESULT_MIN_M + 1);
}

unsigned result_draw_fields(void)
{
    return (unsigned)draw_below(RESULT_FIELD_SETS);
}

unsigned result_fields(const struct result *r)
{
    return (r->frame != 0 ? RESULT_FRAME : 0) | (r->ceiling != r->scores[0] ? RESULT_CEILING : 0);
}

size_t result_packed_row(uint32_t m)
{
    return m < 3 ? 1 : (size_t)1 << (m - 3);
}

size_t result_open_bytes(uint32_t rows, unsigned fields)
{
    static const size_t of_fields[RESULT_FIELD_SETS] = {0, 4, 4, 8};
    return 3 + of_fields[fields] + 4 * (size_t)rows;
}

size_t result_need(uint32_t m, uint32_t rows, unsigned fields)
{
    return result_open_bytes(rows, fields) + rows * result_packed_row(m);
}
