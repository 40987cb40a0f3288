#include "result_calls.h"

#include "codec_calls.h"
#include "draw.h"

const uint32_t result_write_order[WRITE_REFUSALS] = {1, 4, 6, 11, 22, 10};

/* Faults by their place in the order. */
enum { FAULT_1 = 1, FAULT_4 = 2, FAULT_6 = 4, FAULT_11 = 8, FAULT_22 = 16, FAULT_10 = 32 };

static size_t size_of(const struct result_call *c)
{
    return (size_t)1 << c->m_of;
}

/* ---- calls that are served */

void result_call_again(struct result_call *c)
{
    c->m_of = c->says.m;
    c->rows_of = c->says.rows;
    c->scores_len = c->rows_of;
    c->inputs_len = c->rows_of * size_of(c);
    c->record_len = result_call_need(c);
    c->faults = c->refusal = 0;
}

void result_call_good(struct result_call *c, uint32_t m, uint32_t rows, unsigned fields)
{
    result_draw(&c->says, m, rows, fields);
    result_call_again(c);
}

void result_call_any(struct result_call *c, uint32_t m)
{
    uint32_t rows = result_draw_rows(m);
    result_call_good(c, m, rows, result_draw_fields());
}

size_t result_call_need(const struct result_call *c)
{
    return result_need(c->m_of, c->rows_of, result_fields(&c->says));
}

size_t result_output_len(const struct result_call *c, size_t which)
{
    size_t need = result_call_need(c), open = result_open_bytes(c->rows_of, result_fields(&c->says));
    size_t less = draw_below(need), more = draw_below(4096);
    const size_t all[OUTPUTS] = {
        need - 1, 0, less, 3, open, need, need + 1, need + more % 16, 2 * need + more, 4235, 65537 + less,
    };
    return all[which] < need && which >= SHORT_OUTPUTS ? need : all[which];
}

/* ---- faults */

void result_call_laid_out(struct result_call *c, uint32_t m, uint32_t rows, unsigned fields)
{
    int m_is_bad = m < RESULT_MIN_M || m > RESULT_MAX_M;
    result_call_good(c, m, rows, fields);
    c->faults = m_is_bad ? FAULT_1 : FAULT_4;
    c->refusal = m_is_bad ? 1 : 4;
}

/* Some are right to a narrow register, or to the byte that stands in the record. */
uint32_t result_bad_rows(uint32_t rows, size_t which)
{
    const uint32_t all[BAD_ROWS] = {
        0, 33, 34, 63, 64, 127, 128, 255, 256, UINT32_MAX - 1, UINT32_MAX, rows + 32, rows + 64, rows + 128,
        rows + 256, rows + 65536, rows + 0x80000000u, 33 + (uint32_t)draw_below(UINT32_MAX - 33u),
    };
    return all[which];
}

/* What is behind the old lengths is as good as what is before. */
static void set_lengths(struct result_call *c, size_t scores_len, size_t inputs_len)
{
    for (size_t r = c->scores_len; r < scores_len; r++)
        c->says.scores[r] = c->says.scores[r - 1];
    for (size_t i = c->inputs_len; i < inputs_len; i++)
        c->says.inputs[i] = i % 3 == 0;
    c->scores_len = scores_len;
    c->inputs_len = inputs_len;
}

/* First those of the inputs alone, then those of the scores alone, then both as for a row less or
 * more, or for none. What would be right is one too long. */
void result_set_bad_lengths(struct result_call *c, size_t which)
{
    size_t rows = c->rows_of, n = size_of(c), all = n * rows, packed = rows * result_packed_row(c->m_of);
    const size_t lengths[BAD_LENGTHS][2] = {
        {rows, all - 1}, {rows, all + 1}, {rows, 0}, {rows, all - n}, {rows, all + n}, {rows, 2 * all},
        {rows, all / 2}, {rows, packed}, {rows, n}, {rows, 32 * n}, {rows, all + 65536}, {rows, draw_below(all)},
        {rows - 1, all}, {rows + 1, all}, {0, all}, {2 * rows, all}, {32, all}, {all, all}, {rows + 65536, all},
        {rows - 1, all - n}, {rows + 1, all + n}, {0, 0}, {rows - 1, all - 1}, {rows + 1, all + 1},
    };
    int right = lengths[which][0] == rows && lengths[which][1] == all;
    set_lengths(c, lengths[which][0] + (right && which > 11), lengths[which][1] + (right && which <= 11));
}

void result_set_byte(struct result_call *c, size_t row, size_t position, uint8_t byte)
{
    c->says.inputs[row * size_of(c) + position] = byte;
}

static void set_bytes_above_1(struct result_call *c)
{
    for (size_t times = draw_below(2) ? 1 : 1 + draw_below(8); times > 0; times--) {
        const uint8_t values[6] = {2, 3, 128, 254, 255, (uint8_t)(2 + draw_below(254))};
        size_t row = draw_below(c->rows_of), position = draw_below(size_of(c));
        result_set_byte(c, row, position, values[draw_below(6)]);
    }
}

static void break_result(struct result *r)
{
    if (r->rows == 1 || draw_below(4) == 0)
        result_sink_ceiling(r);
    else
        result_rise(r, 1 + draw_below(r->rows - 1));
}

void result_call_spoil(struct result_call *c, unsigned faults)
{
    /* From the last refusal to the first: what a fault is measured by is spoiled only after
     * it, and the refusal set last is the first one in the order. */
    c->faults = faults;
    if (faults & FAULT_10)
        c->record_len = result_output_len(c, draw_below(SHORT_OUTPUTS));
    if (faults & FAULT_22)
        break_result(&c->says);
    if (faults & FAULT_11)
        set_bytes_above_1(c);
    if (faults & FAULT_6)
        result_set_bad_lengths(c, draw_below(BAD_LENGTHS));
    if (faults & FAULT_4)
        c->says.rows = result_bad_rows(c->rows_of, draw_below(BAD_ROWS));
    if (faults & FAULT_1)
        c->says.m = call_bad_m(c->m_of, draw_below(CALL_BAD_MS));
    for (size_t j = WRITE_REFUSALS; j > 0; j--)
        if (faults >> (j - 1) & 1)
            c->refusal = result_write_order[j - 1];
}
