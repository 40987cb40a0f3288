#include "result_sweep.h"

#include "caldurrex.h"
#include "draw.h"
#include "result_read.h"
#include "result_try.h"

#include <string.h>

/* Room enough for every record. */
static int32_t scores[RESULT_MAX_ROWS];
static uint8_t inputs[RESULT_MAX_ROWS << RESULT_MAX_M];

static struct result_record r;
static unsigned long swept;

/* ---- records that are refused: too many to give each of them guarded memory */

enum { DIRT = 0x55 };

static void make_dirty(void)
{
    memset(scores, DIRT, sizeof scores);
    memset(inputs, DIRT, sizeof inputs);
}

/* As far as so many inputs. */
static void judge_dirt(size_t inputs_len)
{
    int written = 0;
    for (size_t i = 0; i < RESULT_MAX_ROWS; i++)
        written |= scores[i] != 0x01010101 * DIRT;
    for (size_t i = 0; i < inputs_len; i++)
        written |= inputs[i] != DIRT;
    if (written)
        result_record_fail(&r, "in a sweep, a refused call wrote");
}

static int refused_so(const struct caldurrex_result *answer, uint32_t refusal)
{
    return answer->refusal == refusal && answer->m == 0 && answer->rows == 0 && answer->frame == 0 &&
           answer->ceiling == 0;
}

/* Both readers refuse the first len bytes of r so. */
static void refuse(size_t len, uint32_t refusal)
{
    struct caldurrex_result customer =
        caldurrex_read_result(r.bytes, len, scores, RESULT_MAX_ROWS, inputs, sizeof inputs);
    struct caldurrex_result operator = caldurrex_read_result_operator(r.bytes, len, scores, RESULT_MAX_ROWS);
    swept++;
    if (refused_so(&customer, refusal) && refused_so(&operator, refusal))
        return;
    r.len = len;
    result_record_fail(&r, refused_so(&customer, refusal) ? "in a sweep, the operator's answer differs"
                                                          : "in a sweep, the customer's answer differs");
}

/* ---- heads */

static uint32_t head_refusal(unsigned fields, unsigned m, unsigned rows)
{
    if (fields >= RESULT_FIELD_SETS)
        return 14;
    if (m < RESULT_MIN_M || m > RESULT_MAX_M)
        return 1;
    return rows < 1 || rows > RESULT_MAX_ROWS ? 4 : 0;
}

/* All row counts behind the first two bytes. The lengths are those of n = 4 with one row, which
 * is the least that a record has, of fields more, of the head alone, and of a longer record. */
static void sweep_rows(unsigned fields, unsigned m)
{
    static const size_t lengths[5] = {8, 3, 12, 16, 64};
    r.bytes[0] = (uint8_t)fields;
    r.bytes[1] = (uint8_t)m;
    for (unsigned rows = 0; rows < 256; rows++) {
        uint32_t refusal = head_refusal(fields, m, rows);
        r.bytes[2] = (uint8_t)rows;
        if (refusal != 0)
            refuse(lengths[(fields + m + rows) % 5], refusal);
    }
    judge_dirt(64);
}

void result_sweep_heads(void)
{
    result_record_good(&r, 2, 1, 0);
    draw_bytes(r.bytes + r.len, 64 - r.len);
    make_dirty();
    for (unsigned head = 0; head < 65536; head++)
        sweep_rows(head / 256, head % 256);
    judge_dirt(sizeof inputs);
}

/* ---- lengths */

static void sweep_lengths_of(uint32_t m, uint32_t rows, unsigned fields)
{
    result_record_good(&r, m, rows, fields);
    result_try_record(&r);
    size_t need = r.len;
    draw_bytes(r.bytes + need, 9);
    for (size_t len = 0; len < need + 9; len++)
        if (len != need)
            refuse(len, 13);
    judge_dirt((size_t)rows << m);
}

void result_sweep_lengths(void)
{
    make_dirty();
    for (uint32_t m = RESULT_MIN_M; m <= RESULT_MAX_M; m++)
        for (unsigned i = 0; i < RESULT_MAX_ROWS * RESULT_FIELD_SETS; i++)
            sweep_lengths_of(m, 1 + i / RESULT_FIELD_SETS, i % RESULT_FIELD_SETS);
    judge_dirt(sizeof inputs);
}

/* ---- values */

/* As a record in which these fields stand. */
static void read_values(const struct result *says, unsigned fields)
{
    int rises = result_first_rise(says) < says->rows;
    int bad_frame = fields & RESULT_FRAME && says->frame == 0;
    int bad_ceiling = fields & RESULT_CEILING && says->ceiling <= says->scores[0];
    r.kind = RECORD_MADE;
    r.says.frame = fields & RESULT_FRAME ? says->frame : 0;
    r.says.ceiling = fields & RESULT_CEILING ? says->ceiling : says->scores[0];
    memcpy(r.says.scores, says->scores, says->rows * sizeof says->scores[0]);
    r.fields = fields;
    r.faults = rises || bad_frame || bad_ceiling ? FAULT_RESULT : 0;
    r.refusal = r.faults ? 22 : 0;
    result_pack(&r);
    result_try_record(&r);
}

static void write_values(struct result_call *c)
{
    int bad = result_first_rise(&c->says) < c->says.rows || c->says.ceiling < c->says.scores[0];
    result_call_again(c);
    result_try_call_as(c, bad ? 22 : 0);
}

/* Ceiling and first score; with two rows both scores; with three rows the second score is the
 * third one, or one above or below it. */
void result_sweep_values(void)
{
    static struct result_call c;
    for (uint32_t rows = 1; rows <= 3; rows++) {
        result_call_good(&c, 2, rows, 0);
        result_record_good(&r, 2, rows, 0);
        for (size_t i = 0; i < END_NUMBERS * END_NUMBERS * (rows > 1 ? END_NUMBERS : 1); i++) {
            int32_t last = result_end_number(i / END_NUMBERS / END_NUMBERS), beside = last + (last < 0 ? 1 : -1);
            c.says.ceiling = result_end_number(i % END_NUMBERS);
            c.says.scores[0] = result_end_number(i / END_NUMBERS % END_NUMBERS);
            c.says.scores[1] = rows == 3 && draw_below(2) ? beside : last;
            c.says.scores[2] = last;
            c.says.frame = draw_below(2) ? 0 : 1u << draw_below(32);
            write_values(&c);
            read_values(&c.says, RESULT_CEILING | (unsigned)draw_below(2));
            read_values(&c.says, (unsigned)draw_below(2));
        }
    }
}

unsigned long result_swept(void)
{
    return swept;
}
