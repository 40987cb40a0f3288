#include "result_try.h"

#include "draw.h"
#include "result_check.h"
#include "result_read.h"
#include "result_tally.h"

#include <string.h>

static unsigned long written_again;

/* To an output that is often longer. */
static void write_again(const struct result_record *r)
{
    static struct result_call again;
    result_read_again(&again);
    again.record_len += draw_below(2) ? 0 : draw_below(64);
    result_check(&again);
    if (result_call_need(&again) != r->len || memcmp(result_output(), r->bytes, r->len) != 0)
        result_record_fail(r, "what the customer is told is written to other bytes");
    written_again++;
}

void result_try_record(const struct result_record *r)
{
    struct result_answers answers = result_read(r);
    result_read_tally(r, answers);
    if (answers.customer == 0)
        write_again(r);
}

/* The record that a served call has written, with rooms of any good length. */
static void read_back(const struct result_call *c)
{
    static struct result_record r;
    size_t rows = c->says.rows;
    r.kind = RECORD_WRITTEN;
    r.says.m = r.m_of = c->says.m;
    r.says.rows = c->says.rows;
    r.says.frame = c->says.frame;
    r.says.ceiling = c->says.ceiling;
    memcpy(r.says.scores, c->says.scores, rows * sizeof r.says.scores[0]);
    memcpy(r.says.inputs, c->says.inputs, rows << c->says.m);
    r.fields = result_fields(&c->says);
    r.len = result_call_need(c);
    memcpy(r.bytes, result_output(), r.len);
    r.faults = r.refusal = 0;
    result_draw_rooms(&r);
    result_try_record(&r);
}

void result_try_call(const struct result_call *c)
{
    result_check(c);
    result_tally(c);
    if (c->refusal == 0)
        read_back(c);
}

void result_try_call_as(struct result_call *c, uint32_t refusal)
{
    size_t place = 0;
    while (place < WRITE_REFUSALS && result_write_order[place] != refusal)
        place++;
    c->refusal = refusal;
    c->faults = refusal == 0 ? 0 : 1u << place;
    result_try_call(c);
}

void result_try_flip(struct result_record *r, size_t bit)
{
    r->kind = RECORD_FLIPPED;
    r->refusal = RESULT_UNKNOWN;
    r->bytes[bit / 8] ^= (uint8_t)(1u << (bit % 8));
    result_try_record(r);
    result_read_tally_flip(r->m_of, bit);
}

unsigned long result_written_again(void)
{
    return written_again;
}
