#include "writer_calls.h"

#include "draw.h"

#include <string.h>

const uint32_t writer_order[WRITER_REFUSALS] = {1, 2, 3, 15, 4, 5, 6, 7, 10};

/* Faults by their place in the order. */
enum { FAULT_3 = 1 << 2, FAULT_15 = 1 << 3, FAULT_10 = 1 << 8 };
enum { BEFORE_15 = FAULT_15 - 1, FROM_4_TO_7 = FAULT_10 - 2 * FAULT_15 };

static uint32_t among(const uint32_t *all, size_t count)
{
    return all[draw_below(count)];
}

/* ---- calls that are served */

/* Any list size but 4. */
static uint32_t draw_list_size(void)
{
    const uint32_t all[8] = {1, 2, 3, 5, 31, 32, 1 + (uint32_t)draw_below(3), 5 + (uint32_t)draw_below(28)};
    return among(all, 8);
}

/* Any stop position below n. */
static uint32_t draw_stop(uint32_t n)
{
    const uint32_t all[5] = {0, 1, n / 2, n - 1, (uint32_t)draw_below(n)};
    return among(all, 5);
}

/* Any frame number but 0; some have nothing but 0 in three of their bytes. */
static uint32_t draw_frame(void)
{
    const uint32_t all[12] = {1, 255, 256, 65535, 65536, 1u << 24, 0x7fffffff, 0x80000000u, UINT32_MAX,
                              1 + (uint32_t)draw_below(UINT32_MAX), 1u << draw_below(32), 4};
    return among(all, 12);
}

/* A map that allows the pairs asked for; soft values of every kind but those made from a word. */
static void draw_code(struct decoder_call *job, uint32_t m, uint32_t list_size, uint32_t stop, int with_pairs)
{
    do {
        enum code_kind code = (enum code_kind)draw_below(CODE_KINDS);
        decoder_call_good(job, m, code, (enum soft_kind)draw_below(SOFT_NOISY), list_size, stop);
        if (with_pairs && job->pairs.len == 0)
            pairs_draw(&job->pairs, job->map, (size_t)1 << m, (enum pair_kind)(1 + draw_below(PAIR_KINDS - 1)));
    } while (with_pairs && job->pairs.len == 0);
    if (!with_pairs)
        job->pairs.len = 0;
}

void writer_call_good(struct writer_call *c, uint32_t m, unsigned fields)
{
    uint32_t n = (uint32_t)1 << m;
    uint32_t list_size = fields & JOB_LIST_SIZE ? draw_list_size() : 4, stop = fields & JOB_STOP ? draw_stop(n) : n;
    draw_code(&c->job, m, list_size, stop, (fields & JOB_PAIRS) != 0);
    c->frame = fields & JOB_FRAME ? draw_frame() : 0;
    c->record_len = writer_need(c);
    c->sizes_of = m;
    c->faults = 0;
}

unsigned writer_fields(const struct writer_call *c)
{
    const struct decoder_call *job = &c->job;
    return (job->list_size != 4 ? JOB_LIST_SIZE : 0) | (job->stop != (uint32_t)1 << job->m ? JOB_STOP : 0) |
           (c->frame != 0 ? JOB_FRAME : 0) | (job->pairs.len > 0 ? JOB_PAIRS : 0);
}

size_t writer_need(const struct writer_call *c)
{
    unsigned fields = writer_fields(c);
    size_t n = (size_t)1 << c->job.m, need = 2 + (n + 7) / 8 + 2 * n;
    need += fields & JOB_LIST_SIZE ? 1 : 0;
    need += fields & JOB_STOP ? 2 : 0;
    need += fields & JOB_FRAME ? 4 : 0;
    return need + (fields & JOB_PAIRS ? 2 + c->job.pairs.len : 0);
}

/* ---- faults */

int writer_call_break(struct writer_call *c, enum pair_fault fault)
{
    if (!pairs_break(&c->job.pairs, c->job.map, (size_t)1 << c->job.m, fault))
        return 0;
    c->pairs_fault = fault;
    c->faults |= FAULT_15;
    c->job.refusal = 15;
    return 1;
}

static void shorten_output(struct writer_call *c)
{
    size_t need = writer_need(c), lengths[3] = {need - 1, 0, draw_below(need)};
    c->record_len = lengths[draw_below(3)];
    c->job.refusal = 10;
}

void writer_call_spoil(struct writer_call *c, unsigned faults)
{
    /* From the last refusal to the first: what a fault is measured by is spoiled only after
     * it, and the refusal set last is the first one in the order. */
    if (c->job.m != 2)
        faults &= ~(unsigned)FAULT_3;
    c->faults = faults;
    if (faults & FAULT_10)
        shorten_output(c);
    decoder_call_spoil(&c->job, faults & FROM_4_TO_7);
    while (faults & FAULT_15 && !writer_call_break(c, (enum pair_fault)draw_below(PAIR_FAULTS)))
        ;
    decoder_call_spoil(&c->job, faults & BEFORE_15);
}
