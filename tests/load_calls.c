#include "load_calls.h"

#include "draw.h"
#include "reference_codec.h"

const uint32_t load_order[LOAD_REFUSALS] = {1, 2, 3, 15, 24, 10};

/* Faults by their place in the order; those before 24 are faults of a call of the writer too. */
enum { FAULT_24 = 1 << 4, FAULT_10 = 1 << 5, BEFORE_24 = FAULT_24 - 1 };

/* Any state but 0; some have a single bit. */
static uint32_t draw_state(void)
{
    const uint32_t all[8] = {1, 0x80000000u, UINT32_MAX, 1u << draw_below(32), 2463534242u,
                             1 + (uint32_t)draw_below(255), 1 + (uint32_t)draw_below(UINT32_MAX),
                             1 + (uint32_t)draw_below(UINT32_MAX)};
    return all[draw_below(8)];
}

void load_call_good(struct load_call *c, uint32_t m, unsigned fields)
{
    writer_call_good(&c->job, m, fields & (JOB_FRAME | JOB_PAIRS));
    c->state = draw_state();
    c->faults = 0;
    load_call_trim(c);
}

void load_call_trim(struct load_call *c)
{
    c->job.record_len = load_record_need(c);
    c->payload_len = load_payload_need(c);
}

size_t load_record_need(const struct load_call *c)
{
    return writer_need(&c->job);
}

size_t load_payload_need(const struct load_call *c)
{
    return reference_clear(c->job.job.map, (size_t)1 << c->job.job.m);
}

/* ---- faults */

int load_call_break(struct load_call *c, enum pair_fault fault)
{
    int broken = writer_call_break(&c->job, fault);
    c->faults |= c->job.faults;
    return broken;
}

static size_t shorter(size_t need)
{
    size_t lengths[3] = {need - 1, 0, draw_below(need)};
    return lengths[draw_below(3)];
}

/* One output or both; no payload is too short for k = 0. */
static void shorten_outputs(struct load_call *c)
{
    size_t k = load_payload_need(c), which = k > 0 ? 1 + draw_below(3) : 1;
    if (which & 1)
        c->job.record_len = shorter(load_record_need(c));
    if (which & 2)
        c->payload_len = shorter(k);
    c->job.job.refusal = 10;
}

void load_call_spoil(struct load_call *c, unsigned faults)
{
    /* From the last refusal to the first: what a fault is measured by is spoiled only after
     * it, and the refusal set last is the first one in the order. */
    if (faults & FAULT_10)
        shorten_outputs(c);
    if (faults & FAULT_24) {
        c->state = 0;
        c->job.job.refusal = 24;
    }
    writer_call_spoil(&c->job, faults & BEFORE_24);
    c->faults = (faults & ~(unsigned)BEFORE_24) | c->job.faults;
}
