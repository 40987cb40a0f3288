#include "job_calls.h"

#include "draw.h"

#include <string.h>

static uint32_t among(const uint32_t *all, size_t count)
{
    return all[draw_below(count)];
}

static uint32_t bad_m(void)
{
    const uint32_t all[8] = {0, 1, 11, 12, 34, 130, 255, 11 + (uint32_t)draw_below(245)};
    return among(all, 8);
}

static uint32_t bad_list_size(void)
{
    const uint32_t all[5] = {0, 33, 36, 255, 33 + (uint32_t)draw_below(223)};
    return among(all, 5);
}

static uint32_t bad_stop(uint32_t n)
{
    const uint32_t all[5] = {n + 1, n + 256, 0x8000, 0xffff, n + 1 + (uint32_t)draw_below(65535 - n)};
    return among(all, 5);
}

/* A number of pairs above 256, and often as many pairs as it says. */
static void spoil_count(struct job_record *r)
{
    const uint32_t all[6] = {257, 258, 512, 0x8000, 0xffff, 257 + (uint32_t)draw_below(65279)};
    r->fields |= JOB_PAIRS;
    r->count = among(all, 6);
    if (draw_below(2) && pairs_break(&r->pairs, r->map, (size_t)1 << r->m, ABOVE_256))
        r->count = (uint32_t)pairs_count(&r->pairs);
}

static void spoil_pairs(struct job_record *r)
{
    r->fields |= JOB_PAIRS;
    pairs_break_somehow(&r->pairs, r->map, (size_t)1 << r->m, F_CLEAR);
    r->count = (uint32_t)pairs_count(&r->pairs);
}

static void spoil_softs(struct job_record *r)
{
    int16_t far = (int16_t)(2048 + draw_below(30720));
    const int16_t values[6] = {2048, -2049, -32768, 32767, far, (int16_t)(-far - 1)};
    size_t n = (size_t)1 << r->m, places[3] = {0, n - 1, draw_below(n)};
    size_t at = places[draw_below(3)];
    for (size_t times = draw_below(2) ? 1 : 1 + draw_below(8); times > 0; times--) {
        r->soft[at] = values[draw_below(6)];
        at = draw_below(n);
    }
}

void job_cut(struct job_record *r)
{
    size_t by[7] = {1, 2, 4, r->len, r->len - 1, r->len - 2, 1 + draw_below(r->len)};
    r->len -= by[draw_below(7)];
}

/* What is added is often 0, which a reader may take for values. There is room for one byte
 * more, if the length asked for is no longer one or is beyond the room. */
static void lengthen(struct job_record *r, size_t to)
{
    if (to <= r->len || to > JOB_ROOM)
        to = r->len + 1;
    if (draw_below(2))
        memset(r->bytes + r->len, 0, to - r->len);
    else
        draw_bytes(r->bytes + r->len, to - r->len);
    r->len = to;
}

void job_lengthen(struct job_record *r)
{
    size_t to[7] = {r->len + 1, r->len + 2, r->len + 4, 2 * r->len, 4095, 4096, r->len + 1 + draw_below(64)};
    lengthen(r, to[draw_below(7)]);
}

void job_lengthen_beyond(struct job_record *r)
{
    size_t to[5] = {4097, 4098, 4096 + r->len, JOB_ROOM, 4097 + draw_below(JOB_ROOM - 4096)};
    lengthen(r, to[draw_below(5)]);
}

static void spoil_length(struct job_record *r)
{
    size_t which = draw_below(5);
    if (which < 2)
        job_cut(r);
    else if (which < 4)
        job_lengthen(r);
    else
        job_lengthen_beyond(r);
}

/* The first that applies to a record with these faults. */
static uint32_t first_refusal(const struct job_record *r, unsigned faults)
{
    static const uint32_t numbers[9] = {14, 1, 15, 13, 3, 15, 4, 5, 7};
    if (r->len == 0 || (r->len == 1 && !(faults & FAULT_FIELD_MAP)))
        return 13;
    if (faults & FAULT_COUNT && r->len < job_count_at(r) + 2)
        faults &= ~(unsigned)FAULT_COUNT;
    for (size_t i = 0; i < 9; i++)
        if (faults >> i & 1)
            return numbers[i];
    return 0;
}

void job_spoil(struct job_record *r, unsigned faults)
{
    uint32_t n = (uint32_t)1 << r->m;
    if (n != 4)
        faults &= ~(unsigned)FAULT_MAP_BIT;
    if (faults & FAULT_PAIRS)
        spoil_pairs(r);
    if (faults & FAULT_COUNT)
        spoil_count(r);
    if (faults & FAULT_MAP_BIT)
        r->map[0] |= (uint8_t)(16u * (1 + draw_below(15)));
    if (faults & FAULT_LIST_SIZE) {
        r->fields |= JOB_LIST_SIZE;
        r->list_size = bad_list_size();
    }
    if (faults & FAULT_STOP) {
        r->fields |= JOB_STOP;
        r->stop = bad_stop(n);
    }
    if (faults & FAULT_SOFT)
        spoil_softs(r);
    job_pack(r);
    if (faults & FAULT_LENGTH)
        spoil_length(r);
    if (faults & FAULT_M)
        r->bytes[1] = (uint8_t)bad_m();
    if (faults & FAULT_FIELD_MAP)
        r->bytes[0] |= (uint8_t)(draw_below(2) ? 32u << draw_below(3) : 32 * (1 + draw_below(7)));
    r->refusal = first_refusal(r, faults);
}
