#include "job_calls.h"

#include "draw.h"

#include <string.h>

const char *const job_kind_name[JOB_KINDS] = {
    [JOB_SERVED] = "good, n up to 64, list size up to 4",
    [JOB_GOOD] = "good",
    [JOB_CUT] = "cut",
    [JOB_LONGER] = "too long",
    [JOB_BEYOND] = "above 4096 bytes",
    [JOB_BAD_FIELD_MAP] = "bits 5 to 7 of the first byte",
    [JOB_BAD_M] = "m out of range",
    [JOB_LAID_OUT_FOR_BAD_M] = "m out of range, as long as it asks for",
    [JOB_CUT_AT_COUNT] = "ends before or inside the number of pairs",
    [JOB_BAD_COUNT] = "number of pairs above 256",
    [JOB_BAD_MAP_BIT] = "map bit past n",
    [JOB_BAD_PAIRS] = "pair that breaks a rule",
    [JOB_BAD_LIST_SIZE] = "list size out of range",
    [JOB_BAD_STOP] = "stop position above n",
    [JOB_BAD_SOFT] = "soft value out of range",
    [JOB_SEVERAL_FAULTS] = "several faults",
    [JOB_RANDOM] = "random bytes",
    [JOB_EMPTY] = "empty",
    [JOB_ONE_BYTE] = "one byte",
};

size_t job_map_len(uint32_t m)
{
    return (((size_t)1 << m) + 7) / 8;
}

static uint32_t among(const uint32_t *all, size_t count)
{
    return all[draw_below(count)];
}

/* ---- the bytes */

static void put(struct job_record *r, uint32_t number, size_t count)
{
    for (size_t i = 0; i < count; i++)
        r->bytes[r->len++] = (uint8_t)(number >> (8 * i));
}

void job_pack(struct job_record *r)
{
    r->len = 0;
    put(r, r->fields + JOB_ARIKAN * r->arikan, 1);
    put(r, r->m, 1);
    if (r->fields & JOB_LIST_SIZE)
        put(r, r->list_size, 1);
    if (r->fields & JOB_STOP)
        put(r, r->stop, 2);
    if (r->fields & JOB_FRAME)
        put(r, r->frame, 4);
    for (size_t i = 0; i < job_map_len(r->m); i++)
        put(r, r->map[i], 1);
    if (r->fields & JOB_PAIRS) {
        put(r, r->count, 2);
        for (size_t i = 0; i < r->pairs.len; i++)
            put(r, r->pairs.bytes[i], 1);
    }
    for (size_t i = 0; i < (size_t)1 << r->m; i++)
        put(r, (uint32_t)r->soft[i], 2);
}

size_t job_count_at(const struct job_record *r)
{
    unsigned fields = r->fields;
    return 2 + (fields & JOB_LIST_SIZE ? 1 : 0) + (fields & JOB_STOP ? 2 : 0) + (fields & JOB_FRAME ? 4 : 0) +
           job_map_len(r->m);
}

/* ---- good records */

static void draw_code(struct job_record *r)
{
    size_t n = (size_t)1 << r->m;
    const size_t shares[6] = {0, 8, 7, 4, 2, 1 + draw_below(7)};
    size_t share = shares[draw_below(6)]; /* of eight positions, about so many are frozen */
    memset(r->map, 0, sizeof r->map);
    for (size_t i = 0; i < n; i++)
        r->map[i / 8] |= (uint8_t)((draw_below(8) < share) << (i % 8));
}

/* Magnitudes up to some limit, down to where scores tie often; or nothing but the
 * ends, or one end alone. */
static void draw_soft(struct job_record *r)
{
    static const int limits[6] = {0, 1, 2, 20, 300, 2047}, ends[3] = {2047, -2047, -2048};
    size_t kind = draw_below(9);
    int most = limits[kind < 6 ? kind : 5];
    for (size_t i = 0; i < (size_t)1 << r->m; i++) {
        int drawn = (int)draw_below((size_t)(2 * most + 1)) - most, end = ends[draw_below(3)];
        r->soft[i] = (int16_t)(kind < 6 ? drawn : kind == 6 ? end : kind == 7 ? 2047 : -2048);
    }
}

static uint32_t draw_frame(void)
{
    const uint32_t all[12] = {0, 1, 9, 10, 0x7fffffff, 0x80000000u, 0xffffffffu, 0xffff, 0x10000, 999999999,
                              1000000000, (uint32_t)draw()};
    return among(all, 12);
}

void job_good(struct job_record *r, uint32_t m, unsigned fields, unsigned plain)
{
    uint32_t n = (uint32_t)1 << m;
    const uint32_t stops[6] = {0, 1, n / 2, n - 1, n, (uint32_t)draw_below(n + 1)};
    unsigned drawn = fields & ~plain;
    r->kind = JOB_GOOD;
    r->fields = fields;
    r->arikan = (uint32_t)draw_below(2);
    r->m = m;
    r->list_size = drawn & JOB_LIST_SIZE ? 1 + (uint32_t)draw_below(JOB_MAX_LIST) : 4;
    r->stop = drawn & JOB_STOP ? among(stops, 6) : n;
    r->frame = drawn & JOB_FRAME ? draw_frame() : 0;
    r->refusal = 0;
    draw_code(r);
    job_pair(r, drawn & JOB_PAIRS ? (enum pair_kind)draw_below(PAIR_KINDS) : PAIRS_NONE);
    draw_soft(r);
    job_pack(r);
}

void job_pair(struct job_record *r, enum pair_kind kind)
{
    r->pairs.len = 0;
    if (kind != PAIRS_NONE)
        pairs_draw(&r->pairs, r->map, (size_t)1 << r->m, kind);
    r->count = (uint32_t)pairs_count(&r->pairs);
}

void job_paired(struct job_record *r, uint32_t m, unsigned fields, enum pair_kind kind)
{
    do
        job_good(r, m, JOB_PAIRS | fields, JOB_PAIRS);
    while (pairs_allowed(r->map, (size_t)1 << m) <= (m < 5 ? 0 : PAIRS_MOST));
    job_pair(r, kind);
    job_pack(r);
}

/* ---- records of a kind */

static void draw_good(struct job_record *r, uint32_t most_m)
{
    unsigned fields = (unsigned)draw_below(JOB_FIELD_SETS);
    unsigned plain = draw_below(4) == 0 ? (unsigned)draw_below(JOB_FIELD_SETS) : 0;
    job_good(r, JOB_MIN_M + (uint32_t)draw_below(most_m - JOB_MIN_M + 1), fields, plain);
}

static void make_served(struct job_record *r)
{
    draw_good(r, 6);
    if (r->fields & JOB_LIST_SIZE)
        r->list_size = 1 + (uint32_t)draw_below(4);
    job_pack(r);
}

static void make_random(struct job_record *r)
{
    draw_good(r, JOB_MAX_M);
    size_t kept = draw_below(4) ? 2 : 0, which = draw_below(4);
    draw_bytes(r->bytes + kept, JOB_ROOM - kept);
    if (which >= 2)
        r->len = draw_below(which == 2 ? 64 : JOB_ROOM + 1);
    r->refusal = JOB_UNKNOWN;
}

/* A record for n = 1, 2 or 2048 that has everything in its place; it has no pair. */
static void make_laid_out_for_bad_m(struct job_record *r)
{
    static const uint32_t all[3] = {0, 1, 11};
    uint32_t m = among(all, 3);
    job_good(r, m, (unsigned)draw_below(JOB_FIELD_SETS), JOB_PAIRS);
    r->refusal = 1;
}

static void make_cut_at_count(struct job_record *r)
{
    r->fields |= JOB_PAIRS;
    job_pack(r);
    r->len = 2 + draw_below(job_count_at(r));
    r->refusal = 13;
}

static void make_one_byte(struct job_record *r)
{
    r->bytes[0] = (uint8_t)(draw_below(2) ? draw_below(JOB_FIRST_BYTES) : draw_below(256));
    r->len = 1;
    r->refusal = r->bytes[0] < JOB_FIRST_BYTES ? 13 : 14;
}

/* The faults of a kind, for those that are a good record with faults. */
static unsigned faults_of(enum job_kind kind)
{
    switch (kind) {
    case JOB_BAD_FIELD_MAP: return FAULT_FIELD_MAP;
    case JOB_BAD_M: return FAULT_M;
    case JOB_BAD_COUNT: return FAULT_COUNT;
    case JOB_BAD_MAP_BIT: return FAULT_MAP_BIT;
    case JOB_BAD_PAIRS: return FAULT_PAIRS;
    case JOB_BAD_LIST_SIZE: return FAULT_LIST_SIZE;
    case JOB_BAD_STOP: return FAULT_STOP;
    case JOB_BAD_SOFT: return FAULT_SOFT;
    case JOB_SEVERAL_FAULTS: return (unsigned)draw_below(FAULT_SETS);
    default: return 0;
    }
}

void job_make(struct job_record *r, enum job_kind kind)
{
    if (kind == JOB_SERVED)
        make_served(r);
    else if (kind == JOB_LAID_OUT_FOR_BAD_M)
        make_laid_out_for_bad_m(r);
    else if (kind == JOB_RANDOM)
        make_random(r);
    else
        draw_good(r, kind == JOB_BAD_MAP_BIT ? JOB_MIN_M : JOB_MAX_M);
    unsigned faults = faults_of(kind);
    if (faults != 0)
        job_spoil(r, faults);
    switch (kind) {
    case JOB_CUT: job_cut(r); r->refusal = 13; break;
    case JOB_CUT_AT_COUNT: make_cut_at_count(r); break;
    case JOB_LONGER: job_lengthen(r); r->refusal = 13; break;
    case JOB_BEYOND: job_lengthen_beyond(r); r->refusal = 13; break;
    case JOB_EMPTY: r->len = 0; r->refusal = 13; break;
    case JOB_ONE_BYTE: make_one_byte(r); break;
    default: break;
    }
    r->kind = kind;
}
