#include "job_pairs.h"

#include "draw.h"
#include "job_check.h"

/* Whatever other fields it has. */
static void draw_paired(struct job_record *r, uint32_t m, enum pair_kind kind)
{
    job_paired(r, m, (unsigned)draw_below(JOB_FIELD_SETS), kind);
}

/* The third slice too short, exact and longer, the others long enough. */
static void try_kind(uint32_t m, enum pair_kind kind)
{
    struct job_record r;
    draw_paired(&r, m, kind);
    size_t need = r.pairs.len, lengths[6] = {0, need - 1, need, need + 1, need + 4, need + draw_below(2000)};
    for (size_t i = 0; i < 6; i++)
        if (need > 0 || i != 1)
            job_check(&r, job_map_len(m) + draw_below(2), ((size_t)1 << m) + draw_below(2), lengths[i]);
}

/* The number of pairs says `count`, and the record has as many bytes of pairs as it did. */
static void try_count(struct job_record *r, uint32_t count)
{
    r->count = count;
    job_pack(r);
    job_check_as(r, count > PAIRS_MOST ? 15 : 13);
}

static void try_counts(uint32_t m)
{
    struct job_record r;
    draw_paired(&r, m, PAIRS_FULL);
    uint32_t right = r.count;
    const uint32_t counts[] = {0, 1, 255, 256, 257, 258, 511, 512, 0x0101, 0x01ff, 0x8000, 0xff00, 0xffff, right + 256};
    for (size_t i = 0; i < sizeof counts / sizeof counts[0]; i++)
        if (counts[i] != right)
            try_count(&r, counts[i]);
    /* So many as it says, one above 256. */
    while (r.pairs.len != 4 * (PAIRS_MOST + 1)) {
        draw_paired(&r, m, PAIRS_FULL);
        pairs_break(&r.pairs, r.map, (size_t)1 << m, ABOVE_256);
    }
    try_count(&r, PAIRS_MOST + 1);
}

/* Records that end before, inside and right behind the number, which is good or not. */
static void try_ends(uint32_t m)
{
    static const uint32_t counts[4] = {0, 256, 257, 0xffff};
    struct job_record r;
    for (size_t which = 0; which < 4; which++) {
        draw_paired(&r, m, PAIRS_FEW);
        r.count = counts[which];
        job_pack(&r);
        size_t at = job_count_at(&r);
        for (r.len = at - 2; r.len <= at + 4; r.len++)
            job_check_as(&r, r.len >= at + 2 && r.count > PAIRS_MOST ? 15 : 13);
    }
}

/* 15 comes after 3, which is tried with all others, and before 4, 5, 7 and 10. */
static void try_fault(uint32_t m, enum pair_fault fault)
{
    struct job_record r;
    do
        draw_paired(&r, m, draw_below(2) ? PAIRS_FULL : PAIRS_FEW);
    while (!pairs_break(&r.pairs, r.map, (size_t)1 << m, fault));
    r.count = (uint32_t)pairs_count(&r.pairs);
    job_pack(&r);
    job_check_as(&r, 15);
    job_check(&r, 0, 0, 0);
}

void try_job_pairs(uint32_t m, unsigned long rounds)
{
    for (unsigned long round = 0; round < rounds; round++) {
        for (int kind = 0; kind < PAIR_KINDS; kind++)
            try_kind(m, (enum pair_kind)kind);
        try_counts(m);
        try_ends(m);
        for (int fault = F_CLEAR; fault < PAIR_FAULTS; fault++)
            try_fault(m, (enum pair_fault)fault);
    }
}
