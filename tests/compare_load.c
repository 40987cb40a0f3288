/*
 * Compares the test load of the library with the reference one, at every m and by both
 * transforms, and reads and decodes what was made.
 *
 *   compare_load [seed [calls]]
 *
 * A run with the same seed and calls makes the same calls. So many are drawn at random; those
 * on both sides of every limit come before them.
 */
#include "codec_calls.h"
#include "draw.h"
#include "load_back.h"
#include "load_calls.h"
#include "load_check.h"
#include "load_examples.h"
#include "load_tally.h"

#include <stdio.h>
#include <stdlib.h>
#include <string.h>

enum { USUAL_CALLS = 100000 };

static unsigned long decoded;

/* One in so many of the records made, by the list size that they have or another one. */
static void decode_some(const struct load_call *c)
{
    static unsigned long made[DECODER_MAX_M + 1][2]; /* by the convolutional transform, by Arikan's */
    uint32_t m = c->job.job.m, apart = m < 5 ? 4 : m < 8 ? 16 : 48;
    if (made[m][c->job.job.arikan != 0]++ % apart > 0)
        return;
    load_decode(c, draw_below(2) ? 4 : 1 + (uint32_t)draw_below(m < 9 ? DECODER_MAX_LIST : 8));
    load_tally_decoded(c);
    decoded++;
}

/* Makes the call, counts it, and reads and decodes what was made; the next state. */
static uint32_t check(const struct load_call *c)
{
    uint32_t next = load_check(c);
    load_tally(c);
    if (c->job.job.refusal == 0) {
        load_back(c, load_record(), load_payload());
        decode_some(c);
    }
    return next;
}

static void check_as(struct load_call *c, uint32_t refusal)
{
    c->job.job.refusal = refusal;
    check(c);
}

/* Any frame number, with pairs or without. */
static void draw_good(struct load_call *c, uint32_t m)
{
    load_call_good(c, m, (unsigned)draw_below(JOB_FIELD_SETS));
}

static void draw_good_by(struct load_call *c, uint32_t m, int arikan)
{
    draw_good(c, m);
    c->job.job.arikan = draw_flag(arikan);
}

/* ---- both sides of every limit */

static void try_numbers(uint32_t m, int arikan)
{
    static const uint32_t ends[4] = {0, 1, 0x80000000u, UINT32_MAX};
    struct load_call c;
    for (size_t which = 0; which < CALL_BAD_MS; which++) {
        draw_good_by(&c, m, arikan);
        c.job.job.m = call_bad_m(m, which);
        check_as(&c, 1);
    }
    for (size_t which = 0; which < 4 * 4 * 4; which++) { /* each state with each frame number */
        draw_good_by(&c, m, arikan);
        c.state = ends[which % 4];
        c.job.frame = ends[which / 4 % 4];
        load_call_trim(&c);
        check_as(&c, c.state == 0 ? 24 : 0);
    }
}

/* Every byte that can say which transform. */
static void try_flags(uint32_t m)
{
    struct load_call c;
    for (unsigned byte = 0; byte < 256; byte++) {
        draw_good(&c, m);
        c.job.job.arikan = (uint8_t)byte;
        check_as(&c, 0);
    }
}

/* The map one too short, right, one too long, and none; and with nothing clear, or all. */
static void try_maps(uint32_t m, int arikan)
{
    struct load_call c;
    for (size_t which = 0; which < 4; which++) {
        draw_good_by(&c, m, arikan);
        size_t len = c.job.job.map_len;
        const size_t lengths[4] = {len - 1, len, len + 1, 0};
        c.job.job.map_len = lengths[which];
        check_as(&c, which == 1 ? 0 : 2);
    }
    for (size_t which = 0; which < 6; which++) {
        load_call_good(&c, m, 0);
        c.job.job.arikan = draw_flag(arikan);
        memset(c.job.job.map, which % 2 ? 0 : m == 2 ? 0x0f : 0xff, c.job.job.map_len);
        load_call_trim(&c);
        check_as(&c, 0);
    }
}

/* Sets an output's length to one on either side of what it needs; 1 if it is too short. Above
 * 65,536 bytes the two low bytes of the length say less than is needed. */
static int set_length(size_t *len, size_t which)
{
    size_t need = *len;
    const size_t lengths[6] = {need, need - 1, 0, need + 1, 2 * need + draw_below(4096), 65537 + draw_below(need)};
    *len = lengths[which];
    return *len < need;
}

/* The record (1), the payload (2) or both, with and without a frame number and pairs. */
static void try_outputs(uint32_t m, int arikan, int outputs)
{
    struct load_call c;
    for (unsigned i = 0; i < 6 * 4; i++) {
        do
            load_call_good(&c, m, (i / 6 % 2 ? JOB_FRAME : 0) | (i / 6 / 2 ? JOB_PAIRS : 0));
        while (load_payload_need(&c) == 0);
        c.job.job.arikan = draw_flag(arikan);
        int record_short = outputs & 1 && set_length(&c.job.record_len, i % 6);
        int payload_short = outputs & 2 && set_length(&c.payload_len, i % 6);
        check_as(&c, record_short || payload_short ? 10 : 0);
    }
}

static void try_maps_of_4(void)
{
    struct load_call c;
    for (unsigned bits = 0; bits < 256; bits++) {
        load_call_good(&c, 2, bits % 2 ? JOB_FRAME : 0);
        c.job.job.map[0] = (uint8_t)(bits & 15);
        load_call_trim(&c);
        c.job.job.map[0] = (uint8_t)bits;
        check_as(&c, bits < 16 ? 0 : 3);
    }
}

/* As many pairs as there can be, and each way to break pairs. */
static void try_pairs(uint32_t m, int arikan)
{
    struct load_call c;
    for (int times = 0; times < 3; times++) {
        do
            load_call_good(&c, m, JOB_FRAME | JOB_PAIRS);
        while (pairs_allowed(c.job.job.map, (size_t)1 << m) <= (m < 5 ? 0 : PAIRS_MOST));
        c.job.job.arikan = draw_flag(arikan);
        pairs_draw(&c.job.job.pairs, c.job.job.map, (size_t)1 << m, PAIRS_FULL);
        load_call_trim(&c);
        check_as(&c, 0);
        for (int fault = 0; fault < PAIR_FAULTS; fault++) {
            do
                draw_good_by(&c, m, arikan);
            while (!load_call_break(&c, (enum pair_fault)fault));
            check(&c);
        }
    }
}

static void try_faults(uint32_t m, int arikan)
{
    struct load_call c;
    for (unsigned faults = 1; faults < 3 * LOAD_FAULT_SETS; faults++) {
        draw_good_by(&c, m, arikan);
        load_call_spoil(&c, faults % LOAD_FAULT_SETS);
        check(&c);
    }
}

/* Loads of one code, each from the state that the one before it gave. */
static void try_chain(uint32_t m, int arikan, int with_pairs)
{
    struct load_call c;
    load_call_good(&c, m, with_pairs ? JOB_PAIRS : 0);
    c.job.job.arikan = draw_flag(arikan);
    for (uint32_t frame = 0; frame < (m == 2 ? 1000 : 64); frame++) {
        c.job.frame = frame;
        load_call_trim(&c);
        c.state = check(&c);
        if (frame > 0)
            load_tally_chained(&c);
    }
}

static void try_limits(uint32_t m)
{
    try_flags(m);
    if (m == 2)
        try_maps_of_4();
    for (int arikan = 0; arikan < 2; arikan++) {
        try_numbers(m, arikan);
        try_maps(m, arikan);
        for (int outputs = 1; outputs <= 3; outputs++)
            try_outputs(m, arikan, outputs);
        for (int with_pairs = 0; with_pairs < 2; with_pairs++)
            try_chain(m, arikan, with_pairs);
        try_pairs(m, arikan);
        try_faults(m, arikan);
    }
}

/* ---- random calls */

/* None, one, or up to so many bytes more than needed. */
static size_t beyond(void)
{
    const size_t all[5] = {0, 1, 1 + draw_below(16), draw_below(4096), 4096 + draw_below(4096)};
    return all[draw_below(5)];
}

/* Half of the calls are good, the others have one fault, two, or any set of them. */
static unsigned draw_faults(void)
{
    unsigned one = 1u << draw_below(LOAD_REFUSALS), other = 1u << draw_below(LOAD_REFUSALS);
    const unsigned sets[6] = {0, 0, 0, one, one | other, (unsigned)draw_below(LOAD_FAULT_SETS)};
    return sets[draw_below(6)];
}

static void try_random(unsigned long calls)
{
    struct load_call c;
    for (; calls > 0; calls--) {
        draw_good(&c, DECODER_MIN_M + (uint32_t)draw_below(draw_below(2) ? 3 : DECODER_MAX_M - DECODER_MIN_M + 1));
        c.job.record_len += beyond();
        c.payload_len += beyond();
        load_call_spoil(&c, draw_faults());
        check(&c);
    }
}

int main(int argc, char **argv)
{
    unsigned long seed = argc > 1 ? strtoul(argv[1], NULL, 10) : 1;
    unsigned long calls = argc > 2 ? strtoul(argv[2], NULL, 10) : USUAL_CALLS;
    printf("compare_load: seed %lu, calls %lu and those on both sides of every limit\n", seed, calls);
    draw_seed(seed);
    load_check_open(seed);
    run_load_examples();
    for (uint32_t m = DECODER_MIN_M; m <= DECODER_MAX_M; m++)
        try_limits(m);
    try_random(calls);
    if (!load_tally_report(load_values())) {
        printf("compare_load: FAILED: not all was reached (seed %lu)\n", seed);
        return 1;
    }
    struct tally_totals t = load_tally_totals();
    printf("compare_load: %lu calls agree, %lu accepted and %lu refused, %lu of them by Arikan's transform; "
           "%lu records decoded (seed %lu)\n",
           t.accepted + t.refused, t.accepted, t.refused, t.arikan, decoded, seed);
    return 0;
}
