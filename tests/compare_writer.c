/*
 * Compares the record writer of the library with the reference one, at every m and by both
 * transforms, and reads what was written back.
 *
 *   compare_writer [seed [calls]]
 *
 * A run with the same seed and calls makes the same calls. So many are drawn at random; those
 * on both sides of every limit come before them.
 */
#include "codec_calls.h"
#include "draw.h"
#include "reference_writer.h"
#include "writer_back.h"
#include "writer_calls.h"
#include "writer_check.h"
#include "writer_tally.h"

#include <stdio.h>
#include <stdlib.h>
#include <string.h>

enum { USUAL_CALLS = 100000 };

static unsigned long read_back;

/* Makes the call, counts it, and reads back what was written. */
static void check(const struct writer_call *c)
{
    writer_check(c);
    writer_tally(c);
    if (c->job.refusal != 0)
        return;
    writer_back(c, writer_output());
    read_back++;
}

static void check_as(struct writer_call *c, uint32_t refusal)
{
    c->job.refusal = refusal;
    check(c);
}

/* Any set of fields. */
static void draw_good(struct writer_call *c, uint32_t m)
{
    writer_call_good(c, m, (unsigned)draw_below(JOB_FIELD_SETS));
}

/* ---- records that are written here, for n = 4 with two frozen positions, and n = 8 */

static const struct example {
    uint32_t m, list_size, stop, frame;
    uint8_t arikan, map;
    const char *pairs; /* a byte for each digit */
    int16_t soft[8];
    size_t len;
    const char *record;
} examples[] = {
    {2, 2, 4, 0, 0, 0x03, "", {5, -3, 2, 7}, 12, "\x01\x02\x02\x03\x05\x00\xfd\xff\x02\x00\x07\x00"},
    {2, 4, 4, 0, 0, 0x03, "", {5, -3, 2, 7}, 11, "\x00\x02\x03\x05\x00\xfd\xff\x02\x00\x07\x00"},
    {2, 4, 4, 0, 255, 0x03, "", {5, -3, 2, 7}, 11, "\x10\x02\x03\x05\x00\xfd\xff\x02\x00\x07\x00"},
    {2, 4, 0, 0, 0, 0x00, "", {0}, 13, "\x02\x02\x00\x00\x00\0\0\0\0\0\0\0\0"},
    {2, 4, 4, 1, 0, 0x00, "", {0}, 15, "\x04\x02\x01\x00\x00\x00\x00\0\0\0\0\0\0\0\0"},
    {2, 4, 4, UINT32_MAX, 0, 0x0f, "", {0}, 15, "\x04\x02\xff\xff\xff\xff\x0f\0\0\0\0\0\0\0\0"},
    {2, 4, 4, 0, 0, 0x03, "", {-2048, 2047, -2047, -1}, 11, "\x00\x02\x03\x01\xf8\xff\x07\x01\xf8\xff\xff"},
    {2, 4, 4, 0, 0, 0x0d, "2010", {5, -3, 2, 7}, 17,
     "\x08\x02\x0d\x01\x00\x02\x00\x01\x00\x05\x00\xfd\xff\x02\x00\x07\x00"},
    {2, 32, 3, 0x01020304, 2, 0x0d, "201030103020", {5, -3, 2, 7}, 32,
     "\x1f\x02\x20\x03\x00\x04\x03\x02\x01\x0d\x03\x00\x02\x00\x01\x00\x03\x00\x01\x00\x03\x00\x02\x00"
     "\x05\x00\xfd\xff\x02\x00\x07\x00"},
    {3, 2, 8, 7, 0, 0x17, "", {-9, 9, -3, -9, -9, 2, 9, -9}, 24,
     "\x05\x03\x02\x07\x00\x00\x00\x17\xf7\xff\x09\x00\xfd\xff\xf7\xff\xf7\xff\x02\x00\x09\x00\xf7\xff"},
};

static void run_examples(void)
{
    for (size_t i = 0; i < sizeof examples / sizeof examples[0]; i++) {
        const struct example *e = &examples[i];
        struct writer_call c;
        writer_call_good(&c, e->m, 0);
        c.job.list_size = e->list_size;
        c.job.stop = e->stop;
        c.frame = e->frame;
        c.job.arikan = e->arikan;
        c.job.map[0] = e->map;
        c.job.pairs.len = strlen(e->pairs);
        for (size_t j = 0; j < c.job.pairs.len; j++)
            c.job.pairs.bytes[j] = (uint8_t)(e->pairs[j] - '0');
        memcpy(c.job.soft, e->soft, sizeof e->soft);
        c.record_len = e->len;
        writer_check(&c);
        if (memcmp(writer_output(), e->record, e->len) != 0)
            writer_fail(&c, "an example differs");
        check(&c);
    }
}

/* ---- both sides of every limit */

static void try_numbers(uint32_t m)
{
    struct writer_call c;
    for (size_t which = 0; which < CALL_BAD_MS; which++) {
        draw_good(&c, m);
        c.job.m = call_bad_m(m, which);
        check_as(&c, 1);
    }
    for (uint32_t l = 1; l <= DECODER_MAX_LIST; l++) {
        draw_good(&c, m);
        c.job.list_size = l;
        c.record_len = writer_need(&c);
        check_as(&c, 0);
    }
    for (size_t which = 0; which < BAD_LIST_SIZES; which++) {
        draw_good(&c, m);
        c.job.list_size = decoder_bad_list_size(&c.job, which);
        check_as(&c, 4);
    }
    for (size_t which = 0; which < 2 * BAD_STOPS; which++) { /* measured from n, and from below it */
        writer_call_good(&c, m, which % 2 ? JOB_STOP : 0);
        c.job.stop = decoder_bad_stop(&c.job, which / 2);
        check_as(&c, 5);
    }
}

/* Every byte that can say which transform. */
static void try_flags(uint32_t m)
{
    struct writer_call c;
    for (unsigned byte = 0; byte < 256; byte++) {
        draw_good(&c, m);
        c.job.arikan = (uint8_t)byte;
        check_as(&c, 0);
    }
}

/* The map and the soft values one too short, right, one too long, and none. */
static void try_lengths(uint32_t m, int arikan)
{
    struct writer_call c;
    for (size_t which = 0; which < 8; which++) {
        draw_good(&c, m);
        c.job.arikan = draw_flag(arikan);
        size_t *len = which % 2 ? &c.job.soft_len : &c.job.map_len;
        const size_t lengths[4] = {*len - 1, *len, *len + 1, 0};
        *len = lengths[which / 2];
        check_as(&c, which / 2 == 1 ? 0 : which % 2 ? 6 : 2);
    }
}

/* Every set of fields, and outputs on both sides of the record's length. Above 65,536 bytes the
 * two low bytes of the length say less than the record needs. */
static void try_outputs(uint32_t m, int arikan)
{
    struct writer_call c;
    for (unsigned i = 0; i < 6 * JOB_FIELD_SETS; i++) {
        writer_call_good(&c, m, i / 6);
        c.job.arikan = draw_flag(arikan);
        size_t need = writer_need(&c);
        const size_t lengths[6] = {need, need - 1, 0, need + 1, 2 * need + draw_below(4096), 65537 + draw_below(need)};
        c.record_len = lengths[i % 6];
        check_as(&c, c.record_len < need ? 10 : 0);
    }
}

/* The values on both sides of the limits, and the ends of 16 bits, at the first place, the last
 * and one between. */
static void try_soft_values(uint32_t m, int arikan)
{
    static const int16_t values[] = {-2048, -2047, 2047, 0, -1, 255, 256, -2049, 2048, -32768, -32767, 32767};
    size_t n = (size_t)1 << m;
    struct writer_call c;
    for (size_t which = 0; which < 3 * sizeof values / sizeof values[0]; which++) {
        const size_t places[3] = {0, n - 1, draw_below(n)};
        draw_good(&c, m);
        c.job.arikan = draw_flag(arikan);
        c.job.soft[places[which % 3]] = values[which / 3];
        check_as(&c, which / 3 < 7 ? 0 : 7);
    }
}

static void try_maps_of_4(void)
{
    struct writer_call c;
    for (unsigned bits = 0; bits < 256; bits++) {
        writer_call_good(&c, 2, (unsigned)draw_below(JOB_FIELD_SETS) & ~(unsigned)JOB_PAIRS);
        c.job.map[0] = (uint8_t)bits;
        check_as(&c, bits < 16 ? 0 : 3);
    }
}

/* As many pairs as there can be, each way to break pairs, and the longest record. */
static void try_pairs(uint32_t m, int arikan)
{
    struct writer_call c;
    for (int times = 0; times < 3; times++) {
        do
            writer_call_good(&c, m, JOB_FIELD_SETS - 1);
        while (pairs_allowed(c.job.map, (size_t)1 << m) <= (m < 5 ? 0 : PAIRS_MOST));
        c.job.arikan = draw_flag(arikan);
        pairs_draw(&c.job.pairs, c.job.map, (size_t)1 << m, PAIRS_FULL);
        c.record_len = m == DECODER_MAX_M ? REFERENCE_RECORD_BYTES : writer_need(&c);
        check_as(&c, 0);
        for (int fault = 0; fault < PAIR_FAULTS; fault++) {
            do
                draw_good(&c, m);
            while (!writer_call_break(&c, (enum pair_fault)fault));
            c.job.arikan = draw_flag(arikan);
            check(&c);
        }
    }
}

static void try_limits(uint32_t m)
{
    try_numbers(m);
    try_flags(m);
    for (int arikan = 0; arikan < 2; arikan++) {
        try_lengths(m, arikan);
        try_outputs(m, arikan);
        try_soft_values(m, arikan);
        try_pairs(m, arikan);
    }
    if (m == 2)
        try_maps_of_4();
    for (unsigned faults = 1; faults < WRITER_FAULT_SETS; faults++) {
        struct writer_call c;
        draw_good(&c, m);
        writer_call_spoil(&c, faults);
        check(&c);
    }
}

/* ---- random calls */

/* Half of the calls are good, the others have one fault, two, or any set of them. */
static unsigned draw_faults(void)
{
    unsigned one = 1u << draw_below(WRITER_REFUSALS), other = 1u << draw_below(WRITER_REFUSALS);
    const unsigned sets[6] = {0, 0, 0, one, one | other, (unsigned)draw_below(WRITER_FAULT_SETS)};
    return sets[draw_below(6)];
}

static void try_random(unsigned long calls)
{
    struct writer_call c;
    for (; calls > 0; calls--) {
        draw_good(&c, DECODER_MIN_M + (uint32_t)draw_below(draw_below(2) ? 3 : DECODER_MAX_M - DECODER_MIN_M + 1));
        const size_t beyond[5] = {0, 1, 1 + draw_below(16), draw_below(4096), 4096 + draw_below(4096)};
        c.record_len += beyond[draw_below(5)];
        writer_call_spoil(&c, draw_faults());
        check(&c);
    }
}

int main(int argc, char **argv)
{
    unsigned long seed = argc > 1 ? strtoul(argv[1], NULL, 10) : 1;
    unsigned long calls = argc > 2 ? strtoul(argv[2], NULL, 10) : USUAL_CALLS;
    printf("compare_writer: seed %lu, calls %lu and those on both sides of every limit\n", seed, calls);
    draw_seed(seed);
    writer_check_open(seed);
    run_examples();
    for (uint32_t m = DECODER_MIN_M; m <= DECODER_MAX_M; m++)
        try_limits(m);
    try_random(calls);
    if (!writer_tally_report(writer_forms())) {
        printf("compare_writer: FAILED: not all was reached (seed %lu)\n", seed);
        return 1;
    }
    struct tally_totals t = writer_tally_totals();
    printf("compare_writer: %lu calls agree, %lu accepted and %lu refused, %lu of them by Arikan's transform; "
           "%lu records read back and written again in %lu calls more (seed %lu)\n",
           t.accepted + t.refused, t.accepted, t.refused, t.arikan, read_back, 2 * read_back, seed);
    return 0;
}
