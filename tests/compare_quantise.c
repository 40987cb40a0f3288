/*
 * Compares the quantiser of the library with the reference one, at every m, and decodes what it
 * has made.
 *
 *   compare_quantise [seed [calls]]
 *
 * A run with the same seed and calls makes the same calls. So many are drawn at random; those
 * on both sides of every limit, and with every kind of float, come before them.
 */
#define _DEFAULT_SOURCE /* mmap with MAP_ANONYMOUS */
#include "caldurrex.h"
#include "codec_calls.h"
#include "draw.h"
#include "quantise_calls.h"
#include "quantise_check.h"
#include "quantise_tally.h"
#include "reference_quantise.h"

#include <stdio.h>
#include <stdlib.h>
#include <string.h>
#include <sys/mman.h>

enum { USUAL_CALLS = 100000, TIMES = 4 };

static unsigned long decoded;

/* One in so many of the calls served. */
static void decode_some(const struct quantise_call *c)
{
    static unsigned long served[QUANTISE_MAX_M + 1];
    if (served[c->m]++ % (c->m < 5 ? 4 : c->m < 8 ? 16 : 48) > 0)
        return;
    quantise_decode(c);
    quantise_tally_decoded(c);
    decoded++;
}

/* Makes the call, counts it, and decodes what was made. */
static void check(const struct quantise_call *c)
{
    quantise_check(c);
    quantise_tally(c, quantise_remainder());
    if (c->refusal == 0)
        decode_some(c);
}

/* ---- examples */

/* The three of the rules: 1/128, 3/128, -40. Then what is at the edges. */
static const struct {
    uint32_t bits;
    int16_t soft;
} examples[] = {
    {0x3c000000, 0}, {0x3cc00000, 2}, {0xc2200000, -2047},
    /* -1/128, -3/128, 5/128, -5/128, and the floats next to 1/128 and 3/128 */
    {0xbc000000, 0}, {0xbcc00000, -2}, {0x3d200000, 2}, {0xbd200000, -2},
    {0x3bffffff, 0}, {0x3c000001, 1}, {0xbbffffff, 0}, {0xbc000001, -1},
    {0x3cbfffff, 1}, {0x3cc00001, 2}, {0xbcbfffff, -1}, {0xbcc00001, -2},
    /* 1, -1, 1/64, -1/64 */
    {0x3f800000, 64}, {0xbf800000, -64}, {0x3c800000, 1}, {0xbc800000, -1},
    /* round 2046.5/64; from 2047/64 on */
    {0x41ffcfff, 2046}, {0x41ffd000, 2046}, {0x41ffd001, 2047}, {0xc1ffd000, -2046}, {0xc1ffd001, -2047},
    {0x41ffe000, 2047}, {0x41ffefff, 2047}, {0x41fff000, 2047}, {0x41fff001, 2047}, {0x42000000, 2047},
    {0xc1ffe000, -2047}, {0xc1fff000, -2047}, {0xc1fff001, -2047}, {0xc2000000, -2047},
    /* zeros, subnormals, the smallest normal ones */
    {0x00000000, 0}, {0x80000000, 0}, {0x00000001, 0}, {0x80000001, 0},
    {0x007fffff, 0}, {0x807fffff, 0}, {0x00800000, 0}, {0x80800000, 0},
    /* 2^122, the largest, infinities */
    {0x7c800000, 2047}, {0xfc800000, -2047}, {0x7f7fffff, 2047}, {0xff7fffff, -2047},
    {0x7f800000, 2047}, {0xff800000, -2047},
    /* NaNs, quiet and signalling */
    {0x7fc00000, 0}, {0xffc00000, 0}, {0x7fffffff, 0}, {0xffffffff, 0},
    {0x7f800001, 0}, {0xff800001, 0}, {0x7fbfffff, 0}, {0xffbfffff, 0},
};

/* As bytes, real part before imaginary: 1/128 and 3/128, then -40 and a gap. */
static const uint8_t example_bytes[16] = {0, 0, 0, 0x3c, 0, 0, 0xc0, 0x3c, 0, 0, 0x20, 0xc2, 1, 0, 0x80, 0x7f};
static const int16_t example_soft[4] = {0, 2, -2047, 0};

/* Each at the first position and the last, so as a real and as an imaginary part. */
static void run_examples(void)
{
    struct quantise_call c;
    quantise_call_good(&c, 2);
    memcpy(c.samples, example_bytes, sizeof example_bytes);
    check(&c);
    if (memcmp(quantise_soft(), example_soft, sizeof example_soft) != 0)
        quantise_fail(&c, "the example of four positions differs");
    for (size_t i = 0; i < sizeof examples / sizeof examples[0]; i++)
        for (uint32_t m = QUANTISE_MIN_M; m <= QUANTISE_MAX_M; m++) {
            size_t last = ((size_t)1 << m) - 1;
            quantise_call_good(&c, m);
            quantise_set_bits(&c, 0, examples[i].bits);
            quantise_set_bits(&c, last, examples[i].bits);
            check(&c);
            if (quantise_soft()[0] != examples[i].soft || quantise_soft()[last] != examples[i].soft ||
                reference_soft_value(examples[i].bits) != examples[i].soft) {
                printf("  bits 0x%08lx must give %d\n", (unsigned long)examples[i].bits, examples[i].soft);
                quantise_fail(&c, "an example differs");
            }
        }
}

/* ---- both sides of every limit */

static void try_numbers(uint32_t m)
{
    struct quantise_call c;
    for (size_t which = 0; which < TIMES * CALL_BAD_MS; which++) {
        quantise_call_good(&c, m);
        c.m = call_bad_m(m, which % CALL_BAD_MS);
        c.faults = 1;
        c.refusal = 1;
        check(&c);
    }
}

static void try_lengths(uint32_t m)
{
    struct quantise_call c;
    for (size_t which = 0; which < TIMES * BAD_SAMPLES; which++) {
        quantise_call_good(&c, m);
        quantise_set_length(&c, quantise_bad_samples(&c, which % BAD_SAMPLES));
        c.faults = 2;
        c.refusal = 6;
        check(&c);
    }
    for (size_t which = 0; which < TIMES * OUTPUTS; which++) {
        quantise_call_good(&c, m);
        c.soft_len = quantise_output(&c, which % OUTPUTS);
        c.faults = which % OUTPUTS < SHORT_OUTPUTS ? 4 : 0;
        c.refusal = c.faults ? 10 : 0;
        check(&c);
    }
}

static void try_faults(uint32_t m)
{
    struct quantise_call c;
    for (unsigned faults = 1; faults < 3 * TIMES * QUANTISE_FAULT_SETS; faults++) {
        quantise_call_good(&c, m);
        quantise_call_spoil(&c, faults % QUANTISE_FAULT_SETS);
        check(&c);
    }
}

/* A float at some real part and, in the same call, at some imaginary part. */
static void try_float(uint32_t m, uint32_t real, uint32_t imaginary)
{
    struct quantise_call c;
    size_t pairs = (size_t)1 << (m - 1);
    quantise_call_good(&c, m);
    quantise_set_bits(&c, 2 * draw_below(pairs), real);
    quantise_set_bits(&c, 2 * draw_below(pairs) + 1, imaginary);
    check(&c);
}

static void try_floats(uint32_t m)
{
    for (int which = 0; which < 2 * TIMES; which++) {
        for (int kind = 0; kind < FLOAT_KINDS; kind++)
            try_float(m, quantise_float((enum float_kind)kind, which % 2),
                      quantise_float((enum float_kind)kind, which % 2));
        for (size_t end = 0; end < ENDS; end++)
            try_float(m, quantise_end(end, which % 2), quantise_end(end, which % 2));
    }
}

/* Samples of 2^32 bytes too many, whose length looks right to 32 bits. They are memory that can be
 * read, of which the machine has no more than a page. */
static void try_above_32_bits(void)
{
    const size_t beyond = (size_t)UINT32_MAX + 1;
    struct quantise_call c;
    int16_t soft[QUANTISE_MAX_N] = {0};
    uint8_t *samples = mmap(NULL, beyond + 4 * QUANTISE_MAX_N, PROT_READ, MAP_PRIVATE | MAP_ANONYMOUS | MAP_NORESERVE,
                            -1, 0);
    if (beyond == 0 || samples == MAP_FAILED) {
        printf("samples above 2^32 bytes: left out, there is no room for them\n");
        return;
    }
    for (uint32_t m = QUANTISE_MIN_M; m <= QUANTISE_MAX_M; m++) {
        size_t n = (size_t)1 << m;
        quantise_call_good(&c, m);
        c.samples_len = beyond + 4 * n;
        memset(soft, 0x55, sizeof soft);
        uint32_t refusal = caldurrex_quantise(m, samples, c.samples_len, soft, n);
        for (size_t i = 0; i < QUANTISE_MAX_N; i++)
            if (refusal != 6 || soft[i] != 0x5555)
                quantise_fail(&c, "samples above 2^32 bytes are not refused with 6, or the call wrote");
    }
    munmap(samples, beyond + 4 * QUANTISE_MAX_N);
}

/* ---- random calls */

/* Two thirds of the calls are good, the others have any set of faults. */
static void try_random(unsigned long calls)
{
    struct quantise_call c;
    for (; calls > 0; calls--) {
        quantise_call_good(&c, QUANTISE_MIN_M + (uint32_t)draw_below(draw_below(2) ? 3 : QUANTISE_MAX_M - 1));
        c.soft_len = quantise_output(&c, SHORT_OUTPUTS + draw_below(OUTPUTS - SHORT_OUTPUTS));
        if (draw_below(3) == 0)
            quantise_call_spoil(&c, (unsigned)draw_below(QUANTISE_FAULT_SETS));
        check(&c);
    }
}

int main(int argc, char **argv)
{
    unsigned long seed = argc > 1 ? strtoul(argv[1], NULL, 10) : 1;
    unsigned long calls = argc > 2 ? strtoul(argv[2], NULL, 10) : USUAL_CALLS;
    printf("compare_quantise: seed %lu, calls %lu and those on both sides of every limit\n", seed, calls);
    draw_seed(seed);
    quantise_check_open(seed);
    run_examples();
    try_above_32_bits();
    for (uint32_t m = QUANTISE_MIN_M; m <= QUANTISE_MAX_M; m++) {
        try_numbers(m);
        try_lengths(m);
        try_faults(m);
        try_floats(m);
    }
    try_random(calls);
    if (!quantise_tally_report()) {
        printf("compare_quantise: FAILED: not all was reached (seed %lu)\n", seed);
        return 1;
    }
    struct tally_totals t = quantise_tally_totals();
    printf("compare_quantise: %lu calls agree, %lu accepted and %lu refused; soft values of %lu decoded (seed %lu)\n",
           t.accepted + t.refused, t.accepted, t.refused, decoded, seed);
    return 0;
}
