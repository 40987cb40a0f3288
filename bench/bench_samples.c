/*
 * Speed of the quantiser of complex samples beside a plain C loop, on the parts of QPSK
 * samples: 1 or -1 with noise of 0.4. In special blocks about one part in 16 is a NaN, an
 * infinity, a zero, a subnormal number or one far out of range.
 *
 *   bench_samples                   samples a second of both at n = 64, 256 and 1024, and so
 *                                   for special blocks; a sample is two parts
 *   bench_samples ours|plain M COUNT [special]
 *                                   COUNT blocks at n = 2^M by one of them, and nothing
 *                                   printed, to be counted by a tool
 *
 * Every run ends with a look whether both make the same soft values of every block.
 */
#include "caldurrex.h"
#include "draw.h"
#include "plain_quantise.h"

#include <stdio.h>
#include <stdlib.h>
#include <string.h>
#include <time.h>

/* The parts of all blocks, at every n: so many that no branch predictor knows them by heart. */
enum { PARTS = 65536, MAX_N = 1024 };
enum kind { OURS, PLAIN, KINDS };

static const char *const kind_name[KINDS] = {"ours", "plain"};

/* Blocks of 4n bytes, one behind the other. */
static struct {
    uint32_t m;
    size_t n, blocks;
    uint8_t samples[4 * PARTS];
} given;

static int16_t soft[KINDS][MAX_N];

static void need(int ok, const char *what)
{
    if (!ok) {
        fprintf(stderr, "bench_samples: %s\n", what);
        exit(1);
    }
}

/* Four numbers of 16 bits are drawn: their sum lies round 131,070, spread by 37,837, and
 * nearly as noise does. */
static float draw_reading(void)
{
    uint64_t four = draw();
    double sum = 0;
    for (int i = 0; i < 4; i++)
        sum += (double)(four >> 16 * i & 0xffff);
    return (float)((draw_below(2) == 0 ? 1.0 : -1.0) + 0.4 * (sum - 131070) / 37837);
}

/* The bits of a float that is no usual reading, of either sign. */
static uint32_t draw_special(void)
{
    const uint32_t digits = 1 + (uint32_t)draw_below(0x7fffff);
    const uint32_t bits[5] = {
        0x7f800000 | digits, /* a NaN */
        0x7f800000,          /* an infinity */
        0,
        digits,              /* a subnormal number */
        0x49800000 | digits, /* above a million */
    };
    return bits[draw_below(5)] | (uint32_t)draw_below(2) << 31;
}

/* The same blocks at every run. */
static void make_blocks(uint32_t m, int special)
{
    given.m = m;
    given.n = (size_t)1 << m;
    given.blocks = PARTS / given.n;
    draw_seed(m);
    for (size_t i = 0; i < PARTS; i++) {
        float reading = draw_reading();
        uint32_t bits;
        memcpy(&bits, &reading, sizeof bits);
        if (special && draw_below(16) == 0)
            bits = draw_special();
        for (size_t byte = 0; byte < 4; byte++)
            given.samples[4 * i + byte] = (uint8_t)(bits >> 8 * byte);
    }
}

/* The refusal; the plain loop refuses nothing. */
static uint32_t run_one(enum kind kind, size_t block)
{
    size_t n = given.n;
    const uint8_t *samples = given.samples + 4 * n * block;
    if (kind == OURS)
        return caldurrex_quantise(given.m, samples, 4 * n, soft[OURS], n);
    plain_quantise(n, samples, soft[PLAIN]);
    return 0;
}

static void run(enum kind kind, unsigned long count)
{
    uint32_t refusals = 0;
    for (unsigned long i = 0; i < count; i++)
        refusals |= run_one(kind, i % given.blocks);
    need(refusals == 0, "a block was refused");
}

static void compare_all(void)
{
    for (size_t block = 0; block < given.blocks; block++) {
        memset(soft, 0xff, sizeof soft);
        need(run_one(OURS, block) == 0 && run_one(PLAIN, block) == 0, "a block was refused");
        need(memcmp(soft[OURS], soft[PLAIN], sizeof soft[OURS]) == 0, "a soft value differs");
    }
}

/* By processor time, and both in turn for a short while, so that other work on the machine
 * counts little and for both alike. */
static void time_both(uint32_t m, int special)
{
    double spent[KINDS] = {0, 0};
    unsigned long count = 16, done = 0;
    make_blocks(m, special);
    while (spent[OURS] < 0.3 || spent[PLAIN] < 0.3) {
        for (int kind = 0; kind < KINDS; kind++) {
            clock_t start = clock();
            run((enum kind)kind, count);
            spent[kind] += (double)(clock() - start) / CLOCKS_PER_SEC;
        }
        done += count;
        if (spent[OURS] < 0.03)
            count *= 2;
    }
    compare_all();
    double samples = (double)done * (double)(given.n / 2);
    printf("n = %-4zu %-7s   %11.0f %11.0f %18.2f\n", given.n, special ? "special" : "", samples / spent[OURS],
           samples / spent[PLAIN], spent[PLAIN] / spent[OURS]);
}

int main(int argc, char **argv)
{
    if (argc == 1) {
        printf("samples a second           ours     plain C    ours to plain C\n");
        for (int special = 0; special < 2; special++)
            for (uint32_t m = 6; m <= 10; m += 2)
                time_both(m, special);
        return 0;
    }
    int special = argc == 5 && strcmp(argv[4], "special") == 0;
    need(argc == 4 || special, "give ours or plain, m, a count and special for such blocks, or nothing");
    int kind = 0;
    while (kind < KINDS && strcmp(argv[1], kind_name[kind]) != 0)
        kind++;
    unsigned long m = strtoul(argv[2], NULL, 10);
    need(kind < KINDS && m >= 2 && m <= 10, "no such kind or m");
    make_blocks((uint32_t)m, special);
    run((enum kind)kind, strtoul(argv[3], NULL, 10));
    compare_all();
    return 0;
}
