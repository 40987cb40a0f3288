/*
 * Speed of the list decoder beside a plain C one, on noise round the word of zeros.
 * Half of the positions are frozen, those of lowest weight. Pairs, where there are some,
 * have any of these as f, and any position below it as e.
 *
 *   bench_decoder                   blocks a second of both, with and without pairs and by
 *                                   Arikan's transform, and how the time grows
 *   bench_decoder ours|plain|both M L COUNT [PAIRS [arikan]]
 *                                   COUNT blocks at n = 2^M and list size L, with so many
 *                                   pairs, by the convolutional transform or Arikan's, and
 *                                   nothing printed: by one decoder, to be counted by a
 *                                   tool, or by both, each block compared
 */
#include "caldurrex.h"
#include "draw.h"
#include "pairs.h"
#include "plain_decoder.h"

#include <stdio.h>
#include <stdlib.h>
#include <string.h>
#include <time.h>

enum { MAX_N = 1024, MAX_LIST = 32, BLOCKS = 64 };
enum decoder { OURS, PLAIN, BOTH, DECODERS };

static const char *const decoder_name[DECODERS] = {"ours", "plain", "both"};

/* A code, some received blocks, and a list size. */
static struct {
    uint32_t m, l;
    uint8_t arikan;
    size_t n;
    uint8_t map[MAX_N / 8];
    struct pairs pairs;
    int16_t soft[BLOCKS][MAX_N];
} load;

/* What is lent to a call. */
struct memory {
    uint32_t numbers[CALDURREX_NUMBERS(MAX_N, MAX_LIST)];
    uint8_t bytes[CALDURREX_BYTES(MAX_N, MAX_LIST)];
    uint8_t inputs[CALDURREX_ROWS(MAX_N, MAX_LIST)], words[CALDURREX_ROWS(MAX_N, MAX_LIST)];
    int32_t scores[MAX_LIST];
};
static struct memory memory[2]; /* one for each decoder */

static void need(int ok, const char *what)
{
    if (!ok) {
        fprintf(stderr, "bench_decoder: %s at n = %zu, l = %u, %zu pairs%s\n", what, load.n, (unsigned)load.l,
                pairs_count(&load.pairs), load.arikan ? ", by Arikan's transform" : "");
        exit(1);
    }
}

static uint32_t weight(size_t i)
{
    uint32_t ones = 0;
    for (; i > 0; i /= 2)
        ones += (uint32_t)(i % 2);
    return ones;
}

/* The same blocks at every run. */
static void make_load(uint32_t m, uint32_t l, size_t pairs, uint8_t arikan)
{
    memset(&load, 0, sizeof load);
    load.m = m;
    load.arikan = arikan;
    load.l = l;
    load.n = (size_t)1 << m;
    size_t frozen = 0;
    for (uint32_t w = 0; w <= m; w++)
        for (size_t i = 0; i < load.n && frozen < load.n / 2; i++)
            if (weight(i) == w) {
                load.map[i / 8] |= (uint8_t)(1u << (i % 8));
                frozen++;
            }
    draw_seed(m);
    for (size_t block = 0; block < BLOCKS; block++)
        for (size_t i = 0; i < load.n; i++)
            load.soft[block][i] = (int16_t)(20 + (int)draw_below(121) - 60);
    pairs_spread(&load.pairs, load.map, load.n, pairs);
}

/* The plain decoder refuses nothing. */
static struct caldurrex_decoded decode(enum decoder decoder, const int16_t *soft)
{
    struct memory *lent = &memory[decoder];
    size_t n = load.n, l = load.l;
    if (decoder == PLAIN) {
        struct plain_decoded plain =
            plain_decode((int)load.m, load.arikan, load.map, load.pairs.bytes, (int)pairs_count(&load.pairs), (int)l,
                         (int)n, soft, lent->numbers, lent->bytes, lent->inputs, lent->words, lent->scores);
        return (struct caldurrex_decoded){0, (uint32_t)plain.rows, plain.ceiling};
    }
    return caldurrex_decode(load.m, load.arikan, load.map, n / 8, load.pairs.bytes, load.pairs.len, load.l, (uint32_t)n,
                            soft, n, lent->numbers, CALDURREX_NUMBERS(n, l), lent->bytes, CALDURREX_BYTES(n, l),
                            lent->inputs, CALDURREX_ROWS(n, l), lent->words, CALDURREX_ROWS(n, l), lent->scores, l);
}

static int served(struct caldurrex_decoded answer)
{
    return answer.refusal == 0 && answer.rows > 0;
}

/* Both decoders must give the same rows and the same ceiling. */
static void compare(const int16_t *soft)
{
    struct caldurrex_decoded ours = decode(OURS, soft), plain = decode(PLAIN, soft);
    const struct memory *a = &memory[OURS], *b = &memory[PLAIN];
    need(served(ours) && ours.rows == plain.rows, "the row counts differ or a block was refused");
    need(ours.ceiling == plain.ceiling, "the ceilings differ");
    size_t rows = ours.rows, len = rows * load.n;
    need(memcmp(a->inputs, b->inputs, len) == 0 && memcmp(a->words, b->words, len) == 0, "a row differs");
    need(memcmp(a->scores, b->scores, rows * sizeof a->scores[0]) == 0, "a score differs");
}

static void run(enum decoder decoder, unsigned long count)
{
    for (unsigned long i = 0; i < count; i++) {
        const int16_t *soft = load.soft[i % BLOCKS];
        if (decoder == BOTH)
            compare(soft);
        else
            need(served(decode(decoder, soft)), "a block was refused");
    }
}

/* Seconds a block. By processor time, and the decoders in turn for a short while, so
 * that other work on the machine counts little and for both alike. */
static void time_both(uint32_t m, uint32_t l, size_t pairs, uint8_t arikan, double seconds[2])
{
    double spent[2] = {0, 0};
    unsigned long count = 1, done = 0;
    make_load(m, l, pairs, arikan);
    run(BOTH, 4);
    while (spent[OURS] < 0.3) {
        for (int decoder = OURS; decoder <= PLAIN; decoder++) {
            clock_t start = clock();
            run((enum decoder)decoder, count);
            spent[decoder] += (double)(clock() - start) / CLOCKS_PER_SEC;
        }
        done += count;
        if (spent[OURS] < 0.03)
            count *= 2;
    }
    for (int decoder = OURS; decoder <= PLAIN; decoder++)
        seconds[decoder] = spent[decoder] / (double)done;
}

static void print_growth(uint32_t m, uint32_t l)
{
    double seconds[2], steps = (double)((size_t)1 << m) * m * l;
    time_both(m, l, 0, 0, seconds);
    printf("n = %-4u l = %-2u        %10.0f %10.0f %18.1f\n", 1u << m, (unsigned)l, 1e6 * seconds[OURS],
           1e6 * seconds[PLAIN], 1e9 * seconds[OURS] / steps);
}

static void print_speed(uint32_t m, uint32_t l, size_t pairs, uint8_t arikan)
{
    double seconds[2];
    time_both(m, l, pairs, arikan, seconds);
    printf("n = %-4u l = %-2u ", 1u << m, (unsigned)l);
    if (pairs == 0)
        printf("%-6s", arikan ? "arikan" : "");
    else
        printf("p %-4zu", pairs);
    printf(" %10.0f %10.0f %18.2f\n", 1 / seconds[OURS], 1 / seconds[PLAIN], seconds[PLAIN] / seconds[OURS]);
}

static void time_all(void)
{
    static const uint32_t sizes[3][2] = {{6, 4}, {8, 8}, {10, 32}};
    static const size_t pairs[3] = {16, 64, 256};
    printf("blocks a second             ours    plain C    ours to plain C\n");
    for (size_t i = 0; i < 3; i++)
        print_speed(sizes[i][0], sizes[i][1], 0, 0);
    for (size_t i = 0; i < 3; i++)
        print_speed(sizes[i][0], sizes[i][1], 0, 1);
    printf("so with p pairs\n");
    for (size_t i = 0; i < 6; i++)
        print_speed(sizes[1 + i / 3][0], sizes[1 + i / 3][1], pairs[i % 3], 0);
    printf("microseconds a block        ours    plain C   ours, ns a unit of n log2(n) l\n");
    for (uint32_t m = 6; m <= 10; m++)
        print_growth(m, 8);
    for (uint32_t l = 1; l <= MAX_LIST; l *= 2)
        print_growth(8, l);
}

int main(int argc, char **argv)
{
    if (argc == 1) {
        time_all();
        return 0;
    }
    int decoder = 0, arikan = argc == 7 && strcmp(argv[6], "arikan") == 0;
    int given = argc == 5 || argc == 6 || arikan;
    while (given && decoder < DECODERS && strcmp(argv[1], decoder_name[decoder]) != 0)
        decoder++;
    unsigned long m = given ? strtoul(argv[2], NULL, 10) : 0, l = given ? strtoul(argv[3], NULL, 10) : 0;
    unsigned long pairs = argc > 5 ? strtoul(argv[5], NULL, 10) : 0;
    if (decoder == DECODERS || m < 3 || m > 10 || l < 1 || l > MAX_LIST || pairs > PAIRS_MOST) {
        fprintf(stderr, "bench_decoder: give a decoder, m from 3, a list size, a count and, where there are some, the "
                        "number of pairs, and then arikan for that transform; or nothing\n");
        return 1;
    }
    make_load((uint32_t)m, (uint32_t)l, pairs, (uint8_t)arikan);
    run((enum decoder)decoder, strtoul(argv[4], NULL, 10));
    return 0;
}
