/*
 * Speed of the encoder and the extractor, half of the positions frozen.
 *
 *   bench_codec                     blocks a second at n = 64, 256 and 1024, by both
 *                                   transforms, and at n = 1024 with 256 pairs
 *   bench_codec encode|extract|transform M COUNT [PAIRS [arikan]]
 *                                   COUNT blocks of one kind, by the convolutional
 *                                   transform or Arikan's, and nothing printed, to be
 *                                   counted by a tool
 *
 * The transform is the reference's, in plain C with no table: what the encoder does
 * beside its checks, done by the letter of the rules.
 */
#include "caldurrex.h"
#include "draw.h"
#include "pairs.h"
#include "reference_codec.h"

#include <stdio.h>
#include <stdlib.h>
#include <string.h>
#include <time.h>

enum { MAX_N = REFERENCE_MAX_N };
enum kind { ENCODE, EXTRACT, TRANSFORM, KINDS };

static const char *const kind_name[KINDS] = {"encode", "extract", "transform"};

struct block {
    uint32_t m;
    uint8_t arikan;
    size_t n;
    uint8_t map[MAX_N / 8], payload[MAX_N / 2], input[MAX_N], word[MAX_N];
    struct pairs pairs;
};

static void need(int ok, const char *what)
{
    if (!ok) {
        fprintf(stderr, "bench_codec: %s\n", what);
        exit(1);
    }
}

/* A code with a random half frozen, always the same, with so many pairs, and a block of it. */
static void make_block(struct block *b, uint32_t m, size_t pairs, uint8_t arikan)
{
    memset(b, 0, sizeof *b);
    b->m = m;
    b->arikan = arikan;
    b->n = (size_t)1 << m;
    draw_seed(m);
    for (size_t frozen = 0; frozen < b->n / 2;) {
        size_t i = draw_below(b->n);
        frozen += !reference_frozen(b->map, i);
        b->map[i / 8] |= (uint8_t)(1u << (i % 8));
    }
    for (size_t i = 0; i < b->n / 2; i++)
        b->payload[i] = (uint8_t)draw_below(2);
    pairs_spread(&b->pairs, b->map, b->n, pairs);
    reference_input(b->n, b->map, b->pairs.bytes, b->pairs.len, b->payload, b->input);
    reference_transform(b->n, b->arikan, b->input, b->word);
}

static void run_blocks(const struct block *b, enum kind kind, unsigned long count)
{
    static uint8_t out[MAX_N];
    uint32_t refusals = 0;
    size_t n = b->n, map_len = n / 8, k = n / 2, pairs_len = b->pairs.len;
    const uint8_t *map = b->map, *pairs = b->pairs.bytes, arikan = b->arikan;
    for (unsigned long i = 0; i < count; i++) {
        if (kind == ENCODE)
            refusals |= caldurrex_encode(b->m, arikan, map, map_len, pairs, pairs_len, b->payload, k, out, n);
        else if (kind == EXTRACT)
            refusals |= caldurrex_extract(b->m, arikan, map, map_len, pairs, pairs_len, b->word, n, out, k);
        else
            reference_transform(n, arikan, b->input, out);
    }
    need(refusals == 0, "a block was refused");
    const uint8_t *right = kind == EXTRACT ? b->payload : b->word;
    need(count == 0 || memcmp(out, right, kind == EXTRACT ? k : n) == 0, "a block is wrong");
}

/* By processor time, so that other work on the machine counts little. */
static double blocks_a_second(const struct block *b, enum kind kind)
{
    for (unsigned long count = 16;; count *= 2) {
        clock_t start = clock();
        run_blocks(b, kind, count);
        double seconds = (double)(clock() - start) / CLOCKS_PER_SEC;
        if (seconds > 0.25)
            return (double)count / seconds;
    }
}

static void time_one(uint32_t m, size_t pairs, uint8_t arikan)
{
    struct block b;
    make_block(&b, m, pairs, arikan);
    if (pairs == 0)
        printf("n = %-4zu %-6s", b.n, arikan ? "arikan" : "");
    else
        printf("with %zu pairs ", pairs);
    for (int kind = 0; kind < KINDS; kind++)
        printf(" %8.0f", blocks_a_second(&b, (enum kind)kind));
    printf("\n");
}

static void time_all(void)
{
    printf("blocks a second    encode  extract  transform of the reference\n");
    for (uint32_t m = 6; m <= REFERENCE_MAX_M; m += 2)
        time_one(m, 0, 0);
    time_one(REFERENCE_MAX_M, PAIRS_MOST, 0);
    for (uint32_t m = 6; m <= REFERENCE_MAX_M; m += 2)
        time_one(m, 0, 1);
}

int main(int argc, char **argv)
{
    if (argc == 1) {
        time_all();
        return 0;
    }
    int arikan = argc == 6 && strcmp(argv[5], "arikan") == 0;
    need(argc == 4 || argc == 5 || arikan, "give a kind, m, a count, a number of pairs and arikan, or nothing");
    int kind = 0;
    while (kind < KINDS && strcmp(argv[1], kind_name[kind]) != 0)
        kind++;
    unsigned long m = strtoul(argv[2], NULL, 10), pairs = argc > 4 ? strtoul(argv[4], NULL, 10) : 0;
    need(kind < KINDS && m >= 3 && m <= REFERENCE_MAX_M && pairs <= PAIRS_MOST, "no such kind, m or number of pairs");
    struct block b;
    make_block(&b, (uint32_t)m, pairs, (uint8_t)arikan);
    run_blocks(&b, (enum kind)kind, strtoul(argv[3], NULL, 10));
    return 0;
}
