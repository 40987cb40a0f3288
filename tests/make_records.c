/*
 * Makes what crates/decode_records reads and what it must print: `make stored-records`
 * writes both. `make_records records` writes the records, each behind its length in two
 * bytes; `make_records rows` what is printed for them. The refusals come from the reader
 * and the rows from the decoder that are written from the rules alone; no library of
 * ours is linked.
 */
#include "paper_decoder.h"
#include "record_plan.h"
#include "reference_codec.h"
#include "reference_job.h"

#include <stdio.h>
#include <stdlib.h>
#include <string.h>

/* ---- the generator */

static uint64_t state;

static int draw_number(void)
{
    state = state * 48271 % 2147483647;
    return (int)state;
}

/* ---- codes: one number for eight positions */

static int ones(size_t i)
{
    int count = 0;
    for (; i > 0; i /= 2)
        count += (int)(i % 2);
    return count;
}

/* Position i is frozen, x having been drawn for its map byte. */
static int is_frozen(const struct block *b, size_t i, int x)
{
    int low = x >> i % 8 & 1, high = x >> (8 + i % 8) & 1;
    switch (b->code) {
    case OPEN: return 0;
    case QUARTER: return low && high;
    case HALF: return low;
    case MOST: return low || high;
    case FEW: return i % 8 > 0 || x / 3 % 2 == 0;
    case SHUT: return 1;
    case LIGHT: return ones(i) < b->limit;
    }
    abort();
}

static void make_map(const struct block *b, size_t n, uint8_t *map)
{
    int x = 0;
    memset(map, 0, n / 8);
    for (size_t i = 0; i < n; i++) {
        if (i % 8 == 0)
            x = draw_number();
        if (is_frozen(b, i, x))
            map[i / 8] |= (uint8_t)(1 << i % 8);
    }
}

/* ---- pairs: two numbers for f and e, until there are enough; then in their order, as bytes */

static void make_pairs(const struct block *b, size_t n, const uint8_t *map, uint8_t *pairs)
{
    static uint8_t follows[MAX_N][MAX_N];
    memset(follows, 0, sizeof follows);
    for (size_t count = 0; count < b->pairs;) {
        size_t f = (size_t)draw_number() % n, e = (size_t)draw_number() % (f > 0 ? f : 1);
        if (f > 0 && reference_frozen(map, f) && !follows[f][e]) {
            follows[f][e] = 1;
            count++;
        }
    }
    for (size_t at = 0; at < n * n; at++) {
        size_t f = at / n, e = at % n;
        const uint8_t bytes[4] = {(uint8_t)f, (uint8_t)(f / 256), (uint8_t)e, (uint8_t)(e / 256)};
        if (follows[f][e]) {
            memcpy(pairs, bytes, 4);
            pairs += 4;
        }
    }
}

/* ---- soft values: the code word of a drawn input, then one number for each value */

static void make_word(const struct block *b, size_t n, const uint8_t *map, const uint8_t *pairs, uint8_t *word)
{
    uint8_t input[MAX_N];
    for (size_t i = 0; i < n; i++) {
        int bit = draw_number() % 2;
        input[i] = reference_frozen(map, i) ? reference_frozen_bit(pairs, 4 * b->pairs, i, input) : (uint8_t)bit;
    }
    reference_transform(n, b->arikan, input, word);
}

/* From -most to most. */
static int within(int most, int x)
{
    return x % (2 * most + 1) - most;
}

static int soft_value(enum soft soft, int bit, int x)
{
    switch (soft) {
    case ZERO: return 0;
    case TIES: return within(1, x);
    case SPARSE: return x % 4 == 0 ? within(2, x / 4) : 0;
    case SMALL: return within(20, x);
    case WIDE: return within(2047, x);
    case ENDS: return x % 2 ? 2047 : x % 4 ? -2047 : -2048;
    case NOISY: return (bit ? -20 : 20) + within(40, x);
    }
    abort();
}

/* ---- records */

static void put(struct record *r, uint32_t x, int count)
{
    for (; count > 0; count--, x >>= 8)
        r->bytes[r->len++] = (uint8_t)x;
}

/* A block of the plan, with every field but, where it has none, pairs; its place in the plan
 * is the frame number. */
static void make_block(const struct block *b, uint32_t frame, struct record *r)
{
    size_t n = (size_t)1 << b->m;
    uint8_t map[MAX_N / 8], pairs[4 * MAX_PAIRS], word[MAX_N];
    state = b->seed;
    make_map(b, n, map);
    make_pairs(b, n, map, pairs);
    make_word(b, n, map, pairs, word);
    r->len = 0;
    put(r, (b->pairs > 0 ? 15 : 7) + 16u * b->arikan, 1);
    put(r, b->m, 1);
    put(r, b->list, 1);
    put(r, b->stop, 2);
    put(r, frame, 4);
    for (size_t i = 0; i < n / 8; i++)
        put(r, map[i], 1);
    if (b->pairs > 0)
        put(r, (uint32_t)b->pairs, 2);
    for (size_t i = 0; i < 4 * b->pairs; i++)
        put(r, pairs[i], 1);
    for (size_t i = 0; i < n; i++)
        put(r, (uint32_t)soft_value(b->soft, word[i], draw_number()), 2);
}

static void write_record(const struct record *r)
{
    putchar((int)(r->len % 256));
    putchar((int)(r->len / 256));
    fwrite(r->bytes, 1, r->len, stdout);
}

/* ---- what is printed for a record */

/* A digit for four positions, the first of them its highest bit. */
static void print_bits(size_t n, const uint8_t *bits)
{
    putchar(' ');
    for (size_t i = 0; i < n; i += 4)
        printf("%x", bits[i] << 3 | bits[i + 1] << 2 | bits[i + 2] << 1 | bits[i + 3]);
}

static void print_rows(const struct record *r)
{
    static uint32_t numbers[32 * MAX_N * MAX_LIST];
    static uint8_t bytes[(4 * MAX_N + 256) * MAX_LIST];
    static uint8_t inputs[MAX_N * MAX_LIST], words[MAX_N * MAX_LIST];
    static int32_t scores[MAX_LIST];
    uint8_t map[MAX_N / 8], pairs[4 * MAX_PAIRS];
    int16_t soft[MAX_N];
    struct reference_job job = reference_read_job(r->bytes, r->len, map, sizeof map, soft, MAX_N, pairs, sizeof pairs);
    size_t n = (size_t)1 << job.m;
    if (job.refusal) {
        printf("refused %u\n", (unsigned)job.refusal);
        return;
    }
    struct paper_decoded block =
        paper_decode(job.m, (uint8_t)job.arikan, map, (n + 7) / 8, pairs, 4 * job.pairs, job.list_size, job.stop, soft,
                     n, numbers, sizeof numbers / sizeof numbers[0], bytes, sizeof bytes, inputs, sizeof inputs, words,
                     sizeof words, scores, MAX_LIST);
    if (block.refusal) {
        fprintf(stderr, "a record is read and its block is refused: %u\n", (unsigned)block.refusal);
        exit(1);
    }
    printf("record m %u l %u p %u f %u\nceiling %d\n", (unsigned)job.m, (unsigned)job.list_size, (unsigned)job.stop,
           (unsigned)job.frame, (int)block.ceiling);
    for (size_t i = 0; i < block.rows; i++) {
        printf("%zu %d", i, (int)scores[i]);
        print_bits(n, inputs + i * n);
        print_bits(n, words + i * n);
        putchar('\n');
    }
    /* The rules leave nothing but 0: in inputs, words and scores, and in both tables. */
    puts("not 0 behind the rows 0 0 0, in the tables 0 0");
}

int main(int argc, char **argv)
{
    void (*each)(const struct record *) = NULL;
    if (argc == 2 && !strcmp(argv[1], "records"))
        each = write_record;
    if (argc == 2 && !strcmp(argv[1], "rows"))
        each = print_rows;
    if (!each) {
        fprintf(stderr, "usage: make_records records | rows\n");
        return 2;
    }
    for (size_t i = 0; i < EXAMPLES; i++)
        each(&examples[i]);
    for (uint32_t i = 0; i < BLOCKS; i++) {
        struct record r;
        make_block(&blocks[i], i, &r);
        each(&r);
    }
    return 0;
}
