/*
 * A host that decodes blocks of soft values with a list, and reads from the ceiling
 * whether a better word can be ruled out.
 *
 * Build, from the repository's top, after `make target/staticlib/libcaldurrex.a`:
 *
 *   cc -std=c11 -Iinclude examples/decode_block.c target/staticlib/libcaldurrex.a
 */
#include "caldurrex.h"

#include <stdio.h>

/* The sizes of the code and the longest list that this host has memory for. */
enum { M = 2, N = 1 << M, LIST = 2 };

/* Lent to the decoder. What the tables and the outputs hold before a call does not
 * matter; after it the tables hold only 0 and can serve another block at once. */
static uint32_t numbers[CALDURREX_NUMBERS(N, LIST)];
static uint8_t bytes[CALDURREX_BYTES(N, LIST)];

/* The outputs: for each row N input bits, N code bits and a score. */
static uint8_t inputs[CALDURREX_ROWS(N, LIST)], words[CALDURREX_ROWS(N, LIST)];
static int32_t scores[LIST];

/* Neither code has pairs: an empty slice, whose pointer is not null. */
static const uint8_t no_pairs[1];

/* The transform of both codes: 0 is the convolutional one, any other byte asks for Arikan's. */
static const uint8_t arikan = 0;

/* A code and what was received. */
struct block {
    uint8_t map[1]; /* bit i is 1 where position i is frozen */
    int16_t soft[N];
};

/* Lengths are numbers of elements, not of bytes. */
static struct caldurrex_decoded decode(const struct block *block, uint32_t list_size)
{
    return caldurrex_decode(M, arikan, block->map, sizeof block->map, no_pairs, 0, list_size, N, block->soft, N,
                            numbers, sizeof numbers / sizeof numbers[0], bytes, sizeof bytes,
                            inputs, sizeof inputs, words, sizeof words, scores, LIST);
}

static void print_bits(const char *name, const uint8_t *bits)
{
    printf(" %s ", name);
    for (size_t i = 0; i < N; i++)
        printf("%u", bits[i]);
}

/* Decodes and prints the rows, best first, and what the ceiling tells of the first one;
 * the refusal. No word of the code correlates above the ceiling, and row 0, at stop N,
 * is a word of the code. */
static uint32_t show(const struct block *block, uint32_t list_size)
{
    struct caldurrex_decoded answer = decode(block, list_size);
    printf("list size %u", (unsigned)list_size);
    if (answer.refusal != 0) {
        printf(" is refused with %u\n", (unsigned)answer.refusal);
        return answer.refusal;
    }
    printf(" gives %u rows\n", (unsigned)answer.rows);
    for (uint32_t r = 0; r < answer.rows; r++) {
        printf("  row %u score %d", (unsigned)r, (int)scores[r]);
        print_bits("input", inputs + r * N);
        print_bits("word", words + r * N);
        printf("\n");
    }
    printf("  ceiling %d: %s\n", (int)answer.ceiling,
           answer.ceiling == scores[0] ? "row 0 is a best word, a longer list finds no better one"
                                       : "a better word than row 0 is not ruled out");
    return 0;
}

int main(void)
{
    const struct block clean = {{0x03}, {5, -3, 2, 7}}, poor = {{0x0e}, {1, -5, 2, 2}};
    printf("code: n = 4, frozen 0 1\nsoft values 5 -3 2 7\n");
    if (show(&clean, 1) != 0 || show(&clean, 2) != 0)
        return 1;
    /* The memory above is enough for two rows, not for three. */
    if (show(&clean, 3) != CALDURREX_SHORT_NUMBERS)
        return 1;
    printf("code: n = 4, frozen 1 2 3\nsoft values 1 -5 2 2\n");
    return show(&poor, 1) == 0 && show(&poor, 2) == 0 ? 0 : 1;
}
