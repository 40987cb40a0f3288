/*
 * A host that shows the first row of a block before the list has run to its end.
 *
 * Once the stop position is past every frozen position, the first row's input bits
 * below it and its score are those of the whole block. Nothing else is known by then:
 * not the bits from the stop position on, not the code word, not the other rows.
 *
 * Build, from the repository's top, after `make target/staticlib/libcaldurrex.a`:
 *
 *   cc -std=c11 -Iinclude examples/display_early.c target/staticlib/libcaldurrex.a
 */
#include "caldurrex.h"

#include <stdio.h>

enum { M = 3, N = 1 << M, LIST = 2 };

static uint32_t numbers[CALDURREX_NUMBERS(N, LIST)];
static uint8_t bytes[CALDURREX_BYTES(N, LIST)];
static uint8_t inputs[CALDURREX_ROWS(N, LIST)], words[CALDURREX_ROWS(N, LIST)];
static int32_t scores[LIST];

static const uint8_t map[1] = {0x17}; /* positions 0, 1, 2 and 4 are frozen */
static const uint8_t no_pairs[1];     /* an empty slice, too, has a pointer that is not null */
static const uint8_t arikan = 0;      /* the convolutional transform; any other byte asks for Arikan's */
static const int16_t soft[N] = {-9, 9, -3, -9, -9, 2, 9, -9};

/* One past the last frozen position; 0 if none is frozen. */
static uint32_t past_frozen(void)
{
    uint32_t p = N;
    while (p > 0 && (map[(p - 1) / 8] >> (p - 1) % 8 & 1) == 0)
        p--;
    return p;
}

/* Decodes up to the stop position and shows what is then known of the first row. */
static int show_at(uint32_t stop)
{
    struct caldurrex_decoded answer =
        caldurrex_decode(M, arikan, map, sizeof map, no_pairs, 0, LIST, stop, soft, N,
                         numbers, sizeof numbers / sizeof numbers[0], bytes, sizeof bytes,
                         inputs, sizeof inputs, words, sizeof words, scores, LIST);
    if (answer.refusal != 0)
        return 0;
    printf("stop %u: score %d, input ", (unsigned)stop, (int)scores[0]);
    for (uint32_t i = 0; i < N; i++)
        printf("%c", i < stop ? '0' + inputs[i] : '-');
    printf("\n");
    return 1;
}

int main(void)
{
    printf("code: n = 8, frozen 0 1 2 4\nsoft values -9 9 -3 -9 -9 2 9 -9\n");
    return show_at(past_frozen()) && show_at(N) ? 0 : 1;
}
