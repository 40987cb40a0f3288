/*
 * A host that studies near misses: it decodes a noisy block and then lists every code word that
 * comes close to the first row, where a list of the decoder shows only some of them.
 *
 * Build, from the repository's top, after `make target/staticlib/libcaldurrex.a`:
 *
 *   cc -std=c11 -Iinclude examples/near_misses.c target/staticlib/libcaldurrex.a
 */
#include "caldurrex.h"

#include <stdio.h>

/* The code, the decoder's list size, how far below the first row a word counts as a near miss, and
 * room for how many words this host tries first and has at most. */
enum { M = 6, N = 1 << M, K = 12, LIST = 8, MARGIN = 400, FIRST_ROOM = 4, MOST_ROOM = 256 };

static uint8_t map[N / 8];
static const uint8_t no_pairs[1]; /* an empty slice, too, has a pointer that is not null */
static const uint8_t arikan = 0;  /* the convolutional transform; any other byte asks for Arikan's */

/* What was sent, and what is received of it. */
static uint8_t payload[K], sent[N];
static int16_t soft[N];

/* Lent to both calls, one after the other. A list of words needs tables for a list size of 1 alone,
 * but longer ones do no harm. */
static uint32_t numbers[CALDURREX_NUMBERS(N, LIST)];
static uint8_t bytes[CALDURREX_BYTES(N, LIST)];
static uint8_t inputs[CALDURREX_ROWS(N, MOST_ROOM)], words[CALDURREX_ROWS(N, MOST_ROOM)];
static int32_t scores[MOST_ROOM];

static unsigned weight(size_t i)
{
    unsigned ones = 0;
    for (; i > 0; i /= 2)
        ones += i % 2;
    return ones;
}

/* Freezes the positions of lowest weight, all but K. */
static void make_map(void)
{
    size_t left = N - K;
    for (unsigned w = 0; left > 0; w++)
        for (size_t i = 0; i < N && left > 0; i++)
            if (weight(i) == w) {
                map[i / 8] |= (uint8_t)(1u << (i % 8));
                left--;
            }
}

/* The same numbers at every run. */
static uint32_t draw(void)
{
    static uint32_t s = 1;
    s ^= s << 13;
    s ^= s >> 17;
    s ^= s << 5;
    return s;
}

static void print_payload(const uint8_t *bits)
{
    printf("payload ");
    for (size_t i = 0; i < K; i++)
        printf("%u", bits[i]);
}

/* Encodes a payload and adds noise to its word: bit 0 is sent as 20, bit 1 as -20. The refusal. */
static uint32_t transmit(void)
{
    size_t turned = 0;
    for (size_t i = 0; i < K; i++)
        payload[i] = draw() >> 16 & 1;
    uint32_t refusal = caldurrex_encode(M, arikan, map, sizeof map, no_pairs, 0, payload, K, sent, N);
    for (size_t i = 0; refusal == 0 && i < N; i++) {
        soft[i] = (int16_t)((sent[i] ? -20 : 20) + (int)(draw() % 121) - 60);
        turned += (soft[i] < 0) != sent[i];
    }
    print_payload(payload);
    printf(" is sent; noise turns %zu of %d code bits\n", turned, N);
    return refusal;
}

/* Prints the payload of a word of the code, and how far the word is from the one that was sent. */
static void print_word(const uint8_t *word)
{
    uint8_t bits[K];
    size_t apart = 0;
    if (caldurrex_extract(M, arikan, map, sizeof map, no_pairs, 0, word, N, bits, K) != 0)
        return;
    for (size_t i = 0; i < N; i++)
        apart += word[i] != sent[i];
    print_payload(bits);
    if (apart == 0)
        printf(", the one that was sent\n");
    else
        printf(", %zu code bits apart from what was sent\n", apart);
}

/* The first row's correlation; the refusal. */
static uint32_t decode(int32_t *first)
{
    struct caldurrex_decoded answer =
        caldurrex_decode(M, arikan, map, sizeof map, no_pairs, 0, LIST, N, soft, N,
                         numbers, sizeof numbers / sizeof numbers[0], bytes, sizeof bytes,
                         inputs, sizeof inputs, words, sizeof words, scores, LIST);
    if (answer.refusal != 0)
        return answer.refusal;
    *first = scores[0];
    printf("row 0 of %u: correlation %d, ", (unsigned)answer.rows, (int)scores[0]);
    print_word(words);
    return 0;
}

/* Every word at the mark or above, if there is room for all. Of the scores the call is lent as many
 * places as it may fill; the rows must have n bytes for each of them, and may have more. */
static struct caldurrex_counted list_words(int32_t mark, size_t room)
{
    return caldurrex_list_words(M, arikan, map, sizeof map, no_pairs, 0, mark, soft, N,
                                numbers, sizeof numbers / sizeof numbers[0], bytes, sizeof bytes,
                                inputs, sizeof inputs, words, sizeof words, scores, room);
}

/* Lists the words within the margin below the first row. How many there are is not known before:
 * where the room is too small the call says so and touches no output, and is made again with more.
 * The refusal. */
static uint32_t show_near(int32_t first)
{
    size_t room = FIRST_ROOM;
    struct caldurrex_counted answer = list_words(first - MARGIN, room);
    while (answer.refusal == CALDURREX_TOO_MANY_WORDS && room < MOST_ROOM) {
        printf("room for %zu words is refused with %u: there are more\n", room, (unsigned)answer.refusal);
        room *= 4;
        answer = list_words(first - MARGIN, room);
    }
    if (answer.refusal != 0)
        return answer.refusal;
    printf("room for %zu words gives %u, in the order of their inputs\n", room, (unsigned)answer.count);
    for (uint32_t r = 0; r < answer.count; r++) {
        printf("  %3d below row 0: ", (int)(first - scores[r]));
        print_word(words + r * N);
    }
    return 0;
}

int main(void)
{
    int32_t first;
    make_map();
    printf("code: n = %d, k = %d, the positions of lowest weight frozen\n", N, K);
    if (transmit() != 0 || decode(&first) != 0)
        return 1;
    printf("every word at most %d below it:\n", MARGIN);
    return show_near(first) == 0 ? 0 : 1;
}
