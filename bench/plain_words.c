#include "plain_words.h"

#include <stdlib.h>
#include <string.h>

#include "plain_transform.h"

/*
 * The cost of a word is the sum of the magnitudes of the soft values whose signs it does not
 * have, and its correlation the sum of all magnitudes less twice the cost. The payloads are gone
 * through in blocks that agree in all but their last r bits. A code bit of a word of the block
 * is that of the block's first word, changed by some of the r bits: positions that hang on the
 * same of these stand in one bin with their two costs, unchanged and changed. A sum over the bins,
 * halved bit by bit, then gives the costs of all words of the block at once.
 */

/* The costs of some positions: with the code bits of a block's first word, with each changed. */
struct costs {
    uint32_t kept, changed;
};

struct listing {
    int n, k, r, arikan;
    const uint8_t *map, *pairs;
    int pair_count;
    int16_t soft[1024];
    int32_t magnitudes;
    struct costs *bins; /* 2^r */
    uint32_t *columns;  /* for each position, the bits of the last r that it hangs on */
    uint8_t *input, *word;
};

/* One of the two positions of a pair, in two bytes. */
static int place_in(const uint8_t *two)
{
    return two[0] + 256 * two[1];
}

/* The input and the word of a payload, whose first bit is the highest of k. */
static void encode(const struct listing *l, uint32_t payload, uint8_t *input, uint8_t *word)
{
    int left = l->k, pair = 0;
    for (int i = 0; i < l->n; i++) {
        if (!(l->map[i / 8] >> (i % 8) & 1)) {
            input[i] = payload >> --left & 1;
            continue;
        }
        input[i] = 0;
        for (; pair < l->pair_count && place_in(l->pairs + 4 * pair) == i; pair++)
            input[i] ^= input[place_in(l->pairs + 4 * pair + 2)];
    }
    memcpy(word, input, (size_t)l->n);
    transform(word, l->n, l->arikan);
}

/* ---- the costs of a block */

static void set_columns(struct listing *l)
{
    memset(l->columns, 0, (size_t)l->n * sizeof l->columns[0]);
    for (int bit = 0; bit < l->r; bit++) {
        encode(l, 1u << bit, l->input, l->word);
        for (int i = 0; i < l->n; i++)
            l->columns[i] |= (uint32_t)l->word[i] << bit;
    }
}

static void halve(struct costs *x, struct costs *y)
{
    struct costs p = *x, q = *y;
    *x = (struct costs){p.kept + q.kept, p.changed + q.changed};
    *y = (struct costs){p.kept + q.changed, p.changed + q.kept};
}

/* The last two bits are done together. */
static void fold(struct costs *bins, int count)
{
    int half = count / 2;
    for (; half >= 4; half /= 2)
        for (int from = 0; from < count; from += 2 * half)
            for (int i = from; i < from + half; i++)
                halve(&bins[i], &bins[i + half]);
    for (int from = 0; half == 2 && from < count; from += 4) {
        halve(&bins[from], &bins[from + 2]);
        halve(&bins[from + 1], &bins[from + 3]);
        halve(&bins[from], &bins[from + 1]);
        halve(&bins[from + 2], &bins[from + 3]);
    }
    if (half == 1)
        halve(&bins[0], &bins[1]);
}

/* Bin x gets the cost of the block's word with x for its last r bits. */
static void cost_block(struct listing *l, uint32_t block)
{
    encode(l, block << l->r, l->input, l->word);
    memset(l->bins, 0, sizeof l->bins[0] << l->r);
    for (int i = 0; i < l->n; i++) {
        uint32_t of_0 = l->soft[i] < 0 ? (uint32_t)-l->soft[i] : 0, of_1 = l->soft[i] > 0 ? (uint32_t)l->soft[i] : 0;
        struct costs *bin = &l->bins[l->columns[i]];
        bin->kept += l->word[i] ? of_1 : of_0;
        bin->changed += l->word[i] ? of_0 : of_1;
    }
    fold(l->bins, 1 << l->r);
}

/* ---- the two passes */

/* The number of words that cost no more; as soon as there are more than places, -1. */
static long count_words(struct listing *l, uint32_t most, long places)
{
    long count = 0;
    for (uint32_t block = 0; block < 1u << (l->k - l->r); block++) {
        cost_block(l, block);
        for (uint32_t x = 0; x < 1u << l->r; x++)
            count += l->bins[x].kept <= most;
        if (count > places)
            return -1;
    }
    return count;
}

static void write_words(struct listing *l, uint32_t most, uint8_t *inputs, uint8_t *words, int32_t *scores)
{
    long row = 0;
    for (uint32_t block = 0; block < 1u << (l->k - l->r); block++) {
        cost_block(l, block);
        for (uint32_t x = 0; x < 1u << l->r; x++)
            if (l->bins[x].kept <= most) {
                encode(l, block << l->r | x, inputs + row * l->n, words + row * l->n);
                scores[row++] = l->magnitudes - 2 * (int32_t)l->bins[x].kept;
            }
    }
}

/* k is the number of clear positions; soft values are taken from -2047 on. */
static void start(struct listing *l, int m, const int16_t *soft)
{
    for (int i = 0; i < l->n; i++) {
        l->k += !(l->map[i / 8] >> (i % 8) & 1);
        l->soft[i] = soft[i] < -2047 ? -2047 : soft[i];
        l->magnitudes += abs(l->soft[i]);
    }
    l->r = l->k < m + 3 ? l->k : m + 3;
    set_columns(l);
}

long plain_list_words(int m, int arikan, const uint8_t *map, const uint8_t *pairs, int pair_count, int32_t mark,
                      const int16_t *soft, uint32_t *numbers, uint8_t *bytes, uint8_t *inputs, uint8_t *words,
                      int32_t *scores, long places)
{
    int n = 1 << m;
    struct listing l = {.n = n, .arikan = arikan, .map = map, .pairs = pairs, .pair_count = pair_count,
                        .bins = (struct costs *)(void *)numbers, .columns = numbers + 16 * n, .input = bytes,
                        .word = bytes + n};
    long count = 0;
    start(&l, m, soft);
    int64_t beyond = (int64_t)l.magnitudes - mark;
    if (beyond >= 0)
        count = count_words(&l, (uint32_t)(beyond / 2), places);
    if (count > 0)
        write_words(&l, (uint32_t)(beyond / 2), inputs, words, scores);
    memset(numbers, 0, (size_t)32 * n * sizeof numbers[0]);
    memset(bytes, 0, (size_t)4 * n + 256);
    return count;
}
