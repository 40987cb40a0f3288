#include "paper_decoder.h"

#include "paper_score.h"
#include "reference_codec.h"

#include <string.h>

enum { MAX_N = REFERENCE_MAX_N, MAX_CHILDREN = 2 * PAPER_MAX_LIST };

static int32_t larger(int32_t x, int32_t y)
{
    return x > y ? x : y;
}

/* ---- the list */

/* A code of n positions. */
struct code {
    size_t n;
    uint8_t arikan;
    const uint8_t *map, *pairs;
    size_t pairs_len;
};

/* Prefixes of one length. A score is set and used only where they are ordered. */
struct list {
    size_t count;
    uint8_t bits[MAX_CHILDREN][MAX_N];
    int32_t score[MAX_CHILDREN];
    int32_t dropped; /* the highest score dropped on the way to them; INT32_MIN if none was */
};

/* Both prefixes of x and y have len bits. */
static int goes_before(const struct list *list, size_t x, size_t y, size_t len)
{
    if (list->score[x] != list->score[y])
        return list->score[x] > list->score[y];
    return memcmp(list->bits[x], list->bits[y], len) < 0;
}

/* to gets the first most prefixes of from in the order of the rules, or all of them
 * if there are no more. The others are dropped. */
static void keep_best(const struct code *code, const int16_t *soft, struct list *from, size_t len, size_t most,
                      struct list *to)
{
    size_t order[MAX_CHILDREN];
    for (size_t x = 0; x < from->count; x++) {
        from->score[x] = paper_score(code->n, code->arikan, soft, from->bits[x], len);
        size_t at = x;
        for (; at > 0 && goes_before(from, x, order[at - 1], len); at--)
            order[at] = order[at - 1];
        order[at] = x;
    }
    to->count = from->count < most ? from->count : most;
    for (size_t r = 0; r < to->count; r++) {
        memcpy(to->bits[r], from->bits[order[r]], len);
        to->score[r] = from->score[order[r]];
    }
    to->dropped = from->dropped;
    for (size_t r = to->count; r < from->count; r++)
        to->dropped = larger(to->dropped, from->score[order[r]]);
}

/* to gets every prefix of from with one more bit: at a frozen position the sum of its own
 * bits that the pairs give, else both. */
static void extend(const struct code *code, const struct list *from, size_t at, struct list *to)
{
    to->count = 0;
    to->dropped = from->dropped;
    for (size_t r = 0; r < from->count; r++) {
        uint8_t first = 0, last = 1;
        if (reference_frozen(code->map, at))
            first = last = reference_frozen_bit(code->pairs, code->pairs_len, at, from->bits[r]);
        for (uint8_t bit = first; bit <= last; bit++) {
            memcpy(to->bits[to->count], from->bits[r], at);
            to->bits[to->count++][at] = bit;
        }
    }
}

/* The order of prefixes hangs on nothing but themselves, so it is needed only where
 * some are left out, and at the end. */
static const struct list *live_after(const struct code *code, const int16_t *soft, size_t list_size, size_t stop)
{
    static struct list space[2];
    struct list *live = &space[0], *other = &space[1];
    live->count = 1;
    live->dropped = INT32_MIN;
    for (size_t at = 0; at < stop; at++) {
        extend(code, live, at, other);
        if (other->count > list_size) {
            keep_best(code, soft, other, at + 1, list_size, live);
        } else {
            struct list *children = other;
            other = live;
            live = children;
        }
    }
    keep_best(code, soft, live, stop, list_size, other);
    return other;
}

/* ---- the call */

/* 4 to 7 */
static uint32_t run_refusal(uint32_t m, uint32_t list_size, uint32_t stop, const int16_t *soft, size_t soft_len)
{
    if (list_size < 1 || list_size > PAPER_MAX_LIST)
        return 4;
    if (stop > (uint32_t)1 << m)
        return 5;
    if (soft_len != (size_t)1 << m)
        return 6;
    for (size_t i = 0; i < soft_len; i++)
        if (paper_out_of_range(soft[i]))
            return 7;
    return 0;
}

static struct paper_decoded refused(uint32_t refusal)
{
    return (struct paper_decoded){refusal, 0, 0};
}

struct paper_decoded paper_decode(uint32_t m, uint8_t arikan, const uint8_t *map, size_t map_len,
                                  const uint8_t *pairs, size_t pairs_len,
                                  uint32_t list_size, uint32_t stop,
                                  const int16_t *soft, size_t soft_len,
                                  uint32_t *numbers, size_t numbers_len,
                                  uint8_t *bytes, size_t bytes_len,
                                  uint8_t *inputs, size_t inputs_len,
                                  uint8_t *words, size_t words_len,
                                  int32_t *scores, size_t scores_len)
{
    uint32_t refusal = reference_code_refusal(m, map, map_len, pairs, pairs_len);
    if (refusal == 0)
        refusal = run_refusal(m, list_size, stop, soft, soft_len);
    if (refusal != 0)
        return refused(refusal);
    size_t n = (size_t)1 << m, l = list_size;
    if (numbers_len < 32 * n * l)
        return refused(8);
    if (bytes_len < (4 * n + 256) * l)
        return refused(9);
    if (inputs_len < l * n || words_len < l * n || scores_len < l)
        return refused(10);
    int16_t taken[MAX_N];
    for (size_t i = 0; i < n; i++)
        taken[i] = paper_taken(soft[i]);
    const struct code code = {n, arikan, map, pairs, pairs_len};
    const struct list *rows = live_after(&code, taken, l, stop);
    memset(numbers, 0, numbers_len * sizeof numbers[0]);
    memset(bytes, 0, bytes_len);
    memset(inputs, 0, inputs_len);
    memset(words, 0, words_len);
    memset(scores, 0, scores_len * sizeof scores[0]);
    for (size_t r = 0; r < rows->count; r++) {
        memcpy(inputs + r * n, rows->bits[r], stop);
        reference_transform(n, arikan, inputs + r * n, words + r * n);
        scores[r] = rows->score[r];
    }
    return (struct paper_decoded){0, (uint32_t)rows->count, larger(rows->score[0], rows->dropped)};
}
