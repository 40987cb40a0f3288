#include "plain_decoder.h"

#include <stdlib.h>
#include <string.h>

#include "plain_tables.h"
#include "plain_transform.h"

/* ---- the list */

/* The children of a position that stay, best first. */
struct children {
    int count;
    uint32_t key[MAX_LIST]; /* cost, place of the parent's prefix, bit: less is better */
    uint8_t parent[MAX_LIST];
};

/* The costs of path r with 0 and with 1 at the next position. */
static void child_costs(const struct decoder *d, int r, int position, uint32_t cost[2])
{
    const uint32_t *window = d->windows + 16 * nodes_at(d, d->m, d->window_slot[d->m][r]);
    cost[0] = cost[1] = UINT32_MAX;
    if (position == 0 || position % 2 == 1) {
        for (int x = 0; x < 16; x++)
            cost[x & 1] = least(cost[x & 1], window[x]);
    } else {
        int odd = d->odd[nodes_at(d, d->m, d->odd_slot[d->m][r])];
        for (int x = 0; x < 8; x++)
            cost[x & 1] = least(cost[x & 1], window[odd + 2 * x]);
    }
}

/* Gives the key that is dropped for it, UINT32_MAX if none is. */
static uint32_t insert(struct children *c, int most, uint32_t key, int parent)
{
    int to = c->count;
    uint32_t dropped = UINT32_MAX;
    if (c->count < most)
        c->count++;
    else if ((dropped = c->key[--to]) < key)
        return key;
    for (; to > 0 && c->key[to - 1] > key; to--) {
        c->key[to] = c->key[to - 1];
        c->parent[to] = c->parent[to - 1];
    }
    c->key[to] = key;
    c->parent[to] = (uint8_t)parent;
    return dropped;
}

/* One of the two positions of a pair, in two bytes. */
static int place_in(const uint8_t *two)
{
    return two[0] + 256 * two[1];
}

/* The sum of path r's bits at the e of the pairs from `first` on, below `end`, which have
 * this position for their f. The bits are read back from the history, the last one first. */
static uint8_t own_sum(const struct decoder *d, int r, int position, int first, int end)
{
    uint8_t sum = 0;
    for (int at = position - 1; end > first; at--) {
        uint8_t step = d->history[at * d->l + r];
        if (place_in(d->pairs + 4 * end - 2) == at) {
            sum ^= step % 2;
            end--;
        }
        r = step / 2;
    }
    return sum;
}

static void split(struct decoder *d, int position, int frozen, struct children *c)
{
    int first = d->next_pair;
    while (d->next_pair < d->pair_count && place_in(d->pairs + 4 * d->next_pair) == position)
        d->next_pair++;
    c->count = 0;
    for (int r = 0; r < d->count; r++) {
        uint32_t cost[2], from = frozen ? own_sum(d, r, position, first, d->next_pair) : 0, to = frozen ? from : 1;
        child_costs(d, r, position, cost);
        for (uint32_t bit = from; bit <= to; bit++)
            d->dropped = least(d->dropped, insert(c, d->l, cost[bit] * 64 + 2u * d->place[r] + bit, r));
    }
}

/* The children become the paths. */
static void take(struct decoder *d, int position, const struct children *c)
{
    for (int layer = 2; layer <= d->m; layer++) {
        uint8_t window[MAX_LIST], odd[MAX_LIST];
        for (int r = 0; r < c->count; r++) {
            window[r] = d->window_slot[layer][c->parent[r]];
            odd[r] = d->odd_slot[layer][c->parent[r]];
        }
        memcpy(d->window_slot[layer], window, (size_t)c->count);
        memcpy(d->odd_slot[layer], odd, (size_t)c->count);
    }
    for (int r = 0; r < c->count; r++) {
        uint8_t bit = c->key[r] % 2;
        d->cost[r] = c->key[r] / 64;
        d->history[position * d->l + r] = (uint8_t)(2 * c->parent[r] + bit);
        d->place[r] = 0;
        for (int q = 0; q < c->count; q++)
            d->place[r] += c->key[q] % 64 < c->key[r] % 64;
        (position % 2 ? d->odd : d->even)[nodes_at(d, d->m, r)] = bit;
    }
    d->count = c->count;
}

/* The paths up to the stop position. */
static void run(struct decoder *d, int arikan, const uint8_t *map, int stop, const int16_t *soft)
{
    start(d, arikan, soft);
    for (int position = 0; position < stop; position++) {
        struct children children;
        split(d, position, map[position / 8] >> (position % 8) & 1, &children);
        take(d, position, &children);
        if (position + 1 < stop)
            advance(d, arikan, d->m, position);
    }
}

/* ---- rows */

/* The input of the path of this rank, read back from the history. */
static void read_back(const struct decoder *d, int rank, int stop, uint8_t *input)
{
    memset(input, 0, (size_t)d->n);
    for (int position = stop - 1; position >= 0; position--) {
        uint8_t step = d->history[position * d->l + rank];
        input[position] = step % 2;
        rank = step / 2;
    }
}

struct plain_decoded plain_decode(int m, int arikan, const uint8_t *map, const uint8_t *pairs, int pair_count,
                                  int list_size, int stop, const int16_t *soft, uint32_t *numbers, uint8_t *bytes,
                                  uint8_t *inputs, uint8_t *words, int32_t *scores)
{
    int n = 1 << m, l = list_size, magnitudes = 0;
    struct decoder d = {.m = m, .n = n, .l = l, .count = 1, .windows = numbers,
                        .bottom = numbers + 8 * n * l, .even = bytes, .sum = bytes + n * l / 2,
                        .odd = bytes + n * l, .history = bytes + 3 * n * l / 2, .dropped = UINT32_MAX,
                        .pairs = pairs, .pair_count = pair_count};
    for (int i = 0; i < n; i++)
        magnitudes += abs(taken(soft[i]));
    if (arikan)
        run(&d, 1, map, stop, soft);
    else
        run(&d, 0, map, stop, soft);
    for (int r = 0; r < d.count; r++) {
        read_back(&d, r, stop, inputs + r * n);
        memcpy(words + r * n, inputs + r * n, (size_t)n);
        transform(words + r * n, n, arikan);
        scores[r] = magnitudes - 2 * (int32_t)d.cost[r]; /* the empty prefix costs 0 */
    }
    memset(numbers, 0, (size_t)32 * n * l * sizeof numbers[0]);
    memset(bytes, 0, ((size_t)4 * n + 256) * l);
    /* With nothing dropped UINT32_MAX / 64 is above every cost. */
    return (struct plain_decoded){d.count, magnitudes - 2 * (int32_t)least(d.cost[0], d.dropped / 64)};
}
