/* The tables of the plain decoder: windows and decided bits of every layer, for every
 * path. The functions stand here whole so that the compiler sees them beside the list. */
#ifndef PLAIN_TABLES_H
#define PLAIN_TABLES_H

#include <stddef.h>
#include <stdint.h>
#include <string.h>

/*
 * Costs stand for scores: a bit against the sign of its soft value costs the soft
 * value's magnitude, and a prefix costs the least that a word which begins with it
 * can cost. Its score is the sum of all magnitudes less twice its cost.
 *
 * Layer k, from 2 to m, has W = 2^(m-k) nodes, each a word of 2^k bits. Node i has the
 * children i and i + W of layer k - 1: the a and the b of the transform's rule. For
 * each node and path the tables hold a window, the costs of the 16 ways in which the
 * node's next four bits can go on, and the node's last bits.
 *
 * Arikan's transform, too, can be taken apart at even and odd places: its a_i is
 * u_2i + u_2i+1 and its b_i is u_2i+1, the rule of the convolutional one without the carry
 * u_2i+2. So both are decoded alike, with a carry of 0 for Arikan's and of 1 for the other.
 *
 * All paths stand at the same position. Where a layer is due, it is written anew for
 * every path, that of rank r in slot r, from the layer below; a path names the slots
 * that hold what is its own. So a split copies slot numbers and no windows. Slot s of
 * a layer starts at node W * (l + s): as W doubles from layer to layer, the layers'
 * regions, from W * l to 2 * W * l, do not meet.
 */

enum { MAX_LIST = 32, MAX_LAYER = 10 };

struct decoder {
    int m, n, l, count;
    uint32_t *windows; /* 16 words a node */
    uint32_t *bottom;  /* 16 words a node of layer 2: the costs of its words, the same for every path */
    uint8_t *even, *odd, *sum; /* a byte a node: its last bit at an even place, at an odd place, both added */
    uint8_t *history;          /* at each position and rank: 2 * rank of the parent + bit */
    uint8_t window_slot[MAX_LAYER + 1][MAX_LIST]; /* where path r's windows and even bits lie */
    uint8_t odd_slot[MAX_LAYER + 1][MAX_LIST];    /* where its odd bits and sums lie */
    uint32_t cost[MAX_LIST];
    uint8_t place[MAX_LIST]; /* of path r's prefix among the live ones in lexicographic order */
    uint32_t dropped;        /* the least key of a dropped child; its cost is the least too */
    const uint8_t *pairs;    /* four bytes each; the first next_pair have their f below the position */
    int pair_count, next_pair;
};

static uint32_t least(uint32_t a, uint32_t b)
{
    return a < b ? a : b;
}

static size_t nodes_at(const struct decoder *d, int layer, int slot)
{
    return (size_t)(1 << (d->m - layer)) * (size_t)(d->l + slot);
}

/* ---- windows */

/* The costs of a child's next three bits, from its stored window. */
static void read_window(const uint32_t *window, int phase, uint8_t odd, uint32_t out[8])
{
    if (phase != 0 && phase % 2 == 0)
        for (int c = 0; c < 8; c++)
            out[c] = window[odd + 2 * c]; /* the window's first bit is decided */
    else
        for (int c = 0; c < 8; c++)
            out[c] = least(window[c], window[c + 8]); /* its last bit is left free */
}

/* The window over bits 2j+1 to 2j+4 of a node whose bits 0 to 2j are decided, the last
 * being e. */
static inline void combine_by(int carry, const uint32_t a[8], const uint32_t b[8], uint8_t e, uint32_t out[16])
{
    for (int x = 0; x < 16; x++) {
        int x1 = x & 1, x2 = x >> 1 & 1, x3 = x >> 2 & 1, x4 = x >> 3;
        int b0 = x1 ^ (x2 & carry), b1 = x3 ^ (x4 & carry), a0 = e ^ b0, a1 = x2 ^ b1;
        uint32_t zero = a[a0 | a1 << 1 | x4 << 2] + b[b0 | b1 << 1];
        uint32_t one = a[a0 | a1 << 1 | (x4 ^ 1) << 2] + b[b0 | b1 << 1 | 4];
        out[x] = least(zero, one);
    }
}

/* The compiler makes a loop of its own for each carry. */
static void combine(int arikan, const uint32_t a[8], const uint32_t b[8], uint8_t e, uint32_t out[16])
{
    if (arikan)
        combine_by(0, a, b, e, out);
    else
        combine_by(1, a, b, e, out);
}

/* The bits of a window from a place on that lie inside a word of len bits, as a mask. */
static int inside(int from, int len)
{
    return len - from >= 4 ? 15 : (1 << (len - from)) - 1;
}

/* The three-bit windows of the children of node i, for path r. */
static void read_children(const struct decoder *d, int layer, int r, int i, int phase, uint32_t a[8], uint32_t b[8])
{
    int W = 1 << (d->m - layer);
    const uint32_t *windows = d->windows + 16 * nodes_at(d, layer - 1, d->window_slot[layer - 1][r]);
    const uint8_t *odd = d->odd + nodes_at(d, layer - 1, d->odd_slot[layer - 1][r]);
    read_window(windows + 16 * i, phase, odd[i], a);
    read_window(windows + 16 * (i + W), phase, odd[i + W], b);
}

/* ---- the start: no bit is decided */

/* A soft value as it is taken: full scale is -2,047. */
static int taken(int y)
{
    return y == -2048 ? -2047 : y;
}

static void start_bottom(struct decoder *d, int arikan, const int16_t *soft)
{
    int quarter = d->n / 4, carry = !arikan;
    for (int i = 0; i < quarter; i++) {
        uint32_t cost[4][2];
        for (int k = 0; k < 4; k++) {
            int y = taken(soft[i + k * quarter]);
            cost[k][0] = (uint32_t)(y < 0 ? -y : 0);
            cost[k][1] = (uint32_t)(y > 0 ? y : 0);
        }
        for (int u = 0; u < 16; u++) {
            int u0 = u & 1, u1 = u >> 1 & 1, u2 = u >> 2 & 1, u3 = u >> 3;
            int first = u0 ^ u1 ^ u3 ^ (carry ? 0 : u2), second = u1 ^ u3 ^ (carry ? u2 : 0);
            d->bottom[16 * i + u] = cost[0][first] + cost[1][second] + cost[2][u2 ^ u3] + cost[3][u3];
        }
    }
    memcpy(d->windows + 16 * nodes_at(d, 2, 0), d->bottom, 64 * (size_t)quarter);
}

static void start(struct decoder *d, int arikan, const int16_t *soft)
{
    start_bottom(d, arikan, soft);
    for (int layer = 3; layer <= d->m; layer++) {
        uint32_t *windows = d->windows + 16 * nodes_at(d, layer, 0);
        for (int i = 0; i < 1 << (d->m - layer); i++) {
            uint32_t a[8], b[8], first[2][16];
            read_children(d, layer, 0, i, 0, a, b);
            combine(arikan, a, b, 0, first[0]);
            combine(arikan, a, b, 1, first[1]);
            for (int x = 0; x < 16; x++)
                windows[16 * i + x] = least(first[x & 1][x >> 1], first[x & 1][x >> 1 | 8]);
        }
    }
}

/* ---- one more bit */

/* Path r's windows of a layer, once its nodes' bit 2j is decided, into slot r. */
static void recompute(struct decoder *d, int arikan, int layer, int r, int j)
{
    int W = 1 << (d->m - layer), mask = inside(2 * j + 1, 1 << layer);
    uint32_t *windows = d->windows + 16 * nodes_at(d, layer, r);
    const uint8_t *even = d->even + nodes_at(d, layer, r);
    const uint8_t *sum = d->sum + nodes_at(d, layer, d->odd_slot[layer][r]);
    const uint8_t *odd = d->odd + nodes_at(d, layer, d->odd_slot[layer][r]);
    for (int i = 0; i < W; i++) {
        if (layer == 2) {
            int decided = j == 0 ? even[i] : (sum[i] ^ odd[i]) | odd[i] << 1 | even[i] << 2;
            for (int x = 0; x < 16; x++)
                windows[16 * i + x] = d->bottom[16 * i + (decided | (x & mask) << (2 * j + 1))];
        } else {
            uint32_t a[8], b[8], all[16];
            read_children(d, layer, r, i, j, a, b);
            combine(arikan, a, b, even[i], all);
            for (int x = 0; x < 16; x++)
                windows[16 * i + x] = all[x & mask];
        }
    }
}

/* The bits that the children's words get at place `below`, by the transform's rule. */
static void pass_down(struct decoder *d, int arikan, int layer, int below)
{
    int W = 1 << (d->m - layer);
    uint8_t carry = !arikan;
    for (int r = 0; r < d->count; r++) {
        const uint8_t *even = d->even + nodes_at(d, layer, r);
        const uint8_t *sum = d->sum + nodes_at(d, layer, d->odd_slot[layer][r]);
        const uint8_t *odd = d->odd + nodes_at(d, layer, d->odd_slot[layer][r]);
        uint8_t *to = (below % 2 == 1 ? d->odd : d->even) + nodes_at(d, layer - 1, r);
        for (int i = 0; i < W; i++) {
            to[i] = sum[i] ^ (even[i] & carry);
            to[i + W] = odd[i] ^ (even[i] & carry);
        }
    }
}

/* The nodes of a layer have got their bit at `place`, for path r in slot r. Windows
 * are due at even places only: at odd ones they hold the next bit already. */
static void advance(struct decoder *d, int arikan, int layer, int place)
{
    int W = 1 << (d->m - layer), j = place / 2;
    if (place % 2 == 1) {
        for (int r = 0; r < d->count; r++) {
            uint8_t *odd = d->odd + nodes_at(d, layer, r), *sum = d->sum + nodes_at(d, layer, r);
            const uint8_t *even = d->even + nodes_at(d, layer, d->window_slot[layer][r]);
            for (int i = 0; i < W; i++)
                sum[i] = even[i] ^ odd[i];
            d->odd_slot[layer][r] = (uint8_t)r;
        }
        return;
    }
    if (j >= 1 && layer > 2) {
        pass_down(d, arikan, layer, j - 1);
        advance(d, arikan, layer - 1, j - 1);
    }
    for (int r = 0; r < d->count; r++)
        recompute(d, arikan, layer, r, j);
    for (int r = 0; r < d->count; r++)
        d->window_slot[layer][r] = (uint8_t)r;
}

#endif
