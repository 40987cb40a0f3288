/*
 * Scores by Arikan's transform, from its halves.
 *
 * T(u) is T(v + w), then T(w), for the halves v and w of u. Each bit of a transform is a sum
 * of input bits, so T(v + w) = T(v) + T(w). And each word of N/2 bits is the transform of one
 * w, so where w is free, the bits of T(w) are free, each by itself.
 *
 * A word of N places is given by what each place gains with the bit 0 and with the bit 1, at
 * first the soft value and its negative. The score of a prefix of u is the largest sum of
 * gains over all T(u) whose u begins with it:
 *
 * - Up to N/2 bits are known: they are bits of v, and w is free. Where T(v) has t and T(w) has
 *   x, T(u) has t + x at place i and x at place N/2 + i. For each t the better x is taken, and
 *   what is left is the prefix of v in a word of N/2 places.
 * - More are known: v is known, and T(v) with it. Each x now gains at both places together,
 *   and what is left is the prefix of w in a word of N/2 places.
 * - One place is left: its bit is known, or the better one is taken.
 *
 * No maximum is taken over anything that a known bit decides, and each is over bits that are
 * free of each other, so the sum of the largest is the largest sum.
 */
#include "paper_score.h"

#include "reference_transform.h"

enum { MAX_N = REFERENCE_MAX_N };

/* What a place gains with the bit 0 and with the bit 1. */
struct gain {
    int32_t with[2];
};

static int32_t larger(int32_t x, int32_t y)
{
    return x > y ? x : y;
}

/* With w free: what t gains at a place of T(v), by the places of T(v + w) and T(w). */
static struct gain of_first(struct gain sum, struct gain second)
{
    struct gain gain;
    for (int t = 0; t < 2; t++)
        gain.with[t] = larger(sum.with[t] + second.with[0], sum.with[1 - t] + second.with[1]);
    return gain;
}

/* With t known: what x gains at a place of T(w). */
static struct gain of_second(struct gain sum, struct gain second, uint8_t t)
{
    struct gain gain;
    for (int x = 0; x < 2; x++)
        gain.with[x] = sum.with[t ^ x] + second.with[x];
    return gain;
}

/* The score of the first len bits of u; place[0] to place[n - 1] are used up. */
static int32_t best(size_t n, struct gain *place, const uint8_t *u, size_t len)
{
    if (n == 1)
        return len == 1 ? place[0].with[u[0]] : larger(place[0].with[0], place[0].with[1]);
    size_t half = n / 2;
    if (len <= half) {
        for (size_t i = 0; i < half; i++)
            place[i] = of_first(place[i], place[half + i]);
        return best(half, place, u, len);
    }
    uint8_t of_v[MAX_N / 2];
    reference_transform(half, 1, u, of_v);
    for (size_t i = 0; i < half; i++)
        place[i] = of_second(place[i], place[half + i], of_v[i]);
    return best(half, place, u + half, len - half);
}

int32_t arikan_score(size_t n, const int16_t *soft, const uint8_t *prefix, size_t len)
{
    struct gain place[MAX_N];
    for (size_t i = 0; i < n; i++)
        place[i] = (struct gain){{soft[i], -soft[i]}};
    return best(n, place, prefix, len);
}
