#include "paper_score.h"

#include "reference_transform.h"

#include <string.h>

enum { MAX_N = REFERENCE_MAX_N };

static int32_t larger(int32_t x, int32_t y)
{
    return x > y ? x : y;
}

/* ---- soft values */

int paper_out_of_range(int16_t soft)
{
    return soft < -2048 || soft > 2047;
}

int16_t paper_taken(int16_t soft)
{
    return soft == -2048 ? -2047 : soft;
}

/*
 * ---- scores by the convolutional transform
 *
 * The rule splits a word of N bits into a and b of N/2 bits each, whose transforms
 * lie at the even and at the odd places. A correlation is then the sum of two, that
 * of a with the soft values at the even places and that of b with the others, and
 * the score of a prefix of u comes from scores of prefixes of a and b:
 *
 * - All N bits are known: so are all of a and b.
 * - An even number of bits below N is known: the next bit may be 0 or 1, and the
 *   larger of both scores counts.
 * - An odd number of bits is known, u_0 to u_2i: these fix a and b below place i.
 *   There b_i = u_2i+1 + u_2i+2 is some t, and a_i = u_2i + t. All behind is free:
 *   whatever bits a and b have there, u_2j = a_j + b_j and u_2j+1 = b_j + u_2j+2
 *   give the one u that has them. (At the last pair u_2i+2 is 0 and t is u_2i+1.)
 *
 * So the largest sum is worked out by going down to words of one bit. A word on the
 * way is asked for the same prefixes many times, and answers from `found` after the
 * first. In one evaluation it is asked for one length only, besides the one longer by
 * a next bit that is tried, and for prefixes that agree but for their last few bits.
 * For if the last v bits asked for vary, the bits of u vary from place len - v on, a_i
 * and b_i from place (len - v - 2) / 2 on, and no more of them is asked for than
 * (len + 2) / 2 bits: v / 2 + 2 bits vary there. None varies at the top, so never more
 * than three do, and four with the next bit. The length modulo 2 and the last four
 * bits thus tell apart what a word is asked for.
 */

static struct answer {
    uint32_t evaluation; /* the one in which it was found */
    int32_t score;
} found[MAX_N][2][16];

static uint32_t evaluation; /* counts them: a run of the tests has far fewer than 2^32 */

/* A word on the way: its soft values are soft[0], soft[stride], soft[2 * stride] and
 * so on, n of them, and its answers are found[name]. */
struct word {
    size_t n, stride, name;
    const int16_t *soft;
};

/* a and b as far as the first len bits of u fix them; the number of their places. */
static size_t split_word(size_t n, const uint8_t *u, size_t len, uint8_t *a, uint8_t *b)
{
    size_t i = 0;
    for (; 2 * i + 2 < len; i++) {
        a[i] = u[2 * i] ^ u[2 * i + 1] ^ u[2 * i + 2];
        b[i] = u[2 * i + 1] ^ u[2 * i + 2];
    }
    if (len == n) {
        a[i] = u[2 * i] ^ u[2 * i + 1];
        b[i] = u[2 * i + 1];
        i++;
    }
    return i;
}

static size_t last_bits(const uint8_t *u, size_t len)
{
    size_t bits = 0;
    for (size_t i = len < 4 ? 0 : len - 4; i < len; i++)
        bits = 2 * bits + u[i];
    return bits;
}

static int32_t best(const struct word *word, uint8_t *u, size_t len);

/* The third rule and, where len is all, the first. */
static int32_t best_of_halves(const struct word *word, const uint8_t *u, size_t len)
{
    struct word even = {word->n / 2, 2 * word->stride, 2 * word->name + 1, word->soft};
    struct word odd = {word->n / 2, 2 * word->stride, 2 * word->name + 2, word->soft + word->stride};
    uint8_t a[MAX_N / 2], b[MAX_N / 2];
    size_t i = split_word(word->n, u, len, a, b);
    if (len == word->n)
        return best(&even, a, i) + best(&odd, b, i);
    int32_t with[2];
    for (uint8_t t = 0; t < 2; t++) {
        a[i] = u[2 * i] ^ t;
        b[i] = t;
        with[t] = best(&even, a, i + 1) + best(&odd, b, i + 1);
    }
    return larger(with[0], with[1]);
}

/* The score of the first len bits of u, which has room for all n; those behind len
 * are free for use. */
static int32_t best(const struct word *word, uint8_t *u, size_t len)
{
    if (word->n == 1)
        return u[0] ? -word->soft[0] : word->soft[0];
    struct answer *answer = &found[word->name][len % 2][last_bits(u, len)];
    if (answer->evaluation != evaluation) {
        if (len % 2 == 0 && len < word->n) {
            u[len] = 0;
            int32_t with_0 = best(word, u, len + 1);
            u[len] = 1;
            answer->score = larger(with_0, best(word, u, len + 1));
        } else {
            answer->score = best_of_halves(word, u, len);
        }
        answer->evaluation = evaluation;
    }
    return answer->score;
}

static int32_t convolutional_score(size_t n, const int16_t *soft, const uint8_t *prefix, size_t len)
{
    struct word whole = {n, 1, 0, soft};
    uint8_t u[MAX_N];
    if (len > 0)
        memcpy(u, prefix, len);
    evaluation++;
    return best(&whole, u, len);
}

/* ---- either transform */

int32_t paper_score(size_t n, uint8_t arikan, const int16_t *soft, const uint8_t *prefix, size_t len)
{
    return arikan ? arikan_score(n, soft, prefix, len) : convolutional_score(n, soft, prefix, len);
}

int32_t paper_correlation(size_t n, const int16_t *soft, const uint8_t *word)
{
    int32_t sum = 0;
    for (size_t i = 0; i < n; i++)
        sum += word[i] ? -soft[i] : soft[i];
    return sum;
}
