#include "check_paper_scores.h"

#include "draw.h"
#include "enumeration.h"
#include "paper_score.h"
#include "reference_codec.h"

#include <stdio.h>
#include <stdlib.h>

enum { MAX_N = REFERENCE_MAX_N, ALL_OF_16 = 1 << 16 };

static unsigned long checked;

void check_need(int ok, const char *what, uint8_t arikan, size_t n, size_t len)
{
    if (!ok) {
        printf("check_paper_decoder: FAILED: %s by %s transform at n = %zu, %zu bits\n", what,
               arikan ? "Arikan's" : "the convolutional", n, len);
        exit(1);
    }
}

void check_draw_soft(int16_t *soft, size_t n)
{
    static const size_t most[] = {0, 1, 2, 20, 2047};
    size_t magnitude = most[draw_below(5)];
    for (size_t i = 0; i < n; i++)
        soft[i] = (int16_t)((int)draw_below(2 * magnitude + 1) - (int)magnitude);
}

void check_draw_bits(uint8_t *bits, size_t len)
{
    for (size_t i = 0; i < len; i++)
        bits[i] = (uint8_t)draw_below(2);
}

/* Every prefix of every length. A prefix's score is enumerated as the larger of its
 * completions' correlations, which are worked out once for each word. */
static void check_all_prefixes(size_t n, uint8_t arikan)
{
    static int32_t most[ALL_OF_16];
    int16_t soft[16];
    uint8_t u[16], word[16];
    check_draw_soft(soft, n);
    for (size_t number = 0; number < (size_t)1 << n; number++) {
        bits_of(number, n, u);
        reference_transform(n, arikan, u, word);
        most[number] = paper_correlation(n, soft, word);
    }
    for (size_t len = n;; len--) {
        for (size_t number = 0; number < (size_t)1 << len; number++) {
            bits_of(number, len, u);
            check_need(paper_score(n, arikan, soft, u, len) == most[number], "a score", arikan, n, len);
            checked++;
        }
        if (len == 0)
            break;
        for (size_t number = 0; number < (size_t)1 << (len - 1); number++)
            most[number] = larger(most[2 * number], most[2 * number + 1]);
    }
}

/* Longer words, with so few bits free that all completions can be tried. */
static void check_few_free(size_t n, uint8_t arikan, size_t most_free)
{
    int16_t soft[MAX_N];
    uint8_t u[MAX_N];
    for (size_t free_bits = 0; free_bits <= most_free; free_bits++) {
        check_draw_soft(soft, n);
        check_draw_bits(u, n);
        size_t len = n - free_bits;
        int32_t score = paper_score(n, arikan, soft, u, len), right = enumerated_score(n, arikan, soft, u, len);
        check_need(score == right, "a score", arikan, n, len);
        checked++;
    }
}

/* A prefix scores the larger of what it scores with 0 and with 1. From whole words,
 * which are checked above, this leads to every length. */
static void check_next_bit(size_t n, uint8_t arikan)
{
    int16_t soft[MAX_N];
    uint8_t u[MAX_N];
    for (size_t len = 0; len < n; len++) {
        check_draw_soft(soft, n);
        check_draw_bits(u, len);
        int32_t score = paper_score(n, arikan, soft, u, len), with[2];
        for (uint8_t bit = 0; bit < 2; bit++) {
            u[len] = bit;
            with[bit] = paper_score(n, arikan, soft, u, len + 1);
        }
        check_need(score == larger(with[0], with[1]), "a score by the next bit", arikan, n, len);
        checked++;
    }
}

unsigned long check_paper_scores(uint8_t arikan)
{
    checked = 0;
    for (int round = 0; round < 200; round++) {
        check_all_prefixes(4, arikan);
        check_all_prefixes(8, arikan);
    }
    for (int round = 0; round < 8; round++)
        check_all_prefixes(16, arikan);
    for (size_t n = 32; n <= MAX_N; n *= 2) {
        check_few_free(n, arikan, n < 256 ? 12 : 8);
        check_next_bit(n, arikan);
    }
    return checked;
}
