#include "enumeration.h"

#include "reference_codec.h"

#include <stdlib.h>
#include <string.h>

int32_t larger(int32_t x, int32_t y)
{
    return x > y ? x : y;
}

void bits_of(size_t number, size_t len, uint8_t *bits)
{
    for (size_t i = 0; i < len; i++)
        bits[i] = (uint8_t)(number >> (len - 1 - i) & 1);
}

int32_t enumerated_score(size_t n, uint8_t arikan, const int16_t *soft, const uint8_t *prefix, size_t len)
{
    uint8_t u[REFERENCE_MAX_N], word[REFERENCE_MAX_N];
    int32_t most = INT32_MIN;
    if (len > 0)
        memcpy(u, prefix, len);
    for (size_t rest = 0; rest < (size_t)1 << (n - len); rest++) {
        bits_of(rest, n - len, u + len);
        reference_transform(n, arikan, u, word);
        most = larger(most, paper_correlation(n, soft, word));
    }
    return most;
}

static int compare_entries(const void *x, const void *y)
{
    const struct entry *a = x, *b = y;
    if (a->score != b->score)
        return a->score > b->score ? -1 : 1;
    return a->prefix < b->prefix ? -1 : a->prefix > b->prefix;
}

/* The bit that a frozen position has behind the bits of u. */
static size_t frozen_bit(const struct enumerated_code *code, size_t at, const uint8_t *u)
{
    size_t ones = 0;
    for (size_t i = 0; i < at; i++)
        ones += code->follows[at][i] && u[i];
    return ones % 2;
}

void enumerated_lists(const struct enumerated_code *code, size_t l, const int16_t *soft, struct step *steps)
{
    size_t n = code->n;
    steps[0] = (struct step){1, 1, {{0, enumerated_score(n, code->arikan, soft, NULL, 0)}}};
    for (size_t at = 0; at < n; at++) {
        const struct step *from = &steps[at];
        struct step *to = &steps[at + 1];
        to->count = 0;
        for (size_t r = 0; r < from->live; r++) {
            for (size_t bit = 0; bit < 2; bit++) {
                uint8_t u[ENUMERATED_MAX_N];
                size_t prefix = 2 * from->child[r].prefix + bit;
                bits_of(prefix, at + 1, u);
                if (code->frozen[at] && bit != frozen_bit(code, at, u))
                    continue;
                int32_t score = enumerated_score(n, code->arikan, soft, u, at + 1);
                to->child[to->count++] = (struct entry){prefix, score};
            }
        }
        qsort(to->child, to->count, sizeof to->child[0], compare_entries);
        to->live = to->count < l ? to->count : l;
    }
}

int enumerated_member(const struct enumerated_code *code, const uint8_t *u)
{
    int member = 1;
    for (size_t i = 0; i < code->n; i++)
        member &= !code->frozen[i] || u[i] == frozen_bit(code, i, u);
    return member;
}

int32_t enumerated_best(const struct enumerated_code *code, const int16_t *soft)
{
    int32_t most = INT32_MIN;
    for (size_t number = 0; number < (size_t)1 << code->n; number++) {
        uint8_t u[ENUMERATED_MAX_N], word[ENUMERATED_MAX_N];
        bits_of(number, code->n, u);
        if (!enumerated_member(code, u))
            continue;
        reference_transform(code->n, code->arikan, u, word);
        most = larger(most, paper_correlation(code->n, soft, word));
    }
    return most;
}
