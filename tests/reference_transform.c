#include "reference_transform.h"

#include <stdio.h>
#include <stdlib.h>
#include <string.h>

enum { MAX_N = REFERENCE_MAX_N, LIMBS = MAX_N / 64 };

/* ---- the convolutional transform, down to length 1 by the rule for even lengths */

static void convolutional_transform(size_t n, const uint8_t *u, uint8_t *c)
{
    if (n < 2) {
        c[0] = u[0];
        return;
    }
    uint8_t a[MAX_N / 2], b[MAX_N / 2], of_a[MAX_N / 2], of_b[MAX_N / 2];
    size_t half = n / 2;
    for (size_t i = 0; i < half; i++) {
        int next = 2 * i + 2 < n ? u[2 * i + 2] : 0;
        a[i] = (uint8_t)((u[2 * i] + u[2 * i + 1] + next) % 2);
        b[i] = (uint8_t)((u[2 * i + 1] + next) % 2);
    }
    convolutional_transform(half, a, of_a);
    convolutional_transform(half, b, of_b);
    for (size_t i = 0; i < half; i++) {
        c[2 * i] = of_a[i];
        c[2 * i + 1] = of_b[i];
    }
}

/*
 * ---- its inverse
 *
 * Row i of the generator matrix is the transform of the input whose only 1 is
 * at i, and a word is the sum of the rows where its input is 1. Elimination
 * turns the matrix into the identity; the same steps on an identity matrix give
 * its inverse, and the input of a word is the sum of the rows of the inverse
 * where the word is 1. So nothing here rests on a formula for the inverse of a
 * layer. The inverse is worked out once for each m.
 */

static uint64_t inverse[REFERENCE_MAX_M + 1][MAX_N][LIMBS];
static int have_inverse[REFERENCE_MAX_M + 1];

static int bit_of(const uint64_t *row, size_t i)
{
    return (int)(row[i / 64] >> (i % 64) & 1);
}

static void add_row(uint64_t *to, const uint64_t *row)
{
    for (size_t i = 0; i < LIMBS; i++)
        to[i] ^= row[i];
}

static void swap_rows(uint64_t *x, uint64_t *y)
{
    uint64_t kept[LIMBS];
    memcpy(kept, x, sizeof kept);
    memcpy(x, y, sizeof kept);
    memcpy(y, kept, sizeof kept);
}

/* The generator matrix in left, the identity in right. */
static void set_up(size_t n, uint64_t left[][LIMBS], uint64_t right[][LIMBS])
{
    memset(left, 0, n * sizeof left[0]);
    memset(right, 0, n * sizeof right[0]);
    for (size_t i = 0; i < n; i++) {
        uint8_t unit[MAX_N] = {0}, row[MAX_N];
        unit[i] = 1;
        convolutional_transform(n, unit, row);
        for (size_t j = 0; j < n; j++)
            left[i][j / 64] |= (uint64_t)row[j] << (j % 64);
        right[i][i / 64] |= (uint64_t)1 << (i % 64);
    }
}

static void work_out_inverse(uint32_t m)
{
    static uint64_t left[MAX_N][LIMBS];
    uint64_t (*right)[LIMBS] = inverse[m];
    size_t n = (size_t)1 << m;
    set_up(n, left, right);
    for (size_t j = 0; j < n; j++) {
        size_t pivot = j;
        while (pivot < n && !bit_of(left[pivot], j))
            pivot++;
        if (pivot == n) {
            fprintf(stderr, "the generator matrix for m = %u has no inverse\n", (unsigned)m);
            abort();
        }
        if (pivot != j) {
            swap_rows(left[j], left[pivot]);
            swap_rows(right[j], right[pivot]);
        }
        for (size_t i = 0; i < n; i++) {
            if (i != j && bit_of(left[i], j)) {
                add_row(left[i], left[j]);
                add_row(right[i], right[j]);
            }
        }
    }
    have_inverse[m] = 1;
}

static void convolutional_inverse(uint32_t m, const uint8_t *word, uint8_t *u)
{
    if (!have_inverse[m])
        work_out_inverse(m);
    uint64_t sum[LIMBS] = {0};
    for (size_t j = 0; j < (size_t)1 << m; j++)
        if (word[j])
            add_row(sum, inverse[m][j]);
    for (size_t i = 0; i < (size_t)1 << m; i++)
        u[i] = (uint8_t)bit_of(sum, i);
}

/* ---- Arikan's transform: the halves v and w of u give the transform of v + w, then that of w */

static void arikan_transform(size_t n, const uint8_t *u, uint8_t *c)
{
    if (n < 2) {
        c[0] = u[0];
        return;
    }
    size_t half = n / 2;
    const uint8_t *v = u, *w = u + half;
    uint8_t sum[MAX_N / 2];
    for (size_t i = 0; i < half; i++)
        sum[i] = (uint8_t)((v[i] + w[i]) % 2);
    arikan_transform(half, sum, c);
    arikan_transform(half, w, c + half);
}

/* The second half of the word is the transform of w, and the first that of v + w: with w
 * known, v is the input of the first half plus w. */
static void arikan_inverse(size_t n, const uint8_t *word, uint8_t *u)
{
    if (n < 2) {
        u[0] = word[0];
        return;
    }
    size_t half = n / 2;
    uint8_t sum[MAX_N / 2], *v = u, *w = u + half;
    arikan_inverse(half, word + half, w);
    arikan_inverse(half, word, sum);
    for (size_t i = 0; i < half; i++)
        v[i] = (uint8_t)((sum[i] + w[i]) % 2);
}

/* ---- the choice */

void reference_transform(size_t n, uint8_t arikan, const uint8_t *u, uint8_t *c)
{
    if (arikan)
        arikan_transform(n, u, c);
    else
        convolutional_transform(n, u, c);
}

void reference_inverse(uint32_t m, uint8_t arikan, const uint8_t *word, uint8_t *u)
{
    if (arikan)
        arikan_inverse((size_t)1 << m, word, u);
    else
        convolutional_inverse(m, word, u);
}
