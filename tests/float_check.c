#define _POSIX_C_SOURCE 200809L /* isatty */
#include "float_check.h"

#include "draw.h"
#include "float_modes.h"
#include "reference_quantise.h"

#include <pthread.h>
#include <stdio.h>
#include <stdlib.h>
#include <string.h>
#include <unistd.h>

enum { M = 10, ROOM = 8192 };
_Static_assert(BLOCK == 1 << M, "a block has as many patterns as a call has positions");

/* Every byte of the output before a call. As a soft value it would be 21845. */
enum { DIRT = 0x55 };

/* ---- memory */

void float_memory_open(struct float_memory *f)
{
    lent_open(&f->samples, "samples", ROOM);
    lent_open(&f->soft, "soft", ROOM);
}

void float_memory_place(struct float_memory *f)
{
    size_t values = BLOCK + draw_below(MOST_BEHIND + 1);
    lent_place(&f->samples, NULL, sizeof f->bytes);
    lent_place_aligned(&f->soft, NULL, values * sizeof(int16_t), sizeof(int16_t));
}

static const int16_t *soft_of(const struct float_memory *f)
{
    return (const int16_t *)(const void *)f->soft.at;
}

/* ---- a call */

static void set_samples(struct float_memory *f, const uint32_t *patterns, const int16_t *right, size_t from)
{
    for (size_t i = 0; i < BLOCK; i++) {
        size_t position = (from + i) % BLOCK;
        for (size_t j = 0; j < 4; j++)
            f->bytes[4 * position + j] = (uint8_t)(patterns[i] >> (8 * j));
        f->want[position] = right[i];
    }
    memcpy(f->samples.at, f->bytes, sizeof f->bytes);
    memset(f->soft.at, DIRT, f->soft.len);
}

/* The first position that differs. */
static void print_difference(const struct float_memory *f)
{
    size_t i = 0;
    while (soft_of(f)[i] == f->want[i])
        i++;
    const uint8_t *at = f->bytes + 4 * i;
    printf("  bits 0x%02x%02x%02x%02x as %s part, at position %zu, give %d and must give %d\n", at[3], at[2], at[1],
           at[0], i % 2 ? "an imaginary" : "a real", i, soft_of(f)[i], f->want[i]);
}

/* Only the first thread that finds a fault tells it. */
static void judge(const struct float_memory *f, size_t mode, uint32_t answer)
{
    static pthread_mutex_t telling = PTHREAD_MUTEX_INITIALIZER;
    int same = memcmp(f->soft.at, f->want, BLOCK * sizeof f->want[0]) == 0;
    if (answer == 0 && same && lent_holds(&f->samples, f->bytes) && lent_holds(&f->soft, (const uint8_t *)f->want))
        return;
    pthread_mutex_lock(&telling);
    if (isatty(STDERR_FILENO))
        fputs("\n", stderr);
    if (answer != 0)
        printf("  a call was refused with %lu\n", (unsigned long)answer);
    else if (!same)
        print_difference(f);
    else
        printf("  the samples, what is behind the soft values, or a guard was written\n");
    printf("compare_floats: FAILED, float mode: %s\n", float_mode_name(mode));
    exit(1);
}

/* By the memory that the library was given and has written. */
static void count(struct float_memory *f, size_t counted, size_t from)
{
    for (size_t i = 0; i < counted; i++) {
        size_t position = (from + i) % BLOCK;
        const uint8_t *at = f->samples.at + 4 * position;
        uint32_t bits = at[0] | (uint32_t)at[1] << 8 | (uint32_t)at[2] << 16 | (uint32_t)at[3] << 24;
        struct float_seen *seen = &f->seen[position % 2];
        sums_add(&seen->sums, bits);
        seen->not_zero += soft_of(f)[position] != 0;
        seen->gaps += (bits & 0x7fffffff) > 0x7f800000;
    }
}

void float_check(struct float_memory *f, size_t mode, const uint32_t patterns[BLOCK], size_t counted, size_t from)
{
    int16_t right[BLOCK];
    for (size_t i = 0; i < BLOCK; i++)
        right[i] = reference_soft_value(patterns[i]);
    for (size_t further = 0; further < 2; further++) {
        set_samples(f, patterns, right, from + further);
        uint32_t answer = quantise_in_mode(mode, M, f->samples.at, f->samples.len, (int16_t *)(void *)f->soft.at,
                                           f->soft.len / sizeof(int16_t));
        judge(f, mode, answer);
        count(f, counted, from + further);
    }
}
