/*
 * A host that goes from the complex samples of a QPSK demodulator to rows: it makes soft
 * values of the samples, decodes them and takes the payload out of the first row.
 *
 * Build, from the repository's top, after `make target/staticlib/libcaldurrex.a`:
 *
 *   cc -std=c11 -Iinclude examples/decode_samples.c target/staticlib/libcaldurrex.a
 */
#include "caldurrex.h"

#include <math.h>
#include <stdio.h>
#include <string.h>

enum { M = 3, N = 1 << M, K = 4, LIST = 4 };

/* What a demodulator gives: the real part of sample j is for position 2j, the imaginary
 * part for position 2j + 1. */
struct sample {
    float re, im;
};

static const uint8_t map[1] = {0x17}; /* positions 0, 1, 2 and 4 are frozen */
static const uint8_t no_pairs[1];     /* an empty slice, too, has a pointer that is not null */
static const uint8_t arikan = 0;      /* the convolutional transform; any other byte asks for Arikan's */
static const uint8_t payload[K] = {1, 0, 1, 1};

/* What the channel adds. The fourth part comes far too strong, the fifth has faded, so that the
 * demodulator gives no reading, and the seventh gets the wrong sign. */
static const struct sample noise[N / 2] = {{0.20f, 0.35f}, {-0.15f, -39.0f}, {NAN, -0.30f}, {-1.25f, 0.10f}};

static int16_t soft[N];

/* Lent to the decoder. */
static uint32_t numbers[CALDURREX_NUMBERS(N, LIST)];
static uint8_t bytes[CALDURREX_BYTES(N, LIST)];
static uint8_t inputs[CALDURREX_ROWS(N, LIST)], words[CALDURREX_ROWS(N, LIST)];
static int32_t scores[LIST];

static void print_bits(const char *name, const uint8_t *bits, size_t len)
{
    printf("%s ", name);
    for (size_t i = 0; i < len; i++)
        printf("%u", bits[i]);
}

static void print_part(float x)
{
    if (isnan(x))
        printf("    gap");
    else
        printf(" %+6.2f", (double)x);
}

/* Bit 0 is sent as +1, bit 1 as -1: a positive reading favours bit 0, as soft values do. */
static float receive(uint8_t bit, float added)
{
    return (bit ? -1.0f : 1.0f) + added;
}

/* Four bytes, the low one first, whichever order the host keeps its numbers in. One that keeps
 * them so can pass its samples as they lie in memory, by (const uint8_t *)samples. */
static void put_float(uint8_t *to, float x)
{
    uint32_t bits;
    memcpy(&bits, &x, sizeof bits);
    for (int i = 0; i < 4; i++)
        to[i] = (uint8_t)(bits >> 8 * i);
}

/* Encodes the payload, and lays out as bytes what is received of its word; the refusal. */
static uint32_t transmit(struct sample *samples, uint8_t *block)
{
    uint8_t word[N];
    uint32_t refusal = caldurrex_encode(M, arikan, map, sizeof map, no_pairs, 0, payload, K, word, N);
    if (refusal != 0)
        return refusal;
    for (size_t j = 0; j < N / 2; j++) {
        samples[j].re = receive(word[2 * j], noise[j].re);
        samples[j].im = receive(word[2 * j + 1], noise[j].im);
        put_float(block + 8 * j, samples[j].re);
        put_float(block + 8 * j + 4, samples[j].im);
    }
    print_bits("payload", payload, K);
    print_bits(" is sent as word", word, N);
    printf("\n");
    return 0;
}

/* Makes the soft values of the block and prints them beside the samples; the refusal. A gap
 * becomes 0, which favours neither bit, and what is too strong is held within +-2047. */
static uint32_t quantise(const struct sample *samples, const uint8_t *block)
{
    uint32_t refusal = caldurrex_quantise(M, block, 4 * N, soft, N);
    if (refusal != 0)
        return refusal;
    for (size_t j = 0; j < N / 2; j++) {
        printf("sample %zu:", j);
        print_part(samples[j].re);
        print_part(samples[j].im);
        printf("  soft values %5d %5d\n", soft[2 * j], soft[2 * j + 1]);
    }
    return 0;
}

/* Decodes the soft values and prints the rows, best first; the refusal. */
static uint32_t decode(void)
{
    struct caldurrex_decoded answer =
        caldurrex_decode(M, arikan, map, sizeof map, no_pairs, 0, LIST, N, soft, N,
                         numbers, sizeof numbers / sizeof numbers[0], bytes, sizeof bytes,
                         inputs, sizeof inputs, words, sizeof words, scores, LIST);
    for (uint32_t r = 0; r < answer.rows; r++) {
        printf("  row %u score %d", (unsigned)r, (int)scores[r]);
        print_bits(" input", inputs + r * N, N);
        print_bits(" word", words + r * N, N);
        printf("\n");
    }
    return answer.refusal;
}

/* 1 if the word of the first row has the payload that was sent. */
static int got_back(void)
{
    uint8_t back[K];
    if (caldurrex_extract(M, arikan, map, sizeof map, no_pairs, 0, words, N, back, K) != 0)
        return 0;
    int same = memcmp(back, payload, K) == 0;
    print_bits("row 0 has payload", back, K);
    printf(", %s\n", same ? "the one that was sent" : "another than was sent");
    return same;
}

/* 1 if a block without its last byte is refused, and the soft values stay as they were. */
static int refuses_short(const uint8_t *block)
{
    int16_t before[N];
    memcpy(before, soft, sizeof soft);
    uint32_t refusal = caldurrex_quantise(M, block, 4 * N - 1, soft, N);
    int same = memcmp(before, soft, sizeof soft) == 0;
    printf("block of %d bytes is refused with %u, and the soft values are %s\n", 4 * N - 1, (unsigned)refusal,
           same ? "as they were" : "changed");
    return refusal == CALDURREX_BAD_INPUT_LENGTH && same;
}

int main(void)
{
    struct sample samples[N / 2];
    uint8_t block[4 * N]; /* four bytes for each position */
    printf("code: n = 8, frozen 0 1 2 4\n");
    if (transmit(samples, block) != 0 || quantise(samples, block) != 0 || decode() != 0)
        return 1;
    return got_back() && refuses_short(block) ? 0 : 1;
}
