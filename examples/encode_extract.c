/*
 * A host that encodes payloads and takes them back out of their code words.
 *
 * Build, from the repository's top, after `make target/staticlib/libcaldurrex.a`:
 *
 *   cc -std=c11 -Iinclude examples/encode_extract.c target/staticlib/libcaldurrex.a
 */
#include "caldurrex.h"

#include <stdio.h>

/* The transform of all codes: 0 is the convolutional one, any other byte asks for Arikan's. */
static const uint8_t arikan = 0;

/* A code: n = 2^m positions, the frozen ones among them, and the pairs. */
struct code {
    uint32_t m;
    size_t n, k, pairs_len;
    uint8_t map[128];    /* room for n = 1024 */
    uint8_t pairs[1024]; /* room for 256 pairs of four bytes */
};

/* The bit at the frozen position f is the sum of those at all e that stand with it. */
struct pair {
    uint16_t f, e;
};

/* Freezes the listed positions and counts the others. */
static struct code make_code(uint32_t m, const size_t *frozen, size_t frozen_len)
{
    struct code code = {.m = m, .n = (size_t)1 << m};
    code.k = code.n - frozen_len;
    printf("code: n = %zu, k = %zu, frozen", code.n, code.k);
    for (size_t i = 0; i < frozen_len; i++) {
        code.map[frozen[i] / 8] |= (uint8_t)(1u << (frozen[i] % 8));
        printf(" %zu", frozen[i]);
    }
    printf("\n");
    return code;
}

/* Adds a pair behind those that the code has: they must rise by f, then by e. */
static void add_pair(struct code *code, struct pair pair)
{
    const uint16_t numbers[2] = {pair.f, pair.e};
    for (int i = 0; i < 2; i++) { /* low byte first */
        code->pairs[code->pairs_len++] = (uint8_t)numbers[i];
        code->pairs[code->pairs_len++] = (uint8_t)(numbers[i] >> 8);
    }
    printf("  pair (%u, %u)\n", pair.f, pair.e);
}

/* The call wants exactly this many bytes of the map. */
static size_t map_len(const struct code *code)
{
    return (code->n + 7) / 8;
}

static void print_bits(const char *name, const uint8_t *bits, size_t len)
{
    printf("%s ", name);
    for (size_t i = 0; i < len; i++)
        printf("%u", bits[i]);
}

static const char *reason(uint32_t refusal)
{
    switch (refusal) {
    case CALDURREX_BAD_M: return "m is outside 2..10";
    case CALDURREX_BAD_MAP_LENGTH: return "the frozen map has a wrong length";
    case CALDURREX_BAD_MAP_BIT: return "the frozen map has a bit past n";
    case CALDURREX_BAD_INPUT_LENGTH: return "the payload or word has a wrong length";
    case CALDURREX_SHORT_OUTPUT: return "the output is too short";
    case CALDURREX_NOT_A_BIT: return "a payload or word byte is above 1";
    case CALDURREX_NOT_A_CODE_WORD: return "the word is not in the code";
    case CALDURREX_BAD_PAIRS: return "a pair breaks its rules";
    default: return "unknown";
    }
}

/* Encodes the payload into word, which has room for n bytes. */
static uint32_t encode(const struct code *code, const uint8_t *payload, uint8_t *word)
{
    uint32_t refusal = caldurrex_encode(code->m, arikan, code->map, map_len(code), code->pairs, code->pairs_len,
                                        payload, code->k, word, code->n);
    print_bits("  encode  payload", payload, code->k);
    if (refusal == 0)
        print_bits(" gives word", word, code->n);
    else
        printf(" is refused with %u: %s", (unsigned)refusal, reason(refusal));
    printf("\n");
    return refusal;
}

/* Extracts the word's payload, which has room for k bytes. */
static uint32_t extract(const struct code *code, const uint8_t *word, uint8_t *payload)
{
    uint32_t refusal = caldurrex_extract(code->m, arikan, code->map, map_len(code), code->pairs, code->pairs_len,
                                         word, code->n, payload, code->k);
    print_bits("  extract word", word, code->n);
    if (refusal == 0)
        print_bits(" gives payload", payload, code->k);
    else
        printf(" is refused with %u: %s", (unsigned)refusal, reason(refusal));
    printf("\n");
    return refusal;
}

/* Encodes a payload, extracts it again, and shows that a word outside the code is
 * refused. 1 if all went as it must. */
static int show(const struct code *code, const uint8_t *payload, const uint8_t *outside)
{
    uint8_t word[1024], back[1024];
    if (encode(code, payload, word) != 0 || extract(code, word, back) != 0)
        return 0;
    for (size_t i = 0; i < code->k; i++)
        if (back[i] != payload[i])
            return 0;
    return extract(code, outside, back) == CALDURREX_NOT_A_CODE_WORD;
}

int main(void)
{
    const size_t frozen_4[] = {0, 1};
    const uint8_t payload_2[] = {1, 1};
    const uint8_t outside_4[] = {1, 0, 0, 0};
    struct code small = make_code(2, frozen_4, 2);
    if (!show(&small, payload_2, outside_4))
        return 1;

    const size_t frozen_16[] = {0, 1, 2, 3, 4, 5, 6, 8};
    const uint8_t payload_8[] = {1, 0, 1, 1, 0, 0, 1, 0};
    const uint8_t outside_16[16] = {0, 0, 0, 0, 0, 1};
    struct code larger = make_code(4, frozen_16, 8);
    if (!show(&larger, payload_8, outside_16))
        return 1;

    /* The payload's bits are those at 3, 5 and 7; the bit at 4 follows that at 3, and the bit
     * at 6 the sum of those at 3 and 5. Outside is the word whose bits at 4 and 6 are 0. */
    const size_t frozen_8[] = {0, 1, 2, 4, 6};
    const struct pair pairs[] = {{4, 3}, {6, 3}, {6, 5}};
    const uint8_t payload_3[] = {1, 0, 1};
    const uint8_t outside_8[] = {0, 0, 0, 0, 1, 1, 1, 1};
    struct code subcode = make_code(3, frozen_8, 5);
    for (size_t i = 0; i < 3; i++)
        add_pair(&subcode, pairs[i]);
    return show(&subcode, payload_3, outside_8) ? 0 : 1;
}
