/*
 * Compares the encoder and the extractor of the library with the reference ones,
 * at every m and by both transforms.
 *
 *   compare_codec [seed [rounds]]
 *
 * A run with the same seed and rounds makes the same calls.
 */
#include "codec_calls.h"
#include "codec_check.h"
#include "codec_pairs.h"
#include "draw.h"
#include "reference_codec.h"

#include <stdio.h>
#include <stdlib.h>
#include <string.h>

/* ---- the examples of the rules, whose outputs are written here */

static const struct example {
    enum call_kind kind;
    uint32_t m;
    const char *map;
    size_t map_len;
    const char *in, *out; /* a digit for each byte */
    size_t out_len;
    uint32_t answer;
    const char *pairs; /* four digits a pair */
} examples[] = {
    {ENCODE, 2, "\x00", 1, "1000", "1000", 4, 0, ""},
    {ENCODE, 2, "\x00", 1, "0100", "1100", 4, 0, ""},
    {ENCODE, 2, "\x00", 1, "0010", "0110", 4, 0, ""},
    {ENCODE, 2, "\x00", 1, "0001", "1111", 4, 0, ""},
    {ENCODE, 3, "\x00", 1, "00000010", "10010110", 8, 0, ""},
    {ENCODE, 3, "\x00", 1, "00000001", "11111111", 8, 0, ""},
    {ENCODE, 2, "\x03", 1, "11", "1001", 4, 0, ""},
    {EXTRACT, 2, "\x03", 1, "1001", "11", 2, 0, ""},
    {ENCODE, 2, "\x03", 1, "11", "10010000", 8, 0, ""},
    {EXTRACT, 2, "\x03", 1, "1001", "110000", 6, 0, ""},
    {ENCODE, 4, "\xff\xff", 2, "", "0000000000000000", 16, 0, ""},
    {EXTRACT, 4, "\xff\xff", 2, "0000000000000000", "", 0, 0, ""},
    {ENCODE, 1, "\x00", 1, "00", "", 4, 1, ""},
    {ENCODE, 11, "", 0, "", "", 0, 1, ""},
    {ENCODE, 4, "\xff", 1, "", "", 16, 2, ""},
    {ENCODE, 2, "\x10", 1, "0000", "", 4, 3, ""},
    {ENCODE, 2, "\x03", 1, "000", "", 4, 6, ""},
    {ENCODE, 2, "\x03", 1, "00", "", 3, 10, ""},
    {ENCODE, 2, "\x03", 1, "20", "", 4, 11, ""},
    {EXTRACT, 2, "\x03", 1, "1000", "", 2, 12, ""},
    /* Frozen 0, 2 and 3. The bit at 2 is that at 1, the bit at 3 the sum of both. */
    {ENCODE, 2, "\x0d", 1, "0", "0000", 4, 0, "201030103020"},
    {ENCODE, 2, "\x0d", 1, "1", "1010", 4, 0, "201030103020"},
    {EXTRACT, 2, "\x0d", 1, "1010", "1", 1, 0, "201030103020"},
    {EXTRACT, 2, "\x0d", 1, "0000", "0", 1, 0, "201030103020"},
    {EXTRACT, 2, "\x0d", 1, "1000", "", 1, 12, "201030103020"},
    {EXTRACT, 2, "\x0d", 1, "1100", "", 1, 12, "201030103020"},
    {ENCODE, 2, "\x0d", 1, "1", "0011", 4, 0, "3010"},
    {ENCODE, 2, "\x0d", 1, "1", "1100", 4, 0, "3020"},
    {ENCODE, 2, "\x0d", 1, "1", "", 4, 15, "1000"},
    {ENCODE, 2, "\x0d", 1, "1", "", 4, 15, "4000"},
    {ENCODE, 2, "\x0d", 1, "1", "", 4, 15, "2020"},
    {ENCODE, 2, "\x0d", 1, "1", "", 4, 15, "20102010"},
    {ENCODE, 2, "\x0d", 1, "1", "", 4, 15, "30002010"},
    {ENCODE, 2, "\x0d", 1, "1", "", 4, 15, "201"},
    {ENCODE, 2, "\x1d", 1, "", "", 4, 3, "2"},
    {ENCODE, 2, "\x0d", 1, "", "", 4, 15, "2"},
};

/* By Arikan's transform, for which any byte but 0 asks. */
static const struct arikan_example {
    uint8_t arikan;
    struct example call;
} arikan_examples[] = {
    {1, {ENCODE, 2, "\x00", 1, "1000", "1000", 4, 0, ""}},
    {1, {ENCODE, 2, "\x00", 1, "0100", "1100", 4, 0, ""}},
    {1, {ENCODE, 2, "\x00", 1, "0010", "1010", 4, 0, ""}},
    {1, {ENCODE, 2, "\x00", 1, "0001", "1111", 4, 0, ""}},
    {2, {ENCODE, 2, "\x00", 1, "0010", "1010", 4, 0, ""}},
    {255, {ENCODE, 2, "\x00", 1, "0010", "1010", 4, 0, ""}},
    {1, {EXTRACT, 2, "\x00", 1, "1010", "0010", 4, 0, ""}},
    {128, {EXTRACT, 2, "\x00", 1, "1010", "0010", 4, 0, ""}},
    {1, {ENCODE, 3, "\x00", 1, "00001000", "10001000", 8, 0, ""}},
    {1, {ENCODE, 3, "\x00", 1, "00000100", "11001100", 8, 0, ""}},
    {1, {ENCODE, 3, "\x00", 1, "00000010", "10101010", 8, 0, ""}},
    {1, {EXTRACT, 3, "\x00", 1, "11001100", "00000100", 8, 0, ""}},
    {1, {ENCODE, 2, "\x03", 1, "11", "0101", 4, 0, ""}},
    {1, {EXTRACT, 2, "\x03", 1, "0101", "11", 2, 0, ""}},
    {1, {EXTRACT, 2, "\x03", 1, "1001", "", 2, 12, ""}},
    {0, {EXTRACT, 2, "\x03", 1, "0101", "", 2, 12, ""}},
    {1, {ENCODE, 2, "\x0d", 1, "1", "0110", 4, 0, "201030103020"}},
    {1, {EXTRACT, 2, "\x0d", 1, "0110", "1", 1, 0, "201030103020"}},
    {1, {EXTRACT, 2, "\x0d", 1, "1010", "", 1, 12, "201030103020"}},
};

static void run_example(const struct example *e, uint8_t arikan)
{
    struct call c = {.kind = e->kind, .m = e->m, .arikan = arikan, .map_len = e->map_len, .in_len = strlen(e->in),
                     .out_len = e->out_len, .answer = e->answer, .pairs.len = strlen(e->pairs)};
    memcpy(c.map, e->map, e->map_len);
    for (size_t j = 0; j < c.pairs.len; j++)
        c.pairs.bytes[j] = (uint8_t)(e->pairs[j] - '0');
    for (size_t j = 0; j < c.in_len; j++)
        c.in[j] = (uint8_t)(e->in[j] - '0');
    check_call(&c, e->m < MIN_M ? MIN_M : e->m > MAX_M ? MAX_M : e->m);
    for (size_t j = 0; e->out[j] != 0; j++)
        if (check_output()[j] != e->out[j] - '0')
            check_fail(&c, "an example of the rules differs");
}

static void run_examples(void)
{
    for (size_t i = 0; i < sizeof examples / sizeof examples[0]; i++)
        run_example(&examples[i], 0);
    for (size_t i = 0; i < sizeof arikan_examples / sizeof arikan_examples[0]; i++)
        run_example(&arikan_examples[i].call, arikan_examples[i].arikan);
}

/* ---- both sides of every limit */

static void try_lengths(enum call_kind kind, uint32_t m)
{
    struct call c;
    for (size_t less = 0; less <= 2; less++) { /* one more, right, one less */
        call_good(&c, kind, m, FROZEN_SOME);
        c.map_len = c.map_len + 1 - less;
        check_as(&c, m, less == 1 ? 0 : 2);
        call_good(&c, kind, m, FROZEN_SOME);
        c.in_len = c.in_len + 1 - less;
        check_as(&c, m, less == 1 ? 0 : 6);
        call_good(&c, kind, m, FROZEN_SOME);
        c.out_len = call_need(&c) + 1 - less;
        check_as(&c, m, less == 2 ? 10 : 0);
    }
}

/* With nothing frozen every word is a code word. */
static void try_bytes(enum call_kind kind, uint32_t m)
{
    struct call c;
    for (size_t i = 0; i < (size_t)1 << m; i++) {
        for (unsigned value = 0; value <= 3; value++) {
            call_good(&c, kind, m, FROZEN_NONE);
            c.in[i] = (uint8_t)(value < 3 ? value : 3 + draw_below(253));
            check_as(&c, m, value < 2 ? 0 : 11);
        }
    }
}

/* Every byte that can say which transform. */
static void try_flags(enum call_kind kind, uint32_t m)
{
    for (unsigned byte = 0; byte < 256; byte++) {
        struct call c;
        call_freeze(&c, m, FROZEN_SOME);
        c.arikan = (uint8_t)byte;
        call_fill(&c, kind);
        check_as(&c, m, 0);
    }
}

static void try_maps_of_4(enum call_kind kind, int arikan)
{
    for (unsigned bits = 0; bits < 256; bits++) {
        struct call c;
        call_freeze(&c, 2, FROZEN_NONE);
        c.arikan = draw_flag(arikan);
        c.map[0] = bits % 16;
        call_pair(&c, pairs_any_kind());
        call_fill(&c, kind);
        c.map[0] = (uint8_t)bits;
        check_as(&c, 2, bits < 16 ? 0 : 3);
    }
}

/* Every word of four or of eight bits, nothing frozen, so that either transform has it:
 * each entry of the table that the library works with, and every two of them as the halves
 * of a word. */
static void try_all_words(enum call_kind kind, uint32_t m, int arikan)
{
    size_t n = (size_t)1 << m;
    for (unsigned bits = 0; bits < 1u << n; bits++) {
        struct call c;
        call_good(&c, kind, m, FROZEN_NONE);
        c.arikan = draw_flag(arikan);
        for (size_t i = 0; i < n; i++)
            c.in[i] = (uint8_t)(bits >> i & 1);
        check_as(&c, m, 0);
    }
}

/* Words of a code without and of one with pairs, each input bit changed in turn. */
static void try_words(uint32_t m, int arikan)
{
    struct call good, c;
    for (int with = 0; with < 2; with++) {
        call_freeze(&good, m, FROZEN_SOME);
        good.arikan = draw_flag(arikan);
        call_pair(&good, with ? PAIRS_MANY : PAIRS_NONE);
        call_fill(&good, EXTRACT);
        for (size_t i = 0; i < (size_t)1 << m; i++) {
            c = good;
            call_flip_input(&c, i);
            check_as(&c, m, call_is_bound(&c, i) ? 12 : 0);
        }
    }
}

static void try_limits(enum call_kind kind, uint32_t m)
{
    for (size_t which = 0; which < CALL_BAD_MS; which++) {
        struct call c;
        call_good(&c, kind, m, FROZEN_SOME);
        c.m = call_bad_m(m, which);
        check_as(&c, m, 1);
    }
    try_lengths(kind, m);
    try_bytes(kind, m);
    try_flags(kind, m);
    for (int arikan = 0; arikan < 2; arikan++) {
        if (m == 2)
            try_maps_of_4(kind, arikan);
        if (m <= 3)
            try_all_words(kind, m, arikan);
        if (kind == EXTRACT)
            try_words(m, arikan);
    }
}

/* ---- random calls */

/* Every set of faults, the empty one too. */
static void try_faults(enum call_kind kind, uint32_t m, unsigned long rounds)
{
    unsigned sets = kind == ENCODE ? 1u << 7 : 1u << 8;
    for (unsigned long round = 0; round < rounds; round++) {
        for (unsigned faults = 0; faults < sets; faults++) {
            struct call c;
            call_good(&c, kind, m, round % 4 == 0 ? (enum frozen)draw_below(FROZEN_KINDS) : FROZEN_SOME);
            call_spoil(&c, faults);
            check_call(&c, m);
        }
    }
}

/* A call that is served, and then the other call on what it gave. */
static void try_round_trips(enum call_kind kind, uint32_t m, unsigned long rounds)
{
    for (unsigned long round = 0; round < rounds; round++) {
        struct call there, back;
        call_good(&there, kind, m, (enum frozen)(round % FROZEN_KINDS));
        check_call(&there, m);
        back = there;
        call_fill(&back, kind == ENCODE ? EXTRACT : ENCODE);
        memcpy(back.in, check_output(), back.in_len);
        check_call(&back, m);
        if (memcmp(check_output(), there.in, there.in_len) != 0)
            check_fail(&back, "a round trip does not give back what went in");
    }
}

int main(int argc, char **argv)
{
    unsigned long seed = 1, rounds = 40;
    if (argc > 1)
        seed = strtoul(argv[1], NULL, 10);
    if (argc > 2)
        rounds = strtoul(argv[2], NULL, 10);
    printf("compare_codec: seed %lu, rounds %lu\n", seed, rounds);
    draw_seed(seed);
    check_open(seed);
    run_examples();
    for (uint32_t m = MIN_M; m <= MAX_M; m++) {
        for (int kind = 0; kind < CALL_KINDS; kind++) {
            try_limits((enum call_kind)kind, m);
            try_pairs((enum call_kind)kind, m, rounds / 5);
            try_faults((enum call_kind)kind, m, rounds / 2);
            try_round_trips((enum call_kind)kind, m, 25 * rounds);
        }
    }
    if (!check_report()) {
        printf("compare_codec: FAILED: some refusal, accepted call, transform or kind of pairs never came (seed %lu)\n",
               seed);
        return 1;
    }
    printf("compare_codec: %lu calls agree, %lu of them by Arikan's transform (seed %lu)\n", check_count(),
           check_arikan_count(), seed);
    return 0;
}
