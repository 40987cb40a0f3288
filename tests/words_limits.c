#define _DEFAULT_SOURCE /* mmap with MAP_ANONYMOUS */
#include "words_limits.h"

#include "codec_calls.h"
#include "decoder_memory.h"
#include "draw.h"
#include "words_calls.h"
#include "words_check.h"

#include <stdio.h>
#include <sys/mman.h>

enum { TIMES = 3 };

/* A call with one fault, for this refusal. */
static void check_fault(struct words_call *c, uint32_t refusal)
{
    c->faults = 1u << words_place(refusal);
    words_check_as(c, refusal);
}

static void try_numbers(uint32_t m, int arikan)
{
    struct words_call c;
    size_t n = (size_t)1 << m;
    for (size_t which = 0; which < CALL_BAD_MS; which++) {
        words_call_quick(&c, m, arikan);
        c.block.m = call_bad_m(m, which);
        check_fault(&c, 1);
    }
    for (size_t which = 0; n >= 32 && which < BAD_KS; which++) {
        words_call_quick(&c, m, arikan);
        size_t places = c.block.scores_len;
        words_call_code(&c, m, arikan, words_bad_k(n, which), (enum clear_kind)(which % CLEAR_KINDS),
                        pairs_any_kind());
        c.mark = which % 2 ? INT32_MAX : INT32_MIN;
        words_call_room(&c, places);
        check_fault(&c, 20);
    }
}

/* Every byte that can say which transform. */
static void try_flags(uint32_t m)
{
    struct words_call c;
    for (unsigned byte = 0; byte < 256; byte++) {
        words_call_quick(&c, m, 0);
        c.block.arikan = (uint8_t)byte;
        words_check_as(&c, 0);
    }
}

/* The map and the soft values one too long and one too short; what is lent one too short, empty,
 * right and one too long. */
static void try_lengths(uint32_t m, int arikan)
{
    static const uint32_t refusals[4] = {8, 9, 10, 10};
    struct words_call c;
    for (size_t less = 0; less <= 2; less += 2) {
        words_call_quick(&c, m, arikan);
        c.block.map_len = c.block.map_len + 1 - less;
        check_fault(&c, 2);
        words_call_quick(&c, m, arikan);
        c.block.soft_len = c.block.soft_len + 1 - less;
        check_fault(&c, 6);
    }
    for (size_t which = 0; which < 4; which++)
        for (size_t length = 0; length < 4; length++) {
            words_call_quick(&c, m, arikan);
            words_call_room(&c, c.block.scores_len);
            size_t *lens[4] = {&c.block.numbers_len, &c.block.bytes_len, &c.block.inputs_len, &c.block.words_len};
            const size_t all[4] = {*lens[which] - 1, 0, *lens[which], *lens[which] + 1};
            *lens[which] = all[length];
            if (length < 2)
                check_fault(&c, refusals[which]);
            else
                words_check_as(&c, 0);
        }
    words_call_quick(&c, m, arikan);
    words_call_room(&c, c.block.scores_len);
    c.block.inputs_len--;
    c.block.words_len--;
    check_fault(&c, 10);
}

/* A soft value out of range at every position, of long blocks at some; there the values on both
 * sides of the limits, and the ends of 16 bits. */
static void try_soft_values(uint32_t m)
{
    struct words_call c;
    size_t n = (size_t)1 << m;
    for (size_t i = 0; i < n; i++) {
        if (n > 32 && i != 0 && i != n - 1 && draw_below(n) >= 32)
            continue;
        words_call_quick(&c, m, i % 2 != 0);
        c.block.soft[i] = decoder_bad_soft(i % BAD_SOFTS);
        check_fault(&c, 7);
        for (size_t which = 0; which < 7; which++) {
            static const int16_t values[7] = {-2048, -2047, 2047, -2049, 2048, -32768, 32767};
            words_call_quick(&c, m, which % 2 != 0);
            c.block.soft[i] = values[which];
            if (which < 3)
                words_check_as(&c, 0);
            else
                check_fault(&c, 7);
        }
    }
}

static void try_maps_of_4(int arikan)
{
    for (unsigned bits = 0; bits < 256; bits++) {
        struct words_call c;
        words_call_code(&c, 2, arikan, 0, CLEAR_ANY, PAIRS_NONE);
        c.block.map[0] = (uint8_t)(bits % 16);
        decoder_call_pair(&c.block, pairs_any_kind(), SOFT_SMALL);
        c.block.map[0] = (uint8_t)bits;
        words_call_room(&c, 16);
        if (bits < 16)
            words_check_as(&c, 0);
        else
            check_fault(&c, 3);
    }
}

/* Every kind of pairs, and each way to break them. */
static void try_pairs(uint32_t m, int arikan)
{
    struct words_call c;
    for (int kind = 0; kind < TIMES * PAIR_KINDS; kind++) {
        size_t k = 1 + draw_below(4);
        words_call_code(&c, m, arikan, k, (enum clear_kind)draw_below(CLEAR_KINDS), (enum pair_kind)(kind / TIMES));
        words_call_soft(&c, (enum soft_kind)draw_below(SOFT_KINDS));
        words_call_room(&c, (size_t)1 << k);
        words_check_as(&c, 0);
    }
    for (int fault = 0; fault < PAIR_FAULTS; fault++) {
        do {
            words_call_quick(&c, m, arikan);
            decoder_call_pair(&c.block, draw_below(2) ? PAIRS_FULL : PAIRS_FEW, SOFT_SMALL);
        } while (!words_call_break(&c, (enum pair_fault)fault));
        words_check(&c);
    }
}

/* Each fault and any two of them, and of all sets one in so many. */
static void try_faults(uint32_t m, int arikan, unsigned one_in)
{
    struct words_call c;
    for (unsigned first = 0; first < TIMES * WORDS_REFUSALS; first++)
        for (unsigned second = first % WORDS_REFUSALS; second < WORDS_REFUSALS; second++) {
            words_call_faulty(&c, m, arikan, 1u << first % WORDS_REFUSALS | 1u << second);
            words_check(&c);
        }
    for (unsigned faults = m % one_in; faults < WORDS_FAULT_SETS; faults += one_in) {
        words_call_faulty(&c, m, arikan, faults);
        words_check(&c);
    }
}

void words_limits(uint32_t m, unsigned one_in)
{
    try_flags(m);
    try_soft_values(m);
    for (int arikan = 0; arikan < 2; arikan++) {
        if (m == 2)
            try_maps_of_4(arikan);
        try_numbers(m, arikan);
        for (int time = 0; time < TIMES; time++)
            try_lengths(m, arikan);
        try_pairs(m, arikan);
        try_faults(m, arikan, one_in);
    }
}

/* ---- lengths above 32 bits */

/* A call of n = 4 with room for four words, one of its slices being this long. */
static void refuse_far(uint8_t *memory, size_t slice, size_t length, uint32_t refusal)
{
    struct words_call c;
    words_call_code(&c, 2, 0, 4, CLEAR_ANY, PAIRS_NONE);
    words_call_room(&c, 4);
    size_t *lens[SLICES] = {&c.block.map_len,   &c.block.pairs.len,  &c.block.soft_len,  &c.block.numbers_len,
                            &c.block.bytes_len, &c.block.inputs_len, &c.block.words_len, &c.block.scores_len};
    *lens[slice] = length;
    if (slice == NUMBERS)
        c.block.bytes_len--;
    if (slice == BYTES)
        c.block.inputs_len--;
    c.block.refusal = refusal;
    words_check_far(&c, slice, memory);
}

/* Tables that only look short to 32 bits stand with a fault behind theirs, so that the call is
 * refused. 2^30 scores need 2^32 bytes of rows. Of the memory the machine has no more than a page. */
void words_above_32_bits(void)
{
    const size_t far = (size_t)UINT32_MAX + 1, room = 4 * far + 4096;
    uint8_t *memory = far == 0 ? MAP_FAILED
                               : mmap(NULL, room, PROT_READ, MAP_PRIVATE | MAP_ANONYMOUS | MAP_NORESERVE, -1, 0);
    if (memory == MAP_FAILED) {
        printf("lengths above 32 bits: left out, there is no room for them\n");
        return;
    }
    refuse_far(memory, MAP, far + 1, 2);
    refuse_far(memory, PAIRS, far, 15);
    refuse_far(memory, SOFT, far + 4, 6);
    refuse_far(memory, NUMBERS, far, 9);
    refuse_far(memory, NUMBERS, far + 127, 9);
    refuse_far(memory, BYTES, far + 271, 10);
    refuse_far(memory, SCORES, far / 4, 10);
    refuse_far(memory, SCORES, far / 4 + 4, 10);
    munmap(memory, room);
}
