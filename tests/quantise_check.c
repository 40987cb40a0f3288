#include "quantise_check.h"

#include "caldurrex.h"
#include "draw.h"
#include "lent.h"
#include "reference_quantise.h"

#include <signal.h>
#include <stdio.h>
#include <stdlib.h>
#include <string.h>

_Static_assert(CALDURREX_BAD_M == 1 && CALDURREX_BAD_INPUT_LENGTH == 6 && CALDURREX_SHORT_OUTPUT == 10,
               "the header names the refusals by the numbers of the rules");

/* Slices up to this many bytes lie in a room that is soon filled, longer ones in another. */
enum { SHORT_SLICE = 8192, SHORT_ROOM = SHORT_SLICE + 4096, LONG_ROOM = 2 * VALUES_ROOM };

/* A slice of the call under way, in the room that it uses. */
struct slice {
    struct lent short_room, long_room, *lent;
};

static struct slice samples, soft;
static int16_t want[VALUES_ROOM];
static const struct quantise_call *under_way;
static unsigned long seed, calls;

/* ---- messages */

void quantise_fail(const struct quantise_call *c, const char *what)
{
    printf("compare_quantise: %s\n", what);
    printf("  m %lu, samples of %zu bytes, room for %zu soft values; made for m %lu\n", (unsigned long)c->m,
           c->samples_len, c->soft_len, (unsigned long)c->sizes_of);
    printf("compare_quantise: FAILED at call %lu (seed %lu)\n", calls, seed);
    exit(1);
}

static void fail_at(const struct quantise_call *c, size_t position, int must)
{
    printf("  position %zu, %s part of sample %zu: bits 0x%08lx give %d and must give %d\n", position,
           position % 2 ? "imaginary" : "real", position / 2, (unsigned long)quantise_bits(c, position),
           quantise_soft()[position], must);
    quantise_fail(c, "a soft value differs");
}

/* An access outside a room. If the library made it, no output was under way that the
 * messages could disturb. */
static void on_fault(int number)
{
    if (under_way != NULL)
        quantise_fail(under_way, "memory outside the slices was touched");
    signal(number, SIG_DFL);
    raise(number);
}

/* ---- memory */

static void open_slice(struct slice *s, const char *name)
{
    lent_open(&s->short_room, name, SHORT_ROOM);
    lent_open(&s->long_room, name, LONG_ROOM);
    s->lent = &s->short_room;
}

static void place_slice(struct slice *s, const uint8_t *bytes, size_t len, size_t unit)
{
    s->lent = len <= SHORT_SLICE ? &s->short_room : &s->long_room;
    lent_place_aligned(s->lent, bytes, len, unit);
}

void quantise_check_open(unsigned long seed_used)
{
    seed = seed_used;
    open_slice(&samples, "samples");
    open_slice(&soft, "soft");
    signal(SIGSEGV, on_fault);
    signal(SIGBUS, on_fault);
}

const int16_t *quantise_soft(void)
{
    return (const int16_t *)(const void *)soft.lent->at;
}

size_t quantise_remainder(void)
{
    return (uintptr_t)samples.lent->at % 4;
}

/* ---- the call */

/* What the output must hold is what it holds, until the reference has written there. */
static uint32_t ask_library(const struct quantise_call *c)
{
    place_slice(&samples, c->samples, c->samples_len, 1);
    place_slice(&soft, NULL, c->soft_len * sizeof *want, sizeof *want);
    memcpy(want, soft.lent->at, soft.lent->len);
    calls++;
    under_way = c;
    uint32_t answer = caldurrex_quantise(c->m, samples.lent->at, c->samples_len, (int16_t *)(void *)soft.lent->at,
                                         c->soft_len);
    under_way = NULL;
    return answer;
}

static void judge_values(const struct quantise_call *c)
{
    const int16_t *is = quantise_soft();
    for (size_t i = 0; i < (size_t)1 << c->m; i++) {
        if (is[i] != want[i])
            fail_at(c, i, want[i]);
        if (is[i] > 2047 || is[i] < -2047)
            quantise_fail(c, "a soft value is not within 2047");
    }
}

void quantise_check(const struct quantise_call *c)
{
    uint32_t answer = ask_library(c);
    uint32_t right = reference_quantise(c->m, c->samples, c->samples_len, want, c->soft_len);
    if (answer != right || answer != c->refusal) {
        printf("  by construction %lu, by the library %lu, by the reference %lu\n", (unsigned long)c->refusal,
               (unsigned long)answer, (unsigned long)right);
        quantise_fail(c, "the answer differs");
    }
    if (!lent_holds(samples.lent, NULL))
        quantise_fail(c, "the samples or their guard were written");
    if (answer != 0 && !lent_holds(soft.lent, NULL))
        quantise_fail(c, "a refused call wrote");
    if (answer == 0)
        judge_values(c);
    if (!lent_holds(soft.lent, (const uint8_t *)want))
        quantise_fail(c, "what is behind the soft values, or their guard, differs");
}

/* ---- decoding */

enum { MOST_LIST = 4 };

/* What is lent to the decoder. */
static struct {
    uint32_t numbers[CALDURREX_NUMBERS(QUANTISE_MAX_N, MOST_LIST)];
    uint8_t bytes[CALDURREX_BYTES(QUANTISE_MAX_N, MOST_LIST)];
    uint8_t inputs[CALDURREX_ROWS(QUANTISE_MAX_N, MOST_LIST)];
    uint8_t words[CALDURREX_ROWS(QUANTISE_MAX_N, MOST_LIST)];
    int32_t scores[MOST_LIST];
} tables;

void quantise_decode(const struct quantise_call *c)
{
    size_t n = (size_t)1 << c->m, l = 1 + draw_below(MOST_LIST);
    const uint32_t stops[3] = {0, (uint32_t)n, (uint32_t)draw_below(n)};
    uint32_t stop = stops[draw_below(3)];
    uint8_t map[QUANTISE_MAX_N / 8], no_pairs[1] = {0};
    int32_t most = 0;
    for (size_t i = 0; i < n; i++)
        most += abs(quantise_soft()[i]);
    draw_bytes(map, sizeof map);
    if (n == 4)
        map[0] &= 15;
    draw_bytes((uint8_t *)tables.numbers, CALDURREX_NUMBERS(n, l) * sizeof tables.numbers[0]);
    draw_bytes(tables.bytes, CALDURREX_BYTES(n, l));
    struct caldurrex_decoded block =
        caldurrex_decode(c->m, draw_flag(draw_below(2) == 0), map, (n + 7) / 8, no_pairs, 0, (uint32_t)l, stop,
                         quantise_soft(), n, tables.numbers, CALDURREX_NUMBERS(n, l), tables.bytes,
                         CALDURREX_BYTES(n, l), tables.inputs, CALDURREX_ROWS(n, l), tables.words,
                         CALDURREX_ROWS(n, l), tables.scores, l);
    if (block.refusal != 0 || block.rows == 0) {
        printf("  the decoder answers refusal %lu\n", (unsigned long)block.refusal);
        quantise_fail(c, "the decoder refuses the soft values");
    }
    if (block.ceiling > most || (stop == 0 && block.ceiling != most) || tables.scores[0] > block.ceiling)
        quantise_fail(c, "the ceiling is not one of these soft values");
}
