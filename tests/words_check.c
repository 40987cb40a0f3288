#include "words_check.h"

#include "caldurrex.h"
#include "decoder_memory.h"
#include "paper_score.h"
#include "print_code.h"
#include "reference_codec.h"
#include "reference_words.h"
#include "words_tally.h"

#include <signal.h>
#include <stdio.h>
#include <stdlib.h>
#include <string.h>

_Static_assert(CALDURREX_BAD_M == 1 && CALDURREX_BAD_MAP_LENGTH == 2 && CALDURREX_BAD_MAP_BIT == 3 &&
                   CALDURREX_BAD_PAIRS == 15 && CALDURREX_LARGE_CODE == 20 && CALDURREX_BAD_INPUT_LENGTH == 6 &&
                   CALDURREX_BAD_SOFT_VALUE == 7 && CALDURREX_SHORT_NUMBERS == 8 && CALDURREX_SHORT_BYTES == 9 &&
                   CALDURREX_SHORT_OUTPUT == 10 && CALDURREX_TOO_MANY_WORDS == 19,
               "the header names the refusals by the numbers of the rules");
_Static_assert(CALDURREX_NUMBERS(4, 1) == 128 && CALDURREX_BYTES(4, 1) == 272 && CALDURREX_ROWS(4, 5) == 20,
               "the header's sizes are those of the rules");
_Static_assert(offsetof(struct caldurrex_counted, refusal) == 0 && offsetof(struct caldurrex_counted, count) == 4 &&
                   sizeof(struct caldurrex_counted) == 8,
               "the answer is two numbers of 32 bits in this order");

static struct lent *lent[SLICES]; /* the rooms of the call under way */
static uint8_t *want[SLICES];     /* what it must leave there, if it is served */
static struct caldurrex_counted last_answer;

static const struct words_call *under_way;
static unsigned long seed;

/* ---- messages */

void words_check_fail(const struct words_call *c, const char *what)
{
    const struct decoder_call *block = &c->block;
    printf("compare_words: %s\n", what);
    printf("  m %lu, arikan %u, mark %ld, map of %zu, pairs of %zu, soft values %zu, numbers %zu, bytes %zu, "
           "inputs %zu, words %zu, scores %zu\n",
           (unsigned long)block->m, block->arikan, (long)c->mark, block->map_len, block->pairs.len, block->soft_len,
           block->numbers_len, block->bytes_len, block->inputs_len, block->words_len, block->scores_len);
    print_code(block->map, block->map_len, &block->pairs);
    printf("  soft");
    for (size_t i = 0; i < block->soft_len && i < 1024; i++)
        printf(" %d", block->soft[i]);
    printf("\ncompare_words: FAILED at call %lu (seed %lu)\n", words_tally_calls() + 1, seed);
    exit(1);
}

static void print_row(const char *whose, size_t n, const uint8_t *input, const uint8_t *word, int32_t score)
{
    printf("  %s %ld ", whose, (long)score);
    for (size_t i = 0; i < n; i++)
        printf("%u", input[i]);
    printf(" ");
    for (size_t i = 0; i < n; i++)
        printf("%u", word[i]);
    printf("\n");
}

/* The first row that differs from the reference's. */
static void print_difference(const struct words_call *c)
{
    size_t n = (size_t)1 << c->sizes_of;
    struct words_outputs out = words_check_outputs();
    const int32_t *scores = (const int32_t *)(const void *)want[SCORES];
    for (size_t r = 0; r < out.count; r++) {
        const uint8_t *input = want[INPUTS] + r * n, *word = want[WORDS] + r * n;
        if (out.scores[r] != scores[r] || memcmp(out.inputs + r * n, input, n) != 0 ||
            memcmp(out.words + r * n, word, n) != 0) {
            printf("  row %zu of %lu: score, input, word\n", r, (unsigned long)out.count);
            print_row("is     ", n, out.inputs + r * n, out.words + r * n, out.scores[r]);
            print_row("must be", n, input, word, scores[r]);
            return;
        }
    }
}

/* An access outside a room. If the library made it, no output was under way that the
 * messages could disturb. */
static void on_fault(int number)
{
    if (under_way != NULL)
        words_check_fail(under_way, "memory outside the slices was touched");
    signal(number, SIG_DFL);
    raise(number);
}

void words_check_open(unsigned long seed_used)
{
    seed = seed_used;
    signal(SIGSEGV, on_fault);
    signal(SIGBUS, on_fault);
}

/* ---- the call */

/* The answer of the reference, its outputs in want. */
static struct reference_counted ask_reference(const struct words_call *c)
{
    const struct decoder_call *block = &c->block;
    decoder_memory_want(block, want);
    return reference_list_words(block->m, block->arikan, block->map, block->map_len, block->pairs.bytes,
                                block->pairs.len, c->mark, block->soft, block->soft_len,
                                (uint32_t *)(void *)want[NUMBERS], block->numbers_len, want[BYTES], block->bytes_len,
                                want[INPUTS], block->inputs_len, want[WORDS], block->words_len,
                                (int32_t *)(void *)want[SCORES], block->scores_len);
}

/* The call, with its slices at these places. */
static void ask_library(const struct words_call *c, uint8_t *const at[SLICES])
{
    const struct decoder_call *block = &c->block;
    under_way = c;
    last_answer = caldurrex_list_words(
        block->m, block->arikan, at[MAP], block->map_len, at[PAIRS], block->pairs.len, c->mark,
        (const int16_t *)(const void *)at[SOFT], block->soft_len, (uint32_t *)(void *)at[NUMBERS], block->numbers_len,
        at[BYTES], block->bytes_len, at[INPUTS], block->inputs_len, at[WORDS], block->words_len,
        (int32_t *)(void *)at[SCORES], block->scores_len);
    under_way = NULL;
}

static void ask_guarded(const struct words_call *c, const enum dirt dirt[SLICES])
{
    uint8_t *at[SLICES];
    decoder_memory_place(&c->block, dirt, lent);
    for (size_t slice = 0; slice < SLICES; slice++)
        at[slice] = lent[slice]->at;
    ask_library(c, at);
}

/* The refusal is known by construction too. */
static void judge_answer(const struct words_call *c, struct reference_counted right)
{
    struct caldurrex_counted is = last_answer;
    if (is.refusal != c->block.refusal || is.refusal != right.refusal || is.count != right.count) {
        printf("  by construction: refusal %lu\n", (unsigned long)c->block.refusal);
        printf("  by the reference: refusal %lu, count %lu\n", (unsigned long)right.refusal,
               (unsigned long)right.count);
        printf("  by the library: refusal %lu, count %lu\n", (unsigned long)is.refusal, (unsigned long)is.count);
        words_check_fail(c, "the answer differs");
    }
    const char *fault = is.refusal == 0 ? words_count_fault(c, is.count) : NULL;
    if (fault != NULL)
        words_check_fail(c, fault);
}

/* What a slice must hold is in want; 19 leaves tables of 0, and the outputs as they were. */
static void judge_memory(const struct words_call *c)
{
    uint32_t refusal = last_answer.refusal;
    for (size_t slice = 0; slice < SLICES; slice++) {
        int table = slice == NUMBERS || slice == BYTES;
        int written = slice >= FIRST_WRITTEN && (refusal == 0 || (refusal == 19 && table));
        if (lent_holds(lent[slice], written ? want[slice] : NULL))
            continue;
        if (slice < FIRST_WRITTEN)
            words_check_fail(c, "an input or its guard was written");
        if (!written)
            words_check_fail(c, "a refused call wrote");
        if (!table)
            print_difference(c);
        words_check_fail(c, table ? "a table is not all 0, or its guard was written"
                                  : "an output or its guard differs");
    }
}

/* Each input is above the one before it. */
static void judge_order(const struct words_call *c)
{
    struct words_outputs out = words_check_outputs();
    size_t n = (size_t)1 << c->sizes_of;
    for (size_t r = 1; r < out.count; r++)
        if (memcmp(out.inputs + (r - 1) * n, out.inputs + r * n, n) >= 0)
            words_check_fail(c, "the inputs do not rise");
}

void words_check(const struct words_call *c)
{
    enum dirt dirt[SLICES];
    struct reference_counted right = ask_reference(c);
    decoder_memory_draw(dirt);
    for (int time = 0; time < 2; time++) {
        ask_guarded(c, dirt);
        judge_answer(c, right);
        judge_memory(c);
        judge_order(c);
        decoder_memory_draw_other(dirt);
    }
    struct words_outputs out = words_check_outputs();
    words_tally(c, &out);
}

void words_check_as(struct words_call *c, uint32_t refusal)
{
    c->block.refusal = refusal;
    words_check(c);
}

/* ---- rows for themselves */

static void judge_row(const struct words_call *c, const uint8_t *input, const uint8_t *word, int32_t score)
{
    const struct decoder_call *block = &c->block;
    size_t n = (size_t)1 << c->sizes_of;
    int16_t taken[DECODER_MAX_N];
    uint8_t right[DECODER_MAX_N];
    for (size_t i = 0; i < n; i++) {
        taken[i] = paper_taken(block->soft[i]);
        if (input[i] > 1)
            words_check_fail(c, "an input has a byte above 1");
    }
    if (!decoder_follows(block, input))
        words_check_fail(c, "an input does not follow the pairs");
    reference_transform(n, block->arikan, input, right);
    if (memcmp(word, right, n) != 0)
        words_check_fail(c, "a word is not the transform of its input");
    if (score != paper_correlation(n, taken, word))
        words_check_fail(c, "a score is not the correlation of its word");
    if (score < c->mark)
        words_check_fail(c, "a word is below the mark");
}

/* The rows as they are, and 0 behind them. */
static void want_rows(const struct words_call *c, size_t count)
{
    decoder_memory_want(&c->block, want);
    for (size_t slice = FIRST_WRITTEN; slice < SLICES; slice++) {
        size_t n = (size_t)1 << c->sizes_of, rows = slice < INPUTS ? 0 : count * (slice == SCORES ? 4 : n);
        memcpy(want[slice], lent[slice]->at, rows);
        memset(want[slice] + rows, 0, lent[slice]->len - rows);
    }
}

void words_check_counted(struct words_call *c, size_t count)
{
    enum dirt dirt[SLICES];
    size_t n = (size_t)1 << c->sizes_of;
    int served = count <= c->block.scores_len;
    struct reference_counted right = {served ? 0 : 19, served ? (uint32_t)count : 0};
    c->block.refusal = right.refusal;
    decoder_memory_draw(dirt);
    ask_guarded(c, dirt);
    judge_answer(c, right);
    want_rows(c, right.count);
    judge_memory(c);
    judge_order(c);
    struct words_outputs out = words_check_outputs();
    for (size_t r = 0; r < out.count; r++)
        judge_row(c, out.inputs + r * n, out.words + r * n, out.scores[r]);
    words_tally_counted(c, &out);
}

/* ---- lengths that no room has */

void words_check_far(const struct words_call *c, size_t slice, uint8_t *memory)
{
    static uint8_t small[SLICES][512], before[SLICES][512];
    uint8_t *at[SLICES];
    memset(small[NUMBERS], 0x55, sizeof small - NUMBERS * sizeof small[0]);
    memcpy(before, small, sizeof small);
    for (size_t i = 0; i < SLICES; i++)
        at[i] = i == slice ? memory : small[i];
    ask_library(c, at);
    judge_answer(c, (struct reference_counted){c->block.refusal, 0});
    if (memcmp(before, small, sizeof small) != 0)
        words_check_fail(c, "a refused call wrote");
}

struct words_outputs words_check_outputs(void)
{
    return (struct words_outputs){last_answer.refusal, last_answer.count, lent[INPUTS]->at, lent[WORDS]->at,
                                  (const int32_t *)(const void *)lent[SCORES]->at};
}
