#include "decoder_check.h"

#include "caldurrex.h"
#include "decoder_memory.h"
#include "decoder_tally.h"
#include "paper_decoder.h"
#include "print_code.h"

#include <signal.h>
#include <stdio.h>
#include <stdlib.h>
#include <string.h>

_Static_assert(CALDURREX_BAD_M == 1 && CALDURREX_BAD_MAP_LENGTH == 2 && CALDURREX_BAD_MAP_BIT == 3 &&
                   CALDURREX_BAD_LIST_SIZE == 4 && CALDURREX_BAD_STOP == 5 && CALDURREX_BAD_INPUT_LENGTH == 6 &&
                   CALDURREX_BAD_SOFT_VALUE == 7 && CALDURREX_SHORT_NUMBERS == 8 && CALDURREX_SHORT_BYTES == 9 &&
                   CALDURREX_SHORT_OUTPUT == 10 && CALDURREX_BAD_PAIRS == 15,
               "the header names the refusals by the numbers of the rules");
_Static_assert(CALDURREX_NUMBERS(4, 1) == 128 && CALDURREX_NUMBERS(1024, 32) == 1048576 &&
                   CALDURREX_BYTES(4, 1) == 272 && CALDURREX_BYTES(1024, 32) == 139264 && CALDURREX_ROWS(8, 3) == 24,
               "the header's sizes are those of the rules");
_Static_assert(offsetof(struct caldurrex_decoded, refusal) == 0 && offsetof(struct caldurrex_decoded, rows) == 4 &&
                   offsetof(struct caldurrex_decoded, ceiling) == 8 && sizeof(struct caldurrex_decoded) == 12,
               "the answer is three numbers of 32 bits in this order");

static struct lent *lent[SLICES]; /* the rooms of the call under way */
static uint8_t *want[SLICES];     /* the paper decoder's outputs */
static struct caldurrex_decoded last_answer;

static const struct decoder_call *under_way;
static const char *program;
static unsigned long seed;

/* ---- messages */

static void print_row(const char *whose, size_t n, const uint8_t *input, const uint8_t *word, int32_t score)
{
    printf("  %s %ld ", whose, (long)score);
    for (size_t i = 0; i < n; i++)
        printf("%u", input[i]);
    printf(" ");
    for (size_t i = 0; i < n; i++)
        printf("%u", word[i]);
    printf("\n");
}

/* The first row that differs from the paper decoder's. */
static void print_difference(const struct decoder_call *c, uint32_t rows)
{
    size_t n = (size_t)1 << c->m;
    for (size_t r = 0; r < rows; r++) {
        const uint8_t *input = lent[INPUTS]->at + r * n, *word = lent[WORDS]->at + r * n;
        int32_t score, right;
        memcpy(&score, lent[SCORES]->at + 4 * r, 4);
        memcpy(&right, want[SCORES] + 4 * r, 4);
        const uint8_t *right_input = want[INPUTS] + r * n, *right_word = want[WORDS] + r * n;
        if (score != right || memcmp(input, right_input, n) != 0 || memcmp(word, right_word, n) != 0) {
            printf("  row %zu of %lu: score, input, word\n", r, (unsigned long)rows);
            print_row("is     ", n, input, word, score);
            print_row("must be", n, right_input, right_word, right);
            return;
        }
    }
}

void decoder_check_fail(const struct decoder_call *c, const char *what)
{
    printf("%s: %s\n", program, what);
    printf("  m %lu, arikan %u, list size %lu, stop %lu, map of %zu, pairs of %zu, soft values %zu, numbers %zu, "
           "bytes %zu, inputs %zu, words %zu, scores %zu\n",
           (unsigned long)c->m, c->arikan, (unsigned long)c->list_size, (unsigned long)c->stop, c->map_len,
           c->pairs.len, c->soft_len, c->numbers_len, c->bytes_len, c->inputs_len, c->words_len, c->scores_len);
    print_code(c->map, c->map_len, &c->pairs);
    printf("  soft");
    for (size_t i = 0; i < c->soft_len && i < 1024; i++)
        printf(" %d", c->soft[i]);
    printf("\n%s: FAILED at call %lu (seed %lu)\n", program, decoder_tally_calls() + 1, seed);
    exit(1);
}

/* An access outside a room. If the library made it, no output was under way that the
 * messages could disturb. */
static void on_fault(int number)
{
    if (under_way != NULL)
        decoder_check_fail(under_way, "memory outside the slices was touched");
    signal(number, SIG_DFL);
    raise(number);
}

void decoder_check_open(const char *program_used, unsigned long seed_used)
{
    program = program_used;
    seed = seed_used;
    signal(SIGSEGV, on_fault);
    signal(SIGBUS, on_fault);
}

/* ---- the call */

/* The answer of the paper decoder, its outputs in want. */
static struct paper_decoded ask_paper(const struct decoder_call *c)
{
    decoder_memory_want(c, want);
    return paper_decode(c->m, c->arikan, c->map, c->map_len, c->pairs.bytes, c->pairs.len, c->list_size, c->stop,
                        c->soft, c->soft_len, (uint32_t *)(void *)want[NUMBERS], c->numbers_len, want[BYTES],
                        c->bytes_len, want[INPUTS], c->inputs_len, want[WORDS], c->words_len,
                        (int32_t *)(void *)want[SCORES], c->scores_len);
}

static struct caldurrex_decoded ask_library(const struct decoder_call *c, const enum dirt dirt[SLICES])
{
    decoder_memory_place(c, dirt, lent);
    under_way = c;
    struct caldurrex_decoded answer = caldurrex_decode(
        c->m, c->arikan, lent[MAP]->at, c->map_len, lent[PAIRS]->at, c->pairs.len, c->list_size, c->stop,
        (const int16_t *)(const void *)lent[SOFT]->at, c->soft_len, (uint32_t *)(void *)lent[NUMBERS]->at,
        c->numbers_len, lent[BYTES]->at, c->bytes_len, lent[INPUTS]->at, c->inputs_len, lent[WORDS]->at, c->words_len,
        (int32_t *)(void *)lent[SCORES]->at, c->scores_len);
    under_way = NULL;
    return answer;
}

/* By construction the refusal, the row count and, where the call is refused, the ceiling
 * are known. right, if it is not null, is what the paper decoder answers. */
static void judge_answer(const struct decoder_call *c, const struct paper_decoded *right)
{
    const struct caldurrex_decoded *is = &last_answer;
    uint32_t rows = c->refusal != 0 ? 0 : decoder_rows(c);
    int made = is->refusal == c->refusal && is->rows == rows && (c->refusal == 0 || is->ceiling == 0);
    if (made && (right == NULL || (is->refusal == right->refusal && is->rows == right->rows &&
                                   is->ceiling == right->ceiling)))
        return;
    printf("  by construction: refusal %lu, rows %lu%s\n", (unsigned long)c->refusal, (unsigned long)rows,
           c->refusal != 0 ? ", ceiling 0" : "");
    if (right != NULL)
        printf("  by the paper decoder: refusal %lu, rows %lu, ceiling %ld\n", (unsigned long)right->refusal,
               (unsigned long)right->rows, (long)right->ceiling);
    printf("  by the library: refusal %lu, rows %lu, ceiling %ld\n", (unsigned long)is->refusal,
           (unsigned long)is->rows, (long)is->ceiling);
    decoder_check_fail(c, "the answer differs");
}

static void judge_memory(const struct decoder_call *c)
{
    for (size_t slice = 0; slice < SLICES; slice++) {
        if (slice < FIRST_WRITTEN && !lent_holds(lent[slice], NULL))
            decoder_check_fail(c, "an input or its guard was written");
        if (slice >= FIRST_WRITTEN && c->refusal != 0 && !lent_holds(lent[slice], NULL))
            decoder_check_fail(c, "a refused call wrote");
        if (slice >= FIRST_WRITTEN && c->refusal == 0 && !lent_holds(lent[slice], want[slice])) {
            print_difference(c, last_answer.rows);
            decoder_check_fail(c, slice < INPUTS ? "a table is not all 0, or its guard was written"
                                                 : "an output or its guard differs");
        }
    }
}

/* The ceiling comes last: it is judged by the first score. */
static void judge(const struct decoder_call *c, const struct paper_decoded *right)
{
    judge_answer(c, right);
    judge_memory(c);
    struct decoder_outputs out = decoder_check_outputs();
    const char *fault = c->refusal == 0 ? decoder_ceiling_fault(c, out.ceiling, out.scores[0]) : NULL;
    if (fault != NULL)
        decoder_check_fail(c, fault);
}

void decoder_check(const struct decoder_call *c, uint32_t sizes_of)
{
    enum dirt dirt[SLICES];
    struct paper_decoded right = ask_paper(c);
    decoder_memory_draw(dirt);
    for (int time = 0; time < 2; time++) {
        last_answer = ask_library(c, dirt);
        judge(c, &right);
        decoder_memory_draw_other(dirt);
    }
    struct decoder_outputs out = decoder_check_outputs();
    decoder_tally(c, sizes_of, &out);
}

void decoder_check_as(struct decoder_call *c, uint32_t sizes_of, uint32_t refusal)
{
    c->refusal = refusal;
    decoder_check(c, sizes_of);
}

void decoder_check_served(const struct decoder_call *c, uint32_t sizes_of)
{
    enum dirt dirt[SLICES];
    decoder_memory_draw(dirt);
    last_answer = ask_library(c, dirt);
    decoder_memory_want(c, want);
    for (size_t slice = FIRST_WRITTEN; slice < SLICES; slice++) {
        if (slice < INPUTS)
            memset(want[slice], 0, lent[slice]->len);
        else
            memcpy(want[slice], lent[slice]->at, lent[slice]->len);
    }
    judge(c, NULL);
    struct decoder_outputs out = decoder_check_outputs();
    for (size_t r = 0; r < out.rows; r++)
        if (!decoder_follows(c, out.inputs + (r << c->m)))
            decoder_check_fail(c, "a row does not follow the pairs");
    decoder_tally(c, sizes_of, &out);
}

struct decoder_outputs decoder_check_outputs(void)
{
    return (struct decoder_outputs){last_answer.rows, last_answer.ceiling, lent[INPUTS]->at, lent[WORDS]->at,
                                    (const int32_t *)(const void *)lent[SCORES]->at};
}
